"""Marks on the lanes of nodes: sessions that begin and run out, faults and what ends them."""

from __future__ import annotations

from page_file.events import Event

# how an entry's text begins, before the node's id or name; how its reply begins, where it was done; the mark
BEGINNINGS = (
    ("duty agents register ", "", "session"),
    ("remote open ", "session ", "session"),
    ("duty dispatcher expire ", "", "expire"),
    ("node fail ", "ok ", "fail"),
    ("agent stop ", "ok ", "fail"),
    ("node start ", "ok ", "back"),
    ("agent start ", "ok ", "back"),
)


def mark_of(event: Event) -> tuple[str, str] | None:
    """The mark that an entry makes, with the name or the id of its node."""
    for text, reply, mark in BEGINNINGS:
        if event.text.startswith(text) and event.reply.startswith(reply):
            return mark, event.text.removeprefix(text).split(" ")[0]
    return None


def marks_of(events: list[Event]) -> list[tuple[int, int, str]]:
    """Each mark with its entry and its node's id."""
    marks: list[tuple[int, int, str]] = []
    ids: dict[str, int] = {}
    for event in events:
        if (found := mark_of(event)) is not None:
            mark, node = found
            # a duty names its node by id, a line of the script by name
            by_id = event.text.startswith("duty ")
            if by_id or node in ids:
                marks.append((event.entry, int(node) if by_id else ids[node], mark))
        for change in event.changes:
            if change.kind == "node" and change.verb == "delete":
                ids.pop(change.row["name"], None)
            elif change.kind == "node":
                ids[change.row["name"]] = change.id
    return marks
