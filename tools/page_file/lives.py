"""The life of each row: what it was, from which entry on, and at which entry it went."""

from __future__ import annotations

from dataclasses import dataclass, field
from typing import Any

from page_file.events import Change, Event

# what the page shows of a row at each point of its life, in this order
SHOWN = {
    "node": ("name", "state", "desired"),
    "service": ("name", "state"),
    "task": ("name", "state", "desired", "node", "note"),
    "network": ("name",),
}


@dataclass
class Life:
    """A row's points, each with its entry; `gone` is the entry that took the row away, or 0."""

    id: int
    first: dict[str, Any]
    points: list[list[Any]] = field(default_factory=list)
    gone: int = 0

    def add(self, entry: int, change: Change) -> None:
        if change.verb == "delete":
            self.gone = entry
            return
        shown = [change.row[key] for key in SHOWN[change.kind]]
        # a row's version may rise without anything that is shown
        if not self.points or self.points[-1][1:] != shown:
            self.points.append([entry, *shown])


def lives_of(events: list[Event]) -> dict[str, list[Life]]:
    """The lives of all rows that ever were, by kind and then id; ids don't come back."""
    lives: dict[str, dict[int, Life]] = {kind: {} for kind in SHOWN}
    for event in events:
        for change in event.changes:
            life = lives[change.kind].setdefault(change.id, Life(change.id, change.row))
            life.add(event.entry, change)
    return {kind: [rows[key] for key in sorted(rows)] for kind, rows in lives.items()}
