"""The lines of events: read one by one, each key with its type, each row in step with the lines before."""

from __future__ import annotations

from dataclasses import dataclass
import json
from typing import Any

NODE_STATES = ("UNKNOWN", "DOWN", "DISCONNECTED", "READY")
TASK_STATES = (
    *("NEW", "PENDING", "ASSIGNED", "ACCEPTED", "PREPARING", "READY", "STARTING", "RUNNING"),
    *("COMPLETE", "SHUTDOWN", "FAILED", "REJECTED", "REMOVE", "ORPHANED"),
)
Keys = dict[str, type | tuple[type, ...]]
OF_AN_ENTRY: Keys = {"entry": int, "clock": int, "caller": int, "text": str, "reply": str, "changes": list}
OF_A_ROW: Keys = {"verb": str, "kind": str, "id": int, "name": str}
OF_A_KIND: dict[str, Keys] = {
    "node": {"state": str, "desired": str},
    "service": {"state": str},
    "task": {
        **{"state": str, "desired": str, "node": (int, type(None)), "service": int, "place": str, "note": str},
    },
    "network": {},
}
STATES = {"node": NODE_STATES, "task": TASK_STATES}
VERBS = ("create", "update", "delete")


class Fault(Exception):
    """The events can't be meant: at which line, and why."""

    def __init__(self, line: int, why: str) -> None:
        super().__init__(why)
        self.line = line
        self.why = why


@dataclass(frozen=True)
class Change:
    """What an entry made of one row; keys that its kind doesn't have are left out of `row`."""

    verb: str
    kind: str
    id: int
    row: dict[str, Any]


@dataclass(frozen=True)
class Event:
    """One entry of the journal."""

    entry: int
    clock: int
    caller: int
    text: str
    reply: str
    changes: list[Change]


def typed(line: int, what: str, value: Any, keys: Keys) -> dict[str, Any]:
    """The value as an object with these keys; others may stand beside them."""
    if not isinstance(value, dict):
        raise Fault(line, f"{what} has to be an object")
    for key, kind in keys.items():
        if key not in value:
            raise Fault(line, f"{what} has no key {key!r}")
        if not isinstance(value[key], kind) or isinstance(value[key], bool):
            raise Fault(line, f"{key!r} of {what} can't be {json.dumps(value[key])}")
    return value


def read_change(line: int, value: Any) -> Change:
    row = typed(line, "a change", value, OF_A_ROW)
    verb, kind = row["verb"], row["kind"]
    if verb not in VERBS:
        raise Fault(line, f"there is no verb {verb!r}")
    if kind not in OF_A_KIND:
        raise Fault(line, f"there is no kind {kind!r}")
    typed(line, f"a {kind}", row, OF_A_KIND[kind])
    if kind in STATES and row["state"] not in STATES[kind]:
        raise Fault(line, f"a {kind} has no state {row['state']!r}")
    return Change(verb, kind, row["id"], row)


def read_event(line: int, text: bytes) -> Event:
    try:
        value = json.loads(text.decode())
    except UnicodeDecodeError as error:
        raise Fault(line, "not UTF-8") from error
    except json.JSONDecodeError as error:
        raise Fault(line, f"not JSON: {error.msg} at column {error.colno}") from error
    except RecursionError as error:
        raise Fault(line, "nested too deeply") from error
    keys = typed(line, "an entry", value, OF_AN_ENTRY)
    changes = [read_change(line, change) for change in keys["changes"]]
    return Event(keys["entry"], keys["clock"], keys["caller"], keys["text"], keys["reply"], changes)


def check_rows(line: int, event: Event, there: set[tuple[str, int]]) -> None:
    """A row is made once, changes only while it is there, and goes once."""
    for change in event.changes:
        key = (change.kind, change.id)
        if (change.verb == "create") == (key in there):
            now = "is there already" if key in there else "isn't there"
            raise Fault(line, f"{change.verb} of {change.kind} {change.id}, which {now}")
        if change.verb == "create":
            there.add(key)
        elif change.verb == "delete":
            there.remove(key)


def read_events(source: bytes) -> list[Event]:
    """All events: entries from 1 on, none left out, with a clock that never goes back."""
    events: list[Event] = []
    there: set[tuple[str, int]] = set()
    for line, text in enumerate(source.splitlines(), 1):
        event = read_event(line, text)
        if event.entry != line:
            raise Fault(line, f"entry {event.entry} stands where entry {line} belongs")
        if event.clock < (events[-1].clock if events else 0):
            raise Fault(line, f"the clock goes back to {event.clock}")
        check_rows(line, event, there)
        events.append(event)
    if not events:
        raise Fault(1, "there are no events")
    return events
