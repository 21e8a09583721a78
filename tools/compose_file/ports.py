"""Published ports, in the short and the long form of Compose."""

from __future__ import annotations

from collections.abc import Iterable
from dataclasses import dataclass
import re

from compose_file.tree import Fault, Notes, Value
from compose_file.words import choice

MOST_PORT = 65_535


@dataclass(frozen=True)
class Port:
    """One port of a service; a number of none asks for any free one."""

    mode: str
    target: int
    number: int | None
    protocol: str
    line: int

    def word(self) -> str:
        word = "host" if self.mode == "host" else "port"
        number = "" if self.number is None else f":{self.number}"
        return f"{word}={self.target}{number}{'/udp' if self.protocol == 'udp' else ''}"

    def holds(self) -> tuple[str, str, int] | None:
        """What no other port may have."""
        return None if self.number is None else (self.mode, self.protocol, self.number)


@dataclass(frozen=True)
class Publication:
    """An item of `ports` as it is written: targets and numbers may be ranges."""

    value: Value
    targets: str
    numbers: str
    protocol: str
    mode: str

    def ports(self, notes: Notes) -> list[Port]:
        targets = port_range(self.value, self.targets)
        numbers: Iterable[int | None] = [None] * len(targets)
        if self.protocol not in ("tcp", "udp"):
            notes.no_word(self.value, f"the language has no word for {self.protocol}; the port is left out")
            return []
        if self.numbers:
            numbers = port_range(self.value, self.numbers)
            if len(targets) == 1 < len(numbers):
                notes.no_word(self.value, "the language has no word for any number of a range; the port is left out")
                return []
            if len(targets) != len(numbers):
                raise Fault(self.value.line, f"{self.value.path}: the two ranges differ in length")
        elif self.mode == "host":
            notes.no_word(self.value, "the language has no word for any port of a host; the port is left out")
            return []
        line = self.value.line
        return [Port(self.mode, target, number, self.protocol, line) for target, number in zip(targets, numbers)]


def port_range(value: Value, text: str) -> list[int]:
    match = re.fullmatch(r"([0-9]{1,5})(?:-([0-9]{1,5}))?", text)
    first, last = (int(match[1]), int(match[2] or match[1])) if match else (0, 0)
    if not 1 <= first <= last <= MOST_PORT:
        raise Fault(value.line, f"{value.path}: {text!r} is no port from 1 to {MOST_PORT}, and no range of them")
    return list(range(first, last + 1))


def short_form(value: Value, notes: Notes) -> Publication:
    """[[ADDRESS:]NUMBER:]TARGET[/PROTOCOL]"""
    text, _, protocol = value.text().partition("/")
    *address, numbers, targets = ["", *text.rsplit(":", 2)] if ":" in text else ["", text]
    if any(address):
        notes.no_word(value, f"the language has no word for the address {address[-1]}; the port is open on all")
    return Publication(value, targets, numbers, protocol.lower() or "tcp", "ingress")


def long_form(value: Value, notes: Notes) -> Publication:
    table = value.table()
    target, published = table.take("target"), table.take("published")
    protocol, mode = table.take("protocol"), table.take("mode")
    notes.no_words(table)
    if target is None:
        raise Fault(value.line, f"{value.path}: a port without a target")
    return Publication(
        value,
        target.text(),
        "" if published is None or published.text() == "0" else published.text(),
        "tcp" if protocol is None else protocol.text().lower(),
        "ingress" if mode is None else choice("ingress", "host")(mode, notes),
    )


def read_ports(value: Value | None, notes: Notes) -> list[Port]:
    """The ports of a service, those of the ingress first; no two of them exclude each other."""
    ports: list[Port] = []
    for item in value.items() if value else []:
        publication = long_form(item, notes) if item.is_table() else short_form(item, notes)
        ports += publication.ports(notes)
    held: dict[object, Port] = {}
    for port in ports:
        for key in (port.holds(), ("target", port.protocol, port.target) if port.mode == "ingress" else None):
            if key is not None and (other := held.setdefault(key, port)) is not port:
                raise Fault(port.line, f"the port {port.word()} excludes {other.word()} of line {other.line}")
    return sorted(ports, key=lambda port: port.mode == "host")
