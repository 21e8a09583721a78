"""A script as a log in etcd: a key for each line, numbered from 1 without a gap, and a key for where the log ends."""

from __future__ import annotations

from collections.abc import Sequence
from dataclasses import dataclass
import secrets

from replicated_log.etcd import Etcd

# etcd takes 128 operations at once.
MOST_AT_ONCE = 100


class LogFault(Exception):
    """The log isn't as it has to be."""


@dataclass(frozen=True)
class Log:
    etcd: Etcd
    name: str

    def line(self, number: int) -> str:
        return f"swarm/{self.name}/lines/{number:012}"

    @property
    def end(self) -> str:
        return f"swarm/{self.name}/end"

    @property
    def writer(self) -> str:
        return f"swarm/{self.name}/writer"

    def length(self) -> int:
        return self.etcd.count(self.line(0), f"swarm/{self.name}/lines0")

    def read(self, after: int, most: int = 1000) -> list[bytes]:
        """The lines after that number, as far as they are there."""
        # a range up to the log's end would cost etcd a step for each line that is left, whatever the limit
        rows = self.etcd.rows(self.line(after + 1), self.line(after + 1 + most))
        for number, row in enumerate(rows, after + 1):
            if row.key != self.line(number):
                raise LogFault(f"line {number} of {self.name} is missing, but not {row.key}")
        return [row.value for row in rows]

    def ends_at(self) -> int | None:
        """How many lines the log has for good; none while it is open."""
        row = self.etcd.get(self.end)
        return None if row is None else int(row.value)

    def append(self, lines: Sequence[bytes], after: int) -> int:
        """Appends up to 100 lines as the next ones, and gives the log's length; `after` is what it was or has been.

        They stand in the log together and once, whatever member fails meanwhile: a transaction whose answer was lost is
        tried again, and where its first line is there, the writer of that moment says whose it is.
        """
        mark = secrets.token_bytes(16)
        while True:
            first = self.line(after + 1)
            puts = [(self.line(number), line) for number, line in enumerate(lines, after + 1)]
            if self.etcd.put_where_absent([first, self.end], [*puts, (self.writer, mark)]):
                return after + len(lines)
            row = self.etcd.get(first)
            writer = self.etcd.get(self.writer, row.created) if row else None
            if writer is not None and writer.value == mark:
                return after + len(lines)
            if self.ends_at() is not None:
                raise LogFault(f"the log {self.name} is closed")
            after = self.length()

    def close(self) -> int:
        """Says that no line comes any more, and gives the number of lines."""
        while (ends_at := self.ends_at()) is None:
            length = self.length()
            self.etcd.put_where_absent([self.line(length + 1), self.end], [(self.end, str(length).encode())])
        return ends_at
