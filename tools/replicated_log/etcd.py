"""What a log asks of etcd, through the JSON gateway that each member has beside its client port."""

from __future__ import annotations

from base64 import b64decode, b64encode
from collections.abc import Sequence
from dataclasses import dataclass, field
from http.client import HTTPConnection, HTTPException
import json
import time
from typing import Any

# How long all members are asked again before a call is given up, and how long one answer may take, in seconds.
PATIENCE = 30.0
ONE_ANSWER = 3.0


class EtcdFault(Exception):
    """No member answers, or one says why it doesn't."""


@dataclass(frozen=True)
class Row:
    """A key with its value and the revision at which it came."""

    key: str
    value: bytes
    created: int


def coded(content: str | bytes) -> str:
    return b64encode(content.encode() if isinstance(content, str) else content).decode()


def rows_of(answer: dict[str, Any]) -> list[Row]:
    return [
        Row(b64decode(row["key"]).decode(), b64decode(row.get("value", "")), int(row["create_revision"]))
        for row in answer.get("kvs", [])
    ]


@dataclass
class Etcd:
    """A client of a cluster; it keeps to one member (`HOST:PORT`) until that one fails."""

    members: Sequence[str]
    chosen: int = 0
    connection: HTTPConnection | None = field(default=None, repr=False)

    def get(self, key: str, revision: int = 0) -> Row | None:
        """The key's row, as it was at the revision where one is named."""
        rows = rows_of(self.call("/v3/kv/range", {"key": coded(key), "revision": revision}))
        return rows[0] if rows else None

    def rows(self, first: str, end: str) -> list[Row]:
        """The rows with keys from the first up to, and without, the end, by rising key."""
        return rows_of(self.call("/v3/kv/range", {"key": coded(first), "range_end": coded(end)}))

    def count(self, first: str, end: str) -> int:
        """How many rows that are."""
        body = {"key": coded(first), "range_end": coded(end), "count_only": True}
        return int(self.call("/v3/kv/range", body).get("count", 0))

    def put_where_absent(self, absent: Sequence[str], puts: Sequence[tuple[str, bytes]]) -> bool:
        """All of the puts, if none of the keys is there; else nothing. A call that is made twice puts once."""
        compare = [{"key": coded(key), "target": "CREATE", "create_revision": 0, "result": "EQUAL"} for key in absent]
        success = [{"request_put": {"key": coded(key), "value": coded(value)}} for key, value in puts]
        return bool(self.call("/v3/kv/txn", {"compare": compare, "success": success}).get("succeeded", False))

    def call(self, path: str, body: dict[str, Any]) -> dict[str, Any]:
        """The answer of the first member that gives one."""
        content = json.dumps(body)
        until = time.monotonic() + PATIENCE
        while True:
            try:
                return self.ask(path, content)
            except (OSError, HTTPException) as error:
                if time.monotonic() > until:
                    raise EtcdFault(f"no answer from {', '.join(self.members)}: {error}") from error
                self.connection = None
                self.chosen = (self.chosen + 1) % len(self.members)
                time.sleep(0.1)

    def ask(self, path: str, content: str) -> dict[str, Any]:
        if self.connection is None:
            self.connection = HTTPConnection(self.members[self.chosen], timeout=ONE_ANSWER)
        self.connection.request("POST", path, content, {"Content-Type": "application/json"})
        answer = self.connection.getresponse()
        said: dict[str, Any] = json.loads(answer.read())
        if answer.status >= 500:
            raise HTTPException(said.get("error", answer.reason))
        if answer.status != 200:
            raise EtcdFault(said.get("error", answer.reason))
        return said
