"""The tree of a YAML file, in which each value knows its line and the keys that lead to it."""

from __future__ import annotations

from dataclasses import dataclass, field

import yaml

MERGE = "tag:yaml.org,2002:merge"
NULL = "tag:yaml.org,2002:null"


class Fault(Exception):
    """The file can't be meant: at which line, and why."""

    def __init__(self, line: int, why: str) -> None:
        super().__init__(why)
        self.line = line
        self.why = why


@dataclass(frozen=True)
class Value:
    """What a key or an item of a list has; the line is the key's or the item's."""

    path: str
    line: int
    node: yaml.Node

    def text(self) -> str:
        """The scalar as it is written, so that no `22:22` and no `no` turns into something else."""
        if not isinstance(self.node, yaml.ScalarNode):
            raise Fault(self.line, f"{self.path} has to be a single value")
        return str(self.node.value)

    def items(self) -> list[Value]:
        """The items of a list."""
        if not isinstance(self.node, yaml.SequenceNode):
            raise Fault(self.line, f"{self.path} has to be a list")
        return [Value(f"{self.path}[{i}]", line_of(item), item) for i, item in enumerate(self.node.value)]

    def table(self) -> Table:
        """The keys of a mapping; nothing at all is an empty one."""
        return Table(self.line, {} if self.is_null() else entries_of(self))

    def is_null(self) -> bool:
        return self.node.tag == NULL

    def is_table(self) -> bool:
        return isinstance(self.node, yaml.MappingNode)


@dataclass
class Table:
    """A mapping. Keys are taken from it, and those that are left have no reader."""

    line: int
    entries: dict[str, Value]

    def take(self, key: str) -> Value | None:
        """The key's value; none where it isn't there or is null."""
        value = self.entries.pop(key, None)
        return None if value is None or value.is_null() else value

    def take_table(self, key: str) -> Table:
        """The key's mapping; an empty one where it isn't there."""
        value = self.take(key)
        return Table(self.line, {}) if value is None else value.table()


@dataclass
class Notes:
    """What the language can't say, each with its line."""

    lines: list[tuple[int, str]] = field(default_factory=list)

    def no_word(self, value: Value, why: str = "the language has no word for it") -> None:
        self.lines.append((value.line, f"{value.path}: {why}"))

    def no_words(self, table: Table) -> None:
        """Names all keys that nobody took."""
        for value in table.entries.values():
            self.no_word(value)


def line_of(node: yaml.Node) -> int:
    return int(node.start_mark.line) + 1


def entries_of(value: Value) -> dict[str, Value]:
    """A mapping's values by their keys; its own go before what `<<` merges in, the first of that before the rest."""
    if not isinstance(value.node, yaml.MappingNode):
        raise Fault(value.line, f"{value.path} has to be a mapping")
    own: dict[str, Value] = {}
    merged: dict[str, Value] = {}
    for key, node in value.node.value:
        path = f"{value.path}.{key.value}".removeprefix(".")
        if key.tag == MERGE:
            sources = node.value if isinstance(node, yaml.SequenceNode) else [node]
            for source in sources:
                merged = entries_of(Value(value.path, line_of(key), source)) | merged
        else:
            own[key.value] = Value(path, line_of(key), node)
    return merged | own


def check_keys(node: yaml.Node, above: frozenset[int], seen: set[int]) -> None:
    """Every key is a single value and stands once in its mapping, and no alias stands within what it names."""
    if id(node) in above:
        raise Fault(line_of(node), "an alias stands within what it names")
    if id(node) in seen:
        return
    seen.add(id(node))
    parts = node.value if isinstance(node, yaml.SequenceNode) else []
    if isinstance(node, yaml.MappingNode):
        parts = [value for _, value in node.value]
        lines: dict[str, int] = {}
        for key, _ in node.value:
            if not isinstance(key, yaml.ScalarNode):
                raise Fault(line_of(key), "a key has to be a single value")
            if key.value in lines:
                raise Fault(line_of(key), f"the key {key.value!r} stands twice, first at line {lines[key.value]}")
            lines[key.value] = line_of(key)
    for part in parts:
        check_keys(part, above | {id(node)}, seen)


def parse(source: bytes) -> Value:
    """The whole file as a value without a key."""
    try:
        text = source.decode("utf-8-sig")
        node = yaml.compose(text, Loader=yaml.SafeLoader)  # type: ignore[no-untyped-call]
        if node is None:
            raise Fault(1, "the file is empty")
        check_keys(node, frozenset(), set())
    except UnicodeDecodeError as error:
        raise Fault(source[: error.start].count(b"\n") + 1, "not UTF-8") from error
    except yaml.MarkedYAMLError as error:
        mark = error.problem_mark or error.context_mark
        raise Fault(mark.line + 1 if mark else 1, error.problem or "not YAML") from error
    except yaml.reader.ReaderError as error:
        raise Fault(text[: error.position].count("\n") + 1, error.reason) from error
    except RecursionError as error:
        raise Fault(1, "nested too deeply") from error
    return Value("", line_of(node), node)
