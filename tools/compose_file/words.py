"""Single values of a Compose file in the language's units: milliseconds, thousandths of a processor, bytes."""

from __future__ import annotations

from collections.abc import Callable
from fractions import Fraction
import math
import re

from compose_file.tree import Fault, Notes, Table, Value

A_DAY = 86_400_000
A_NUMBER = 2**64 - 1
MOST_ITEMS = 32
UNITS_OF_TIME = {
    "h": Fraction(3_600_000),
    "m": Fraction(60_000),
    "s": Fraction(1_000),
    "ms": Fraction(1),
    "us": Fraction(1, 1_000),
    "µs": Fraction(1, 1_000),
    "ns": Fraction(1, 1_000_000),
}
DECIMAL = r"\d+(?:\.\d*)?|\.\d+"
SPAN = re.compile(rf"({DECIMAL})(h|ms|m|s|us|µs|ns)", re.ASCII)
SIZE = re.compile(rf"({DECIMAL}) ?([kmgtp]?)i?b?", re.ASCII | re.IGNORECASE)
NAME = re.compile(r"[A-Za-z0-9][A-Za-z0-9_.-]{0,62}", re.ASCII)

# A reader of a single value; the notes are for what it rounds.
Reader = Callable[[Value, Notes], str]
# A key of Compose, the language's word for it, and how its value is read.
Field = tuple[str, str, Reader]


def number(value: Value, most: int) -> int:
    text = value.text()
    if not re.fullmatch(r"0|[1-9][0-9]*", text):
        raise Fault(value.line, f"{value.path}: {text!r} is no number")
    if int(text) > most:
        raise Fault(value.line, f"{value.path}: {text} is more than the language takes, {most}")
    return int(text)


def name(value: Value, text: str) -> str:
    if not NAME.fullmatch(text):
        raise Fault(value.line, f"{value.path}: {text!r} is no name of 1 to 63 letters, digits, -, _ and .")
    return text


def whole(value: Value, exact: Fraction, unit: str, most: int, notes: Notes) -> str:
    """The least whole number that isn't below; it is said where that isn't the exact one."""
    up = math.ceil(exact)
    if up > most:
        raise Fault(value.line, f"{value.path}: {value.text()} is more than the language takes, {most} {unit}")
    if up != exact:
        notes.no_word(value, f"{value.text()} becomes {up} {unit}, the language's least step")
    return str(up)


def count(value: Value, notes: Notes) -> str:
    return str(number(value, A_NUMBER))


def duration(value: Value, notes: Notes) -> str:
    """A time such as `1m30s` in milliseconds."""
    text = value.text()
    spans = SPAN.findall(text)
    if "".join(amount + unit for amount, unit in spans) != text or not (spans or text == "0"):
        raise Fault(value.line, f"{value.path}: {text!r} is no time such as 1m30s")
    exact = sum((Fraction(amount) * UNITS_OF_TIME[unit] for amount, unit in spans), Fraction(0))
    return whole(value, exact, "ms", A_DAY, notes)


def size(value: Value, notes: Notes) -> str:
    """An amount of memory such as `1.5G` in bytes."""
    match = SIZE.fullmatch(value.text())
    if not match:
        raise Fault(value.line, f"{value.path}: {value.text()!r} is no size such as 512M")
    power = " kmgtp".index(match[2].lower() or " ")
    return whole(value, Fraction(match[1]) * 1024**power, "bytes", 2**60, notes)


def thousandths(most: int) -> Reader:
    def read(value: Value, notes: Notes) -> str:
        if not re.fullmatch(DECIMAL, value.text(), re.ASCII):
            raise Fault(value.line, f"{value.path}: {value.text()!r} is no decimal number")
        return whole(value, Fraction(value.text()) * 1000, "thousandths", most, notes)

    return read


def choice(*words: str) -> Reader:
    def read(value: Value, notes: Notes) -> str:
        if value.text() not in words:
            raise Fault(value.line, f"{value.path}: {value.text()!r} is none of {', '.join(words)}")
        return value.text()

    return read


def fields(table: Table, known: tuple[Field, ...], notes: Notes) -> list[str]:
    """The words of the keys that are given, in the order in which they are known; others are named."""
    given = [(word, read(value, notes)) for key, word, read in known if (value := table.take(key)) is not None]
    notes.no_words(table)
    return [f"{word}={text}" for word, text in given]


def few(value: Value, words: list[str]) -> list[str]:
    if len(words) > MOST_ITEMS:
        raise Fault(value.line, f"{value.path}: {len(words)} items, and the language takes {MOST_ITEMS}")
    return words
