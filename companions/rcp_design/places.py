"""Where the parts of a TOML document stand in its text.

tomlkit does not tell places, but writes a document back as it was. So a part is where two texts differ that differ in it."""
from __future__ import annotations

import re
from bisect import bisect_right
from collections.abc import Callable
from dataclasses import dataclass
from itertools import takewhile
from typing import Any

from .stop import missing

try:
    import tomlkit
    from tomlkit.container import OutOfOrderTableProxy
    from tomlkit.exceptions import TOMLKitError
    from tomlkit.items import AoT, Table
except ImportError:
    raise missing("python3-tomlkit") from None

PATH = re.compile(r"(?P<section>[a-z_]+|\?)(\[(?P<index>\d+)\])?(\.(?P<key>[a-z_]+|\?)(\[(?P<item>\d+)\])?)?$")
ESCAPE = re.compile(r"\\(u[0-9a-fA-F]{4}|U[0-9a-fA-F]{8}|[ \t]*\r?\n\s*|.)", re.DOTALL)
SHORT = {"b": "\b", "t": "\t", "n": "\n", "f": "\f", "r": "\r"}


@dataclass(frozen=True)
class Path:
    """The place of a fault as `rcp` prints it, as `slot[0].tasks[1]`. Key `?` is one that is not known."""

    section: str
    index: int | None = None
    key: str | None = None
    item: int | None = None

    @classmethod
    def read(cls, text: str) -> Path:
        """Reads a printed path."""
        found = PATH.match(text)
        if found is None:
            raise ValueError(f"no path: {text}")
        number = {name: None if found[name] is None else int(found[name]) for name in ("index", "item")}
        return cls(found["section"], number["index"], found["key"], number["item"])

    def keys(self) -> list[str | int]:
        """The keys that lead from the document to the part."""
        return [key for key in (self.section, self.index, self.key, self.item) if key is not None]


@dataclass(frozen=True)
class Span:
    """A part of a text, by its first offset and the one after its last."""

    start: int
    end: int


def offset_to_line(text: str, offset: int) -> tuple[int, int]:
    """The line and the column of an offset, both counted from 1."""
    starts = [0] + [match.end() for match in re.finditer("\n", text)]
    line = bisect_right(starts, offset)
    return line, offset - starts[line - 1] + 1


def lookup(document: Any, keys: list[str | int]) -> Any:
    """The part that the keys lead to. Raises LookupError or TypeError where there is none."""
    for key in keys:
        document = document[key]
    return document


def value_span(text: str, keys: list[str | int]) -> Span | None:
    """Where the value stands that the keys lead to; None where there is none, or where it is a table of its own lines."""
    def put(document: Any, mark: Any) -> None:
        if isinstance(lookup(document, keys), (AoT, Table, OutOfOrderTableProxy)):
            raise LookupError("a table of its own lines")
        lookup(document, keys[:-1])[keys[-1]] = mark

    return _difference(text, put)


def table_span(text: str, keys: list[str | int]) -> Span | None:
    """Where the head of a table, or of the first one of a list, stands: `[name]`, `[[name]]`, or an opening bracket."""
    def put(document: Any, value: Any) -> None:
        table = lookup(document, keys)
        table = table[0] if isinstance(table, AoT) else table
        if not isinstance(table, dict):
            raise TypeError("no table")
        table[next(iter(table), "design_mark")] = value

    inside = _difference(text, put)
    if inside is None:
        return None
    heads = list(re.finditer(r"(?m)^[ \t]*(\[.*?\]+)|(\{)", text[:inside.start]))
    return Span(heads[-1].start(heads[-1].lastindex), heads[-1].end(heads[-1].lastindex)) if heads else None


def key_span(text: str, keys: list[str | int]) -> Span | None:
    """Where the key stands that is the last of the keys."""
    value = value_span(text, keys) or table_span(text, keys)
    if value is None:
        return None
    start = text.rfind(str(keys[-1]), 0, max(value.end, value.start))
    return Span(start, start + len(str(keys[-1]))) if start >= 0 else None


def _difference(text: str, put: Callable[[Any, Any], None]) -> Span | None:
    """Where two texts differ in which `put` has put two values that share no first and no last character."""
    written = []
    for mark in (1, True):
        document = tomlkit.parse(text)
        try:
            put(document, mark)
        except (LookupError, TypeError, TOMLKitError):
            return None
        written.append(tomlkit.dumps(document))
    before = _shared(*written)
    after = _shared(written[0][before:][::-1], written[1][before:][::-1])
    return Span(before, len(text) - after) if written[0][:before] == text[:before] else None


def _shared(a: str, b: str) -> int:
    return sum(1 for _ in takewhile(lambda pair: pair[0] == pair[1], zip(a, b)))


def byte_offset(literal: str, byte: int) -> int:
    """The offset in a TOML text's literal, its quotes counted, of a byte of what it says."""
    quotes = 3 if literal[:3] in ('"""', "'''") else 1
    at = quotes + (len(re.match(r"\r?\n|", literal[quotes:])[0]) if quotes == 3 else 0)
    end = len(literal) - quotes
    while at < end:
        taken, said = _character(literal, at)
        size = len(said.encode("utf-8", "surrogatepass"))
        if byte < size:
            break
        byte -= size
        at += taken
    return at


def _character(literal: str, at: int) -> tuple[int, str]:
    """How many characters of the literal stand for the next character, and that one; an escaped line end says nothing."""
    escape = ESCAPE.match(literal, at) if literal[0] == '"' else None
    if escape is None:
        return 1, literal[at]
    body = escape[1]
    if body[0] in "uU" and len(body) > 1:
        return len(escape[0]), chr(int(body[1:], 16))
    return len(escape[0]), "" if body[0] in " \t\r\n" else SHORT.get(body, body)
