"""The place at which a text is no TOML document."""
from __future__ import annotations

import re
from collections.abc import Iterator
from dataclasses import dataclass
from typing import Any

from .answers import GREATEST, LEAST
from .places import offset_to_line, tomlkit

try:
    import tomllib
except ImportError:
    tomllib = None

AT = re.compile(r" \(at line (\d+), column (\d+)\)$")
AT_END = " (at end of document)"


@dataclass(frozen=True)
class TomlFault:
    """Where reading stopped, counted from 1, the text of that line, and why."""

    line: int
    column: int
    text: str
    message: str


def toml_fault(data: bytes) -> TomlFault:
    """The first place at which these bytes are no document."""
    try:
        text = data.decode("utf-8")
    except UnicodeDecodeError as error:
        before = data[:error.start].decode("utf-8")
        return _at(data.decode("utf-8", "replace"), *offset_to_line(before, len(before)), "this byte is no UTF-8")
    text = text.removeprefix("\ufeff")
    return _by_tomllib(text) or _by_tomlkit(text) or _by_numbers(text)


def _at(text: str, line: int, column: int, message: str) -> TomlFault:
    lines = text.split("\n")
    return TomlFault(line, column, lines[line - 1].rstrip("\r") if line <= len(lines) else "", message)


def _by_tomllib(text: str) -> TomlFault | None:
    """By Python's own reader, where this Python has it: it is the stricter one."""
    if tomllib is None:
        return None
    try:
        tomllib.loads(text)
    except tomllib.TOMLDecodeError as error:
        told = str(error)
        place = AT.search(told)
        if place is None:
            return _at(text, *offset_to_line(text, len(text)), told.removesuffix(AT_END) + ": the text ends here")
        return _at(text, int(place[1]), int(place[2]), AT.sub("", told))
    return None


def _by_tomlkit(text: str) -> TomlFault | None:
    try:
        tomlkit.parse(text)
    except tomlkit.exceptions.ParseError as error:
        return _at(text, error.line, error.col + 1, str(error).split(" at line ")[0])
    except tomlkit.exceptions.TOMLKitError as error:
        return TomlFault(1, 1, text.split("\n")[0], str(error))
    return None


def _by_numbers(text: str) -> TomlFault:
    """Readers with numbers of any size pass over an integer past 64 bits."""
    for number in _integers(tomlkit.parse(text).unwrap()):
        if not LEAST <= number <= GREATEST:
            place = re.search("(?<![0-9])" + "_?".join(str(number)) + "(?![0-9])", text)
            if place is not None:
                return _at(text, *offset_to_line(text, place.start()), "an integer has 64 bits")
    return TomlFault(1, 1, text.split("\n")[0], "rcp takes it for no document, though other readers do; the place is not known")


def _integers(part: Any) -> Iterator[int]:
    if isinstance(part, dict):
        part = list(part.values())
    if isinstance(part, list):
        for item in part:
            yield from _integers(item)
    elif isinstance(part, int):
        yield part
