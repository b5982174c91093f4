"""The places of a refused task file: from the code and the path that `rcp` prints to a span of the text, and what to say."""
from __future__ import annotations

import re
from dataclasses import dataclass
from typing import Any

from .near import near
from .places import Path, Span, byte_offset, key_span, lookup, table_span, tomlkit, value_span

REFUSAL = re.compile(r"task file refused: (E\d\d)(?: (?!rule)(\S+))?(?: byte (\d+))?(?: rule (\d))?$")
NAME = re.compile(r"[A-Za-z_][A-Za-z0-9_]*")
MEANING = {
    "E01": "the file has more than 1,048,576 bytes",
    "E02": "this is no TOML document",
    "E03": "a key is absent, unknown, of another type or out of range",
    "E04": "a name breaks the rule for names, or repeats an earlier one",
    "E05": "here the text leaves the task language",
    "E06": "an expression names no sensor, no cell and no let before it",
    "E07": "this may not be set or defined: it is no cell, or was set before; or a let has the name of something else",
    "E08": "this names no task, or no cell",
    "E09": "this repeats an entry, or sets a cell that an earlier task of the slot sets",
    "E10": "timing rule {rule} fails; `design timing FILE` shows both sides of each",
}
ITEM = {"name", "initial"}
KEYS = {
    "timing": {"compute", "broadcast", "vote", "sync", "skew", "drift_ppm", "delay_min", "delay_max", "skew_limit",
               "drift_limit_ppm"},
    "sensor": ITEM, "cell": ITEM | {"vote"}, "task": {"name", "body"}, "slot": {"tasks", "votes"},
    "actuator": {"name", "value"},
    "": {"format", "replicas", "recovery_limit", "timing", "sensor", "cell", "task", "slot", "actuator"},
}
SECOND_FORMAT = {("", "recovery_limit"), ("cell", "vote")}


@dataclass(frozen=True)
class Fault:
    """A refusal of `rcp`, read."""

    code: str
    path: Path | None = None
    byte: int | None = None
    rule: int | None = None


@dataclass(frozen=True)
class Placed:
    """What is wrong, and where in the text; None where no part of the text stands for it."""

    message: str
    span: Span | None
    task: str | None = None


def read_fault(line: str) -> Fault | None:
    """Reads the line of a refused task file; None where it is another line."""
    found = REFUSAL.match(line.strip())
    if found is None:
        return None
    code, path, byte, rule = found.groups()
    return Fault(code, Path.read(path) if path else None, int(byte) if byte else None, int(rule) if rule else None)


def place_fault(text: str, fault: Fault) -> Placed:
    """Places a fault of a text that tomlkit reads."""
    document = tomlkit.parse(text)
    message = f"{fault.code}: {MEANING[fault.code].format(rule=fault.rule)}"
    if fault.path is None:
        return Placed(message, table_span(text, ["timing"]) if fault.code == "E10" else None)
    if fault.path.key == "?" or fault.path.section == "?":
        return _unknown_key(text, document, fault, message)
    keys = fault.path.keys()
    span = value_span(text, keys) or table_span(text, keys)
    if span is None:
        return _absent(text, keys, message)
    if fault.byte is not None:
        span = _token(text, span, fault.byte)
    return Placed(message + _more(text, document, fault, span), span, _task_name(document, fault.path))


def _token(text: str, span: Span, byte: int) -> Span:
    """The name, or the one character, at a byte of a body."""
    start = span.start + byte_offset(text[span.start:span.end], byte)
    name = NAME.match(text, start, span.end)
    return Span(start, name.end() if name else start + 1)


def _absent(text: str, keys: list[str | int], message: str) -> Placed:
    """A key that is not there stands for the table that ought to have it."""
    where = f"{message}: there is no `{keys[-1]}` here"
    return Placed(where, table_span(text, keys[:-1]) if keys[:-1] else None)


def _unknown_key(text: str, document: Any, fault: Fault, message: str) -> Placed:
    """`rcp` says only that a key is not known; the first such key of the table is shown."""
    keys: list[str | int] = [] if fault.path.section == "?" else fault.path.keys()[:-1]
    known = KEYS[str(keys[0]) if keys else ""]
    is_second = document.get("format") == 2
    for key in lookup(document, keys):
        is_newer = (str(keys[0]) if keys else "", key) in SECOND_FORMAT
        if key not in known or is_newer and not is_second:
            hint = "; it wants `format = 2`" if is_newer else near(key, known)
            return Placed(f"{message}: `{key}`{hint}", key_span(text, [*keys, key]))
    return Placed(message, None)


def _task_name(document: Any, path: Path) -> str | None:
    if path.section != "task" or path.index is None:
        return None
    name = document["task"][path.index].get("name")
    return str(name) if name is not None else None


def _more(text: str, document: Any, fault: Fault, span: Span) -> str:
    """What the document tells beyond the code's meaning: near names, or what is repeated."""
    word = text[span.start:span.end].strip("\"'")
    if fault.code in ("E06", "E07"):
        cells = _names(document, "cell")
        known = cells if fault.code == "E07" else cells + _names(document, "sensor") + _lets(document, fault.path)
        return f": `{word}`" + ("" if word in known else near(word, known))
    if fault.code == "E08":
        kind = "task" if fault.path.key == "tasks" else "cell"
        return f": no {kind} `{word}`" + near(word, _names(document, kind))
    if fault.code == "E09":
        return f": `{word}`"
    if fault.code == "E04":
        return f": `{word}`"
    return ""


def _names(document: Any, section: str) -> list[str]:
    return [str(item["name"]) for item in document.get(section, [])]


def _lets(document: Any, path: Path) -> list[str]:
    """The names after `let` in a body."""
    return re.findall(r"\blet\s+([a-z][a-z0-9_]*)", str(document[path.section][path.index].get(path.key, "")))
