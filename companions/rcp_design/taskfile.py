"""A task file as a document: its names in order, and its votes, which can be changed with all comments kept.

Nothing here judges a file; `rcp` does."""
from __future__ import annotations

import re
from collections.abc import Collection, Iterable, Mapping
from functools import cached_property
from pathlib import Path

from .answers import Node, read_node
from .stop import NO_PACKAGE, REFUSED, UNREADABLE, UNWRITABLE, USAGE, Stop, missing

try:
    import tomlkit
except ImportError:
    raise missing("python3-tomlkit") from None

# No recovery length is greater.
GREATEST_LIMIT = 2049
LIMIT_KEYS = {"format", "recovery_limit"}


def read_text(path: str) -> str:
    """A file's text. Its line ends are kept."""
    try:
        return Path(path).read_bytes().decode("utf-8")
    except OSError as error:
        raise Stop(f"can't read {path}: {error.strerror}", UNREADABLE) from None
    except UnicodeDecodeError:
        raise Stop(f"{path} is not UTF-8; `design where {path}` shows the line", REFUSED) from None


def write_text(path: str, text: str) -> None:
    """Writes a file, with the line ends of the text."""
    try:
        Path(path).write_bytes(text.encode("utf-8"))
    except OSError as error:
        raise Stop(f"can't write {path}: {error.strerror}", UNWRITABLE) from None


class TaskFile:
    """A task file that `rcp` took, or refused only for its pattern."""

    def __init__(self, text: str) -> None:
        self.text = text.removeprefix("\ufeff")
        try:
            document = tomlkit.parse(self.text)
        except tomlkit.exceptions.TOMLKitError as error:
            raise Stop(f"rcp takes the file, but tomlkit can't read it: {error}", NO_PACKAGE) from None
        self.document = document.unwrap()
        self._parts = self._cut(document)

    @classmethod
    def read(cls, path: str) -> TaskFile:
        """Reads a file."""
        return cls(read_text(path))

    @cached_property
    def cells(self) -> list[str]:
        """The cells' names in order."""
        return [str(cell["name"]) for cell in self.document["cell"]]

    @cached_property
    def tasks_of(self) -> list[list[str]]:
        """The names of each slot's tasks, in order."""
        return [[str(task) for task in slot["tasks"]] for slot in self.document["slot"]]

    @property
    def slots(self) -> int:
        """The number of slots."""
        return len(self.tasks_of)

    @cached_property
    def nodes(self) -> list[Node]:
        """All nodes, by slot and then by cell."""
        return [Node(slot, cell) for slot in range(self.slots) for cell in self.cells]

    @cached_property
    def votes(self) -> frozenset[Node]:
        """The vote pattern as it is written."""
        slots = enumerate(self.document["slot"])
        return frozenset(Node(number, str(cell)) for number, slot in slots for cell in slot["votes"])

    @cached_property
    def frame_ticks(self) -> int:
        """The length of a frame in ticks."""
        timing = self.document["timing"]
        return sum(int(timing[phase]) for phase in ("compute", "broadcast", "vote", "sync"))

    def with_votes(self, votes: Collection[Node]) -> str:
        """The text with these votes in place of its own."""
        return self._filled(votes, {key: str(self.document[key]) for key in LIMIT_KEYS if key in self.document})

    def limited(self, votes: Collection[Node], frames: int) -> str:
        """The text with these votes and this limit on the recovery length, as `thin` obeys it."""
        values = {"format": "2", "recovery_limit": str(min(frames, GREATEST_LIMIT))}
        new = "".join(f"{key} = {value}\n" for key, value in values.items() if key not in self.document)
        return new + self._filled(votes, values)

    def _filled(self, votes: Collection[Node], values: Mapping[str, str]) -> str:
        names: list[list[str]] = [[] for _ in range(self.slots)]
        for node in sorted(votes, key=lambda node: self._number[node.cell]):
            names[node.slot].append(f'"{node.cell}"')
        filled = [values[part] if part in values else f"[{', '.join(names[int(part)])}]" for part in self._parts[1::2]]
        return "".join(part for pair in zip(self._parts[0::2], [*filled, ""]) for part in pair)

    @cached_property
    def _number(self) -> dict[str, int]:
        return {cell: number for number, cell in enumerate(self.cells)}

    def _cut(self, document: tomlkit.TOMLDocument) -> list[str]:
        """The text cut where a list of votes, the format or the limit stands: every second part names what stood there."""
        mark = "design"
        while mark in self.text:
            mark += "_"
        for key in LIMIT_KEYS & self.document.keys():
            document[key] = f"{mark}:{key}"
        for number, slot in enumerate(document["slot"]):
            slot["votes"] = f"{mark}:{number}"
        return re.split(f'"{mark}:([a-z0-9_]+)"', tomlkit.dumps(document))


def pattern_lines(task_file: TaskFile, votes: Collection[Node]) -> list[str]:
    """The lines of a pattern, as `rcp` prints them."""
    lines = []
    for slot in range(task_file.slots):
        names = [cell for cell in task_file.cells if Node(slot, cell) in votes]
        lines.append(f"slot {slot} votes {' '.join(names) or '-'}")
    return lines


def read_pattern(words: str, task_file: TaskFile) -> frozenset[Node]:
    """The pattern that is meant by `all`, `none`, `file`, or nodes as `0:a 3:b`."""
    named = {"all": task_file.nodes, "none": (), "file": task_file.votes}
    if words in named:
        return frozenset(named[words])
    return frozenset(_known_nodes(words.split(), task_file))


def _known_nodes(words: Iterable[str], task_file: TaskFile) -> Iterable[Node]:
    known = set(task_file.nodes)
    for word in words:
        try:
            node = read_node(word)
        except ValueError:
            raise Stop(f"{word} is no node; a node is a slot and a cell, as 0:{task_file.cells[0]}", USAGE) from None
        if node not in known:
            raise Stop(f"the file has no node {word}; it has {task_file.slots} slots and the cells "
                       f"{', '.join(task_file.cells)}", USAGE)
        yield node
