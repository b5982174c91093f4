"""Shows the place of a fault in a file that `rcp` refuses: line, column, and what could be meant.

For a task file give it alone; for a journal give both. The exit status is that of rcp: 0 where nothing is refused."""
from __future__ import annotations

import argparse
from pathlib import Path

from .. import journalplaces, taskplaces
from ..answers import print_nodes
from ..journalplaces import KIND_COLUMN, KINDS, RowFault
from ..near import near
from ..places import Span, offset_to_line, tomlkit, value_span
from ..program import CYCLE, DONE, Rcp
from ..stop import REFUSED, Refused, Stop
from ..tomlfault import toml_fault

EXAMPLE = "where examples/motor.toml examples/motor_faults.csv"
BYTE_ORDER_MARK = "\ufeff"
WIDEST = 110


def add_arguments(parser: argparse.ArgumentParser) -> None:
    """The words of this command."""
    parser.add_argument("file", metavar="FILE", help="a task file")
    parser.add_argument("journal", metavar="JOURNAL", nargs="?", help="a journal of it")


def run(arguments: argparse.Namespace, rcp: Rcp) -> int:
    """Asks `rcp`, and shows the place."""
    words = ("ideal", arguments.file, arguments.journal) if arguments.journal else ("check", arguments.file)
    answer = rcp.run(*words)
    line = answer.text.strip()
    if answer.status == DONE:
        print("not refused")
        return DONE
    task_fault, row_fault = taskplaces.read_fault(line), journalplaces.read_fault(line)
    if task_fault is not None:
        shown = _task_file(arguments.file, task_fault)
    elif row_fault is not None:
        shown = _journal(arguments.journal, row_fault)
    elif answer.status == CYCLE:
        shown = _cycle(arguments.file, rcp)
    else:
        raise Refused(line, answer.status)
    print("\n".join(shown))
    return answer.status


def pointed(name: str, line: int, column: int, width: int, text: str, message: str) -> list[str]:
    """A message with its place, the line, and a caret below it; a long line is cut at both ends."""
    start = max(0, column - WIDEST // 2) if len(text) > WIDEST else 0
    shown = text[start:start + WIDEST].replace("\t", " ")
    caret = " " * (column - 1 - start) + "^" * max(1, min(width, WIDEST - (column - 1 - start)))
    return [f"{name}:{line}:{column}: {message}", f"  {shown}", f"  {caret}"]


def _in_text(name: str, text: str, span: Span, message: str) -> list[str]:
    line, column = offset_to_line(text, span.start)
    whole = text.split("\n")[line - 1].rstrip("\r")
    return pointed(name, line, column, min(span.end - span.start, len(whole) - column + 1), whole, message)


def _task_file(name: str, fault: taskplaces.Fault) -> list[str]:
    data = Path(name).read_bytes()
    if fault.code == "E02":
        found = toml_fault(data)
        return pointed(name, found.line, found.column, 1, found.text, f"E02: {found.message}")
    if fault.code == "E01":
        return [f"{name}: E01: {taskplaces.MEANING['E01']}; it has {len(data):,}"]
    text = data.decode("utf-8").removeprefix(BYTE_ORDER_MARK)
    try:
        placed = taskplaces.place_fault(text, fault)
    except tomlkit.exceptions.TOMLKitError as error:
        raise Stop(f"{name}: {fault.code}, but tomlkit can't read the file: {error}", REFUSED) from None
    shown = [f"{name}: {placed.message}"] if placed.span is None else _in_text(name, text, placed.span, placed.message)
    return shown + ([f"  in the task `{placed.task}`"] if placed.task else [])


def _journal(name: str, fault: RowFault) -> list[str]:
    rows = journalplaces.read_rows(Path(name).read_bytes())
    message = f"{fault.code}: {journalplaces.MEANING[fault.code]}"
    number = 0 if fault.row is None else fault.row
    if number >= len(rows):
        end = f"{name}:{rows[-1].line}: " if rows else f"{name}: "
        return [f"{end}{message}; the journal ends without it"]
    row = rows[number]
    field = fault.column or {"J04": KIND_COLUMN}.get(fault.code)
    if field is None:
        return pointed(name, row.line, 1, len(row.text), row.text, f"{message} (row {number})")
    word = row.fields[field - 1]
    hint = near(word, KINDS) if fault.code == "J04" else ""
    return pointed(name, row.line, row.column_of(field), len(word), row.text, f"{message}: `{word}`{hint} (row {number})")


def _cycle(name: str, rcp: Rcp) -> list[str]:
    """A cycle stands at the votes of its slots: one of its nodes must be voted."""
    nodes = rcp.check_file(name).nodes
    text = Path(name).read_text(encoding="utf-8").removeprefix(BYTE_ORDER_MARK)
    message = f"the votes leave a cycle open; one of these nodes must be voted: {print_nodes(nodes)}"
    span = value_span(text, ["slot", nodes[0].slot, "votes"])
    return [f"{name}: {message}"] if span is None else _in_text(name, text, span, message)
