"""The places of a refused journal: from the row and the column that `rcp` prints to a line and a column of the text."""
from __future__ import annotations

import csv
import io
import re
from dataclasses import dataclass

REFUSAL = re.compile(r"journal refused: (J\d\d)(?: row (\d+))?(?: column (\d+))?$")
MEANING = {
    "J01": "the journal has more than 67,108,864 bytes",
    "J02": "the row doesn't have six fields",
    "J03": "the first line is not frame,kind,a,b,c,d",
    "J04": "this is no kind of row",
    "J05": "this is no number, or no name of the task file, or it must be empty",
    "J06": "the frame is less than that of the row before; of `end` it is to be greater",
    "J07": "a number is out of its range: a frame, a replica, a slot, a skew, a rate or a delay; or a replica tells itself",
    "J08": "an earlier row of the frame says the same thing",
    "J09": "`end` comes once, as the last row",
}
KINDS = ["sensor", "down", "cell", "slot", "act", "lie", "lieslot", "drop", "skew", "rate", "delay", "end"]
KIND_COLUMN = 2


@dataclass(frozen=True)
class RowFault:
    """A refusal of `rcp`, read. Rows count from 1 and columns from 1."""

    code: str
    row: int | None = None
    column: int | None = None


@dataclass(frozen=True)
class Row:
    """A record of a journal: the line on which it begins, counted from 1, its text and its fields."""

    line: int
    text: str
    fields: list[str]

    def column_of(self, field: int) -> int:
        """The column, counted from 1, at which a field begins; fields count from 1."""
        at, quoted = 0, False
        for number in range(1, field):
            while at < len(self.text) and (quoted or self.text[at] != ","):
                quoted ^= self.text[at] == '"'
                at += 1
            at += 1
        return at + 1


def read_fault(line: str) -> RowFault | None:
    """Reads the line of a refused journal; None where it is another line."""
    found = REFUSAL.match(line.strip())
    if found is None:
        return None
    code, row, column = found.groups()
    return RowFault(code, int(row) if row else None, int(column) if column else None)


def read_rows(data: bytes) -> list[Row]:
    """The records of a journal. The first is the header; blank lines are no records."""
    text = data.removeprefix(b"\xef\xbb\xbf").decode("utf-8", "replace")
    lines = io.StringIO(text, newline="").readlines()
    reader = csv.reader(lines)
    rows: list[Row] = []
    ended = 0
    for fields in reader:
        if fields:
            rows.append(Row(ended + 1, "".join(lines[ended:reader.line_num]).rstrip("\r\n"), fields))
        ended = reader.line_num
    return rows
