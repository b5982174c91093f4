"""The picture of a vote pattern: slots by cells, what is set and voted, and the walk or the cycle."""
from __future__ import annotations

from dataclasses import dataclass

from .answers import Node, Verdict
from .svg import Picture, Point
from .taskfile import TaskFile

ROW, HEAD, FOOT, EDGE = 40, 92, 50, 18
LETTER = 6.2
INK, PALE, LINE = "#1a202c", "#718096", "#cbd5e0"
SET, VOTED, WALK = "#edf2f7", "#90cdf4", "#dd6b20"
RADIUS = 9


@dataclass(frozen=True)
class Sheet:
    """Where the nodes stand on the picture."""

    cells: list[str]
    slots: int
    left: float
    column: float

    @classmethod
    def fit(cls, cells: list[str], setters: list[dict[str, str]]) -> Sheet:
        """A sheet with room for the names of the cells and the tasks."""
        widest = max((len(task) for slot in setters for task in slot.values()), default=0)
        return cls(cells, len(setters), EDGE + 12 + LETTER * 1.2 * max(map(len, cells)), max(64, 16 + LETTER * widest))

    @property
    def width(self) -> float:
        """The width of the picture."""
        return max(self.left + self.column * self.slots + EDGE + 16, 520)

    @property
    def height(self) -> float:
        """The height of the picture."""
        return HEAD + ROW * len(self.cells) + FOOT

    def corner(self, node: Node) -> Point:
        """The upper left corner of a node's box."""
        return self.left + self.column * node.slot, HEAD + ROW * self.cells.index(node.cell)

    def centre(self, node: Node) -> Point:
        """Where a node's number stands in the walk."""
        x, y = self.corner(node)
        return x + self.column / 2, y + ROW - 14


def draw_grid(task_file: TaskFile, setters: list[dict[str, str]], verdict: Verdict, title: str, path: str) -> None:
    """Draws a file's pattern with what `check` says of it."""
    sheet = Sheet.fit(task_file.cells, setters)
    picture = Picture(sheet.width, sheet.height, title)
    picture.text((EDGE, 26), title, 15, weight="bold", fill=INK)
    picture.text((EDGE, 48), _told(verdict, task_file), 12, fill=INK)
    _draw_boxes(picture, sheet, task_file, setters)
    _draw_steps(picture, sheet, verdict)
    for number, node in enumerate(verdict.nodes, 1):
        centre = sheet.centre(node)
        picture.circle(centre, RADIUS, fill=WALK, tag="walk")
        picture.text((centre[0], centre[1] + 3.5), str(number), 10, anchor="middle", fill="#ffffff", weight="bold")
    _draw_legend(picture, sheet, "cycle" if verdict.recovery is None else "walk")
    picture.write(path)


def _told(verdict: Verdict, task_file: TaskFile) -> str:
    votes = f"{len(task_file.votes)} votes"
    if verdict.recovery is None:
        return f"{votes}, refused: a wrong value goes round the cycle for ever"
    return f"{votes}, recovery {verdict.recovery} frames"


def _draw_boxes(picture: Picture, sheet: Sheet, task_file: TaskFile, setters: list[dict[str, str]]) -> None:
    for slot in range(sheet.slots):
        x, _ = sheet.corner(Node(slot, sheet.cells[0]))
        picture.text((x + sheet.column / 2, HEAD - 10), f"slot {slot}", 12, anchor="middle", fill=INK, weight="bold")
    for cell in sheet.cells:
        _, y = sheet.corner(Node(0, cell))
        picture.text((sheet.left - 8, y + ROW / 2 + 4), cell, 12, anchor="end", fill=INK)
    for node in task_file.nodes:
        task = setters[node.slot].get(node.cell)
        is_voted = node in task_file.votes
        fill = VOTED if is_voted else SET if task else "#ffffff"
        tip = f"{node}: {f'set by {task}' if task else 'kept'}{', voted' if is_voted else ''}"
        picture.rectangle(sheet.corner(node), (sheet.column, ROW), tip, fill=fill, stroke=LINE,
                          tag="voted" if is_voted else "node")
        if task:
            x, y = sheet.corner(node)
            picture.text((x + 6, y + 12), task, 10, fill=INK if is_voted else PALE)


def _draw_steps(picture: Picture, sheet: Sheet, verdict: Verdict) -> None:
    """The lines of the steps. One from the last slot to the first leaves at the right edge and comes in at the left one."""
    nodes = verdict.nodes
    closing = nodes[:1] if verdict.recovery is None else ()
    for first, second in zip(nodes, nodes[1:] + closing):
        start, end = sheet.centre(first), sheet.centre(second)
        if second.slot > first.slot:
            _draw_step(picture, start, end)
            continue
        right = sheet.left + sheet.column * sheet.slots
        _draw_step(picture, start, (right + 12, start[1]))
        _draw_step(picture, (sheet.left, end[1]), end)


def _draw_step(picture: Picture, start: Point, end: Point) -> None:
    picture.line(start, end, stroke=WALK, width_of_line=2, opacity="0.8")


def _draw_legend(picture: Picture, sheet: Sheet, line: str) -> None:
    y = HEAD + ROW * len(sheet.cells) + 28
    x: float = EDGE
    for fill, words in ((SET, "set by the task"), (VOTED, "voted"), ("#ffffff", "kept, not voted")):
        picture.rectangle((x, y - 11), (18, 14), fill=fill, stroke=LINE)
        picture.text((x + 24, y), words, 11, fill=INK)
        x += 40 + LETTER * len(words)
    picture.line((x, y - 4), (x + 18, y - 4), stroke=WALK, width_of_line=2)
    picture.text((x + 24, y), f"the {line}, step by step", 11, fill=INK)
