"""A chart of whole numbers in steps."""
from __future__ import annotations

from collections.abc import Callable

from .svg import Picture, Point

LEFT, TOP, RIGHT, BOTTOM = 60, 50, 30, 50
WIDTH, HEIGHT = 560, 320
INK, GRID, LINE = "#1a202c", "#e2e8f0", "#2b6cb0"
TICKS = 8


def _marks(greatest: int) -> list[int]:
    """About eight round numbers from 0 up to the first that is not below the greatest."""
    step = next(size * 10 ** power for power in range(20) for size in (1, 2, 5) if size * 10 ** power * TICKS >= greatest)
    return list(range(0, greatest + step, step))


def draw_steps(points: list[tuple[int, int]], unit: str, path: str, title: str) -> None:
    """Draws points (recovery in frames, price): between two of them the one of the shorter recovery holds."""
    points = sorted(points)
    across, up = _marks(points[-1][0]), _marks(points[0][1])
    picture = Picture(LEFT + WIDTH + RIGHT, TOP + HEIGHT + BOTTOM, title)

    def at(frames: float, price: float) -> Point:
        return LEFT + WIDTH * frames / across[-1], TOP + HEIGHT * (1 - price / up[-1])

    picture.text((LEFT, 24), title, 15, weight="bold", fill=INK)
    _draw_axes(picture, across, up, at)
    picture.text((LEFT + WIDTH / 2, TOP + HEIGHT + 38), "recovery length, frames", 12, anchor="middle", fill=INK)
    picture.text((LEFT - 8, TOP - 12), unit, 12, anchor="end", fill=INK)
    corners = [at(*points[0])]
    for (_, before), (frames, price) in zip(points, points[1:]):
        corners += [at(frames, before), at(frames, price)]
    picture.path(corners, stroke=LINE, width_of_line=2)
    for frames, price in points:
        x, y = at(frames, price)
        picture.circle((x, y), 4, fill=LINE, tag="point")
        picture.text((x + 6, y - 6), str(price), 11, fill=INK)
    picture.write(path)


def _draw_axes(picture: Picture, across: list[int], up: list[int], at: Callable[[float, float], Point]) -> None:
    for mark in up:
        picture.line(at(0, mark), at(across[-1], mark), stroke=GRID)
        picture.text((LEFT - 8, at(0, mark)[1] + 4), str(mark), 11, anchor="end", fill=INK)
    for mark in across:
        picture.text((at(mark, 0)[0], TOP + HEIGHT + 18), str(mark), 11, anchor="middle", fill=INK)
