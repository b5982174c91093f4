"""A picture as SVG, made of a few shapes. Lengths are in pixels."""
from __future__ import annotations

import xml.etree.ElementTree as ET
from collections.abc import Iterable

from .taskfile import write_text

Point = tuple[float, float]


class Picture:
    """A white sheet on which shapes are put, each above those before."""

    def __init__(self, width: float, height: float, title: str) -> None:
        self._root = ET.Element("svg", {
            "xmlns": "http://www.w3.org/2000/svg", "width": _number(width), "height": _number(height),
            "viewBox": f"0 0 {_number(width)} {_number(height)}", "font-family": "Helvetica, Arial, sans-serif"})
        ET.SubElement(self._root, "title").text = title
        self.rectangle((0, 0), (width, height), fill="#ffffff")

    def rectangle(self, corner: Point, size: Point, tip: str | None = None, **style: str | float) -> None:
        """A rectangle; `tip` is what a viewer shows under the pointer."""
        self._shape("rect", tip, style, x=corner[0], y=corner[1], width=size[0], height=size[1])

    def line(self, start: Point, end: Point, **style: str | float) -> None:
        """A straight line."""
        self._shape("line", None, style, x1=start[0], y1=start[1], x2=end[0], y2=end[1])

    def circle(self, centre: Point, radius: float, **style: str | float) -> None:
        """A circle."""
        self._shape("circle", None, style, cx=centre[0], cy=centre[1], r=radius)

    def path(self, points: Iterable[Point], **style: str | float) -> None:
        """A line through points."""
        self._shape("polyline", None, {"fill": "none", **style},
                    points=" ".join(f"{_number(x)},{_number(y)}" for x, y in points))

    def text(self, place: Point, words: str, size: float = 12, **style: str | float) -> None:
        """A line of text that begins at the place, or stands round it with `anchor`."""
        shape = self._shape("text", None, style, x=place[0], y=place[1])
        shape.set("font-size", _number(size))
        shape.text = words

    def write(self, path: str) -> None:
        """Writes the picture."""
        ET.indent(self._root)
        write_text(path, ET.tostring(self._root, encoding="unicode") + "\n")

    def _shape(self, tag: str, tip: str | None, style: dict[str, str | float], **place: str | float) -> ET.Element:
        names = {"anchor": "text-anchor", "width_of_line": "stroke-width", "weight": "font-weight", "dashes": "stroke-dasharray",
                 "tag": "class"}
        attributes = {names.get(key, key): _number(value) for key, value in {**place, **style}.items()}
        shape = ET.SubElement(self._root, tag, attributes)
        if tip is not None:
            ET.SubElement(shape, "title").text = tip
        return shape


def _number(value: str | float) -> str:
    return value if isinstance(value, str) else f"{value:.1f}".removesuffix(".0")
