"""Pieces of SVG. All their numbers are whole, so the text is the same on any machine; a hundred of them are a pixel."""
from collections.abc import Iterable
from dataclasses import dataclass
from math import isqrt
from xml.sax.saxutils import escape

from ngc_tools.shown import shown

Pair = tuple[int, int]

PIXEL = 100
INK, FAINT, GRID, PAPER = "#333333", "#999999", "#e4e4e4", "#fbfbfb"


@dataclass(frozen=True, slots=True)
class Box:
    """A rectangle of the page: its upper left corner, its width and height."""

    x: int
    y: int
    width: int
    height: int

    @property
    def right(self) -> int:
        """Its right end."""
        return self.x + self.width

    @property
    def below(self) -> int:
        """Its lower end."""
        return self.y + self.height

    def has(self, point: Pair) -> bool:
        """Whether a point lies in it."""
        return self.x <= point[0] <= self.right and self.y <= point[1] <= self.below

    def clipped(self, content: Iterable[str]) -> list[str]:
        """What is drawn in it; what would stand out is cut off."""
        place = f'x="{self.x}" y="{self.y}" width="{self.width}" height="{self.height}"'
        shown_there = f"{self.x} {self.y} {self.width} {self.height}"
        return [f'<svg {place} viewBox="{shown_there}">', *content, "</svg>"]


def rectangle(box: Box, style: str) -> str:
    """A rectangle."""
    return f'<rect x="{box.x}" y="{box.y}" width="{box.width}" height="{box.height}" {style}/>'


def path(data: str, style: str) -> str:
    """A path that isn't filled."""
    return f'<path fill="none" {style} d="{data}"/>'


def line(start: Pair, end: Pair, style: str) -> str:
    """A straight line."""
    return path(f"M{start[0]} {start[1]} {end[0]} {end[1]}", style)


def stroke(colour: str, width: int, more: str = "") -> str:
    """The style of a line, its width in hundredths of a pixel."""
    return f'stroke="{colour}" stroke-width="{width}"' + (f" {more}" if more else "")


def text(at: Pair, size: int, said: str, anchor: str = "start", family: str = "sans-serif") -> str:
    """A line of text, its size in hundredths of a pixel."""
    end = "" if anchor == "start" else f' text-anchor="{anchor}"'
    return (f'<text x="{at[0]}" y="{at[1]}" font-family="{family}" font-size="{size}"{end} fill="{INK}" '
            f'xml:space="preserve">{escape(shown(said))}</text>')


def ring(at: Pair, radius: int, style: str) -> str:
    """A circle."""
    return f'<circle cx="{at[0]}" cy="{at[1]}" r="{radius}" {style}/>'


def arrow(at: Pair, along: Pair, colour: str) -> str:
    """A small arrow head at a point, that points along a direction."""
    size = isqrt(along[0] ** 2 + along[1] ** 2) or 1
    x, y = along[0] * 4 * PIXEL // size, along[1] * 4 * PIXEL // size
    tip = f"{at[0] + x} {at[1] + y}"
    left = f"{at[0] - x - y * 3 // 4} {at[1] - y + x * 3 // 4}"
    right = f"{at[0] - x + y * 3 // 4} {at[1] - y - x * 3 // 4}"
    return f'<path fill="{colour}" d="M{tip} {left} {right}Z"/>'
