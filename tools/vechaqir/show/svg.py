"""Parts of pictures: texts whose width is known, so that labels have room, and the frame of an SVG file."""
from __future__ import annotations

from html import escape
from typing import Iterable, Iterator

from .. import tables

# The families that pictures ask for; Verdana has the widths of DejaVu Sans, and most others are narrower.
FONT = "DejaVu Sans, Verdana, sans-serif"
INK, QUIET, LINE, PAPER = "#1f2933", "#5b6770", "#7b8794", "#f5f7f9"

# Widths of the characters 32 to 126 in thousandths of the size: DejaVu Sans, and its bold face.
PLAIN, BOLD = ([int(it) for it in row] for row in tables.rows("show/widths.rows"))


def text_width(words: str, size: float, is_bold: bool = False) -> float:
    """How wide a text is at a font size, both in the picture's units."""
    widths = BOLD if is_bold else PLAIN
    return sum(widths[ord(it) - 32] if 32 <= ord(it) <= 126 else 1000 for it in words) * size / 1000


def most_signs(size: float, width: float) -> int:
    """No more characters than these have room in a width."""
    return int(max(width, 0) * 1000 / (min(PLAIN) * size)) + 1


def cut(words: str, size: float, width: float, is_bold: bool = False) -> str:
    """A text, or the front of it and two dots where it is wider than this."""
    if text_width(words, size, is_bold) <= width:
        return words
    words = words[:most_signs(size, width)]
    while words and text_width(words + "..", size, is_bold) > width:
        words = words[:-1]
    return words + ".."


def cut_name(name: str, size: float, width: float, is_bold: bool = False) -> str:
    """A name, or two dots and its end if it is wider than this: names of one upper-level task begin with the same words."""
    if text_width(name, size, is_bold) <= width:
        return name
    name = name[-most_signs(size, width):]
    while name and text_width(".." + name, size, is_bold) > width:
        name = name[1:]
    return ".." + name


def text(x: float, y: float, words: str, size: float = 12, anchor: str = "start", is_bold: bool = False, colour: str = INK) -> str:
    """A line of text whose base line begins, has its middle, or ends at a place."""
    style = f' font-size="{size:g}"' + (f' text-anchor="{anchor}"' if anchor != "start" else "") + (' font-weight="bold"' if is_bold else "")
    return f'<text x="{x:.1f}" y="{y:.1f}"{style} fill="{colour}">{escape(words)}</text>'


def box(x: float, y: float, width: float, height: float, fill: str = PAPER, stroke: str = LINE, radius: float = 3, dashes: str = "") -> str:
    dashed = f' stroke-dasharray="{dashes}"' if dashes else ""
    return f'<rect x="{x:.1f}" y="{y:.1f}" width="{width:.1f}" height="{height:.1f}" rx="{radius:g}" fill="{fill}" stroke="{stroke}"{dashed}/>'


def line(x: float, y: float, to_x: float, to_y: float, stroke: str = LINE, width: float = 1) -> str:
    return f'<line x1="{x:.1f}" y1="{y:.1f}" x2="{to_x:.1f}" y2="{to_y:.1f}" stroke="{stroke}" stroke-width="{width:g}"/>'


def path(way: str, stroke: str = LINE, width: float = 1.2, is_arrow: bool = True) -> str:
    return f'<path d="{way}" fill="none" stroke="{stroke}" stroke-width="{width:g}"' + (' marker-end="url(#end)"' if is_arrow else "") + "/>"


def picture(width: float, height: float, parts: Iterable[str]) -> Iterator[str]:
    """The lines of an SVG file: these parts on white, so that it also stands on a dark page."""
    yield f'<svg xmlns="http://www.w3.org/2000/svg" width="{width:.0f}" height="{height:.0f}" viewBox="0 0 {width:.0f} {height:.0f}" font-family="{FONT}">'
    yield '<defs><marker id="end" markerUnits="userSpaceOnUse" markerWidth="9" markerHeight="8" refX="8" refY="4" orient="auto">'
    yield f'<path d="M0 0 L9 4 L0 8 Z" fill="{LINE}"/></marker></defs>'
    yield f'<rect width="{width:.0f}" height="{height:.0f}" fill="#ffffff"/>'
    yield from parts
    yield "</svg>"
