"""Shapes as SVG. Pages have hundreds of thousands of them, and a template would take most of the time for that.

What has one style is together, so that its class is written once: first areas, then lines over them, then texts. Lines
without a title are one path. So a browser has fewer elements.
"""
from __future__ import annotations

from collections import defaultdict
from html import escape
from typing import Dict, Iterable, List

from balisekit.drawing.sheet import Picture, Shape

Written = Dict[str, List[str]]
"""What is written of each style, or of each height."""


def escaped(text: str) -> str:
    """A text between elements. Most texts have nothing to escape, and looking for it first is faster."""
    return escape(text, quote=False) if "<" in text or "&" in text or ">" in text else text


def _look(style: str, quote: str) -> str:
    quote = '"' if " " in style else quote
    return f" class={quote}{style}{quote}" if style else ""


def _short(path: str) -> str:
    """A path without blanks."""
    return path.replace(" -", "-").replace(" ", ",")


def _paths(titled: Written, bare: Written, quote: str) -> List[str]:
    """Areas or lines: those of a style that have no title are one path."""
    found = []
    for style in dict.fromkeys((*titled, *bare)):
        inside, look = "".join(titled.get(style, ())), _look(style, quote)
        path = _short("".join(bare.get(style, ())))
        line = f"<path{{}} d={quote}{path}{quote} />" if path else ""
        found.append(f"<g{look}>{inside}{line.format('')}</g>" if inside else line.format(look))
    return found


def _texts(texts: Written, ticks: Written, quote: str) -> str:
    """The usual texts, and the others by style. Ticks of one height share its attribute."""
    rows = [f"<text y={quote}{y}{quote}>{''.join(row)}</text>" for y, row in ticks.items()]
    inside = "".join(texts.pop("", ()))
    for style, some in (*texts.items(), ("tick", rows)):
        inside += f"\n<g{_look(style, quote)}>{''.join(some)}</g>" if some else ""
    return f"<g{_look('text', quote)}>{inside}</g>" if inside else ""


def in_page(picture: Picture) -> str:
    """A picture in a page."""
    described = f"<desc>{escaped(picture.description)}</desc>" if picture.description else ""
    head = f'<svg class=picture role=img viewBox="0 0 {picture.width} {picture.height}">'
    return f"{head}<title>{escaped(picture.title)}</title>{described}\n{svg(picture.shapes, True)}\n</svg>\n"


def svg(shapes: Iterable[Shape], in_page: bool = False) -> str:
    """The shapes of a picture: for a file, or for a page, where attributes need no quotation marks.

    Titles and texts are escaped; all else is numbers and words of balisekit.
    """
    quote = "" if in_page else '"'
    layers: List[Written] = [defaultdict(list) for _ in range(6)]
    areas, bare_areas, lines, bare_lines, texts, ticks = layers
    for tag, style, title, x, y, width, height, path, text in shapes:
        if tag == "path" and not title:
            if path:
                bare_lines[style].append(path)
        elif style == "tick":
            ticks[y].append(f"<tspan x={quote}{x}{quote}>{escaped(text)}</tspan>")
        elif tag == "text":
            inside = f"{escaped(text)}<title>{escaped(title)}</title>" if title else escaped(text)
            texts[style].append(f"<text x={quote}{x}{quote} y={quote}{y}{quote}>{inside}</text>")
        else:
            is_area = tag == "rect"
            path = f"M{x},{y}h{width}v{height}H{x}z" if is_area else _short(path)
            if title:
                titled = f"<path d={quote}{path}{quote}><title>{escaped(title)}</title></path>"
                (areas if is_area else lines)[style].append(titled)
            else:
                bare_areas[style].append(path)
    written = (*_paths(areas, bare_areas, quote), *_paths(lines, bare_lines, quote), _texts(texts, ticks, quote))
    return ("" if in_page else "\n").join(written)
