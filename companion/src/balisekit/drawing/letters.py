"""How wide a text is: by the letters of DejaVu Sans, the font of pictures. Arial, their other font, is narrower."""
from __future__ import annotations

from functools import lru_cache
from typing import Dict, Mapping, NamedTuple, Tuple
from unicodedata import normalize

from balisekit.etcs.holes import HOLE, as_kilometre

PRINTABLE = "".join(map(chr, range(32, 127)))


def _widths(numbers: str, others: Mapping[str, int]) -> Dict[str, int]:
    return {**dict(zip(PRINTABLE, map(int, numbers.split()))), **others}


WIDTHS = (
    _widths(
        "318 401 460 838 637 951 780 275 391 391 500 838 318 361 318 337 637 637 637 637 637 637 637 637 637 "
        "637 337 337 838 838 838 531 1000 685 687 699 771 632 576 775 752 295 295 656 558 863 749 788 604 788 "
        "695 635 611 732 685 989 686 611 686 391 337 391 838 500 500 613 635 550 635 616 353 635 634 278 278 "
        "580 278 975 634 612 635 635 412 521 393 634 592 818 592 592 525 637 337 637 838 ",
        {
            "\u2030": 1342,
            "\u2212": 838,
            "\u2192": 838,
            "\u2190": 838,
            "\u25b8": 502,
            "\u25c2": 502,
            "\u2022": 590,
            "\u2026": 1000,
            "\u2013": 500,
        },
    ),
    _widths(
        "349 457 521 838 696 1002 873 307 458 458 523 838 380 416 380 366 696 696 696 696 696 696 696 696 696 "
        "696 400 400 838 838 838 581 1000 774 763 734 831 684 684 821 837 373 373 775 638 996 837 851 733 851 "
        "771 721 683 813 774 1104 771 725 726 458 366 458 838 500 500 675 716 593 716 679 436 716 712 343 343 "
        "666 343 1042 712 688 716 716 494 596 479 712 652 924 646 652 583 712 366 712 838 ",
        {
            "\u2030": 1440,
            "\u2212": 838,
            "\u2192": 838,
            "\u2190": 838,
            "\u25b8": 502,
            "\u25c2": 502,
            "\u2022": 640,
            "\u2026": 1000,
            "\u2013": 500,
        },
    ),
)
"""Of a plain and of a bold letter, in thousandths of the font's size."""
OTHER, PICTOGRAM = 1000, 1400
"""Letters that are not named are taken to be as wide as the widest usual ones."""


class Font(NamedTuple):
    """A font of pictures."""

    size: int
    """In pixels."""
    is_bold: bool = False


Box = Tuple[int, int, int, int]
"""What a text covers, in tenths of a pixel: its left, upper, right and lower edge."""


FONTS = {"title": Font(14, True), "head": Font(12, True), **dict.fromkeys(("name", "red"), Font(10, True))}
"""The fonts of styles that do not have the usual one."""
USUAL = Font(10)
ANCHORS = {**dict.fromkeys(("middle", "tick", "light"), 1), "ending": 2}
"""How many halves of a text are to the left of its coordinate, by a word of its style."""


@lru_cache(maxsize=1 << 10)
def _look(style: str) -> Tuple[Font, int]:
    words = style.split()
    font = next((FONTS[word] for word in words if word in FONTS), USUAL)
    return font, next((ANCHORS[word] for word in words if word in ANCHORS), 0)


@lru_cache(maxsize=1 << 14)
def advance(text: str, is_bold: bool) -> int:
    """The width of a text, in thousandths of the font's size."""
    known = WIDTHS[is_bold]
    try:
        return sum(map(known.__getitem__, text))
    except KeyError:
        text = HOLE.sub(as_kilometre, text)
        return sum(known.get(letter) or known.get(normalize("NFD", letter)[0]) or _other(letter) for letter in text)


def _other(letter: str) -> int:
    return OTHER if letter < "\u2e80" else PICTOGRAM


@lru_cache(maxsize=1 << 14)
def _measured(style: str, text: str) -> Tuple[int, int, int]:
    """The width in tenths of a pixel, how much of it is left of the coordinate, and the size of the font."""
    font, halves = _look(style)
    wide = -(-advance(text, font.is_bold) * font.size // 100)
    return wide, wide * halves // 2, font.size


def width(style: str, text: str) -> int:
    """In tenths of a pixel."""
    return _measured(style, text)[0]


def box(style: str, text: str, x: int, y: int) -> Box:
    """What a text at a coordinate covers. `x` is in tenths of a pixel, `y` in pixels."""
    wide, before, size = _measured(style, text)
    return x - before, 10 * y - 8 * size, x - before + wide, 10 * y + 2 * size


def shortened(style: str, text: str, room: int) -> str:
    """As much of a text as fits into this width, with three dots if something is cut off."""
    if width(style, text) <= room:
        return text
    count, left = 0, room - width(style, "\u2026")
    while count < len(text) and width(style, text[count]) <= left:
        left -= width(style, text[count])
        count += 1
    return f"{text[:count].rstrip()}\u2026"
