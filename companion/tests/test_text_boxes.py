"""No text of a picture is over another one: in those of all examples, of random lines, and of lines made for it.

What a text covers is worked out from the style sheets and the widths of the font's letters, without a browser.
"""
from __future__ import annotations

import re
import xml.etree.ElementTree as ElementTree
from itertools import islice, takewhile
from pathlib import Path
from typing import Callable, Dict, Iterable, Iterator, List, NamedTuple, Tuple

import picture_lines
import pytest
import random_lines
from cases_of_program import TOP
from conftest import Run
from test_browser import CHROMIUM, browse

from balisekit.cli import main as cli, options as shared, settings
from balisekit.cli.outcome import links_of
from balisekit.drawing.letters import advance
from balisekit.drawing.sheet import Picture, Shape
from balisekit.engine.program import Program
from balisekit.present.pages import TEMPLATES
from balisekit.present.pictures import track_page
from balisekit.rules import checking
from balisekit.rules.families import FAMILIES, apply

pytest.importorskip("jinja2")
pytestmark = pytest.mark.uncovered
Write = Callable[..., Path]
SVG = "{http://www.w3.org/2000/svg}"
EXAMPLES = TOP / "examples"
TABLES = sorted(path for path in EXAMPLES.rglob("*.csv") if "telegram" in path.read_text("utf-8").splitlines()[0])


class Written(NamedTuple):
    """A text and what it covers, in pixels."""

    text: str
    left: float
    top: float
    right: float
    bottom: float

    def meets(self, other: Written) -> bool:
        """Whether they overlap by more than what is lost in rounding."""
        across = min(self.right, other.right) - max(self.left, other.left)
        return across > 0.2 and min(self.bottom, other.bottom) - max(self.top, other.top) > 0.2


def _rules() -> Dict[str, Dict[str, str]]:
    """The properties of each class of the style sheets that has one of its own."""
    rules: Dict[str, Dict[str, str]] = {}
    for sheet in ("picture.css", "track.css"):
        for selectors, body in re.findall(r"([^{}]+)\{([^{}]*)\}", (TEMPLATES / sheet).read_text("utf-8")):
            for name in re.findall(r"\.picture (?:text)?\.(\w+)\s*(?:,|$)", selectors.strip()):
                pairs = (pair.split(":") for pair in body.split(";") if ":" in pair)
                rules.setdefault(name, {}).update((key.strip(), value.strip()) for key, value in pairs)
    return rules


RULES = _rules()


def written(style: str, text: str, x: float, y: float) -> Written:
    """What a text covers: its letters reach 0.8 of their size above the line, and 0.2 below it."""
    own: Dict[str, str] = {}
    for name in style.split():
        own.update(RULES.get(name, {}))
    size = float(own.get("font-size", "10px")[:-2])
    wide = advance(text, own.get("font-weight") == "bold") * size / 1000
    left = x - wide * {"middle": 0.5, "end": 1}.get(own.get("text-anchor", ""), 0)
    return Written(text, left, y - 0.8 * size, left + wide, y + 0.2 * size)


def _overlaps(texts: Iterable[Written]) -> List[Tuple[str, str]]:
    """The texts that meet. Texts below a text, and all after them, are skipped: a track has hundreds."""
    found, down = [], sorted(texts, key=lambda one: one.top)
    for place, one in enumerate(down, 1):
        for other in takewhile(lambda each: each.top < one.bottom, islice(down, place, None)):
            found += [(one.text, other.text)] if one.meets(other) else []
    return found


def overlaps(picture: Picture) -> List[Tuple[str, str]]:
    """The texts of a picture that are over each other."""
    texts = (shape for shape in picture.shapes if shape.tag == "text")
    return _overlaps(written(one.style, one.text, float(one.x), float(one.y)) for one in texts)


def pictures(path: Path) -> Iterator[List[Written]]:
    """The texts of each picture of a file. A track has several pictures."""
    for svg in ElementTree.parse(path).iter(f"{SVG}svg"):
        some = [
            (part.get("x", ""), one.get("y", ""), around.get("class", ""), part.text or "")
            for around in (*svg.findall(f"{SVG}g"), *svg.findall(f"{SVG}g/{SVG}g"))
            for one in around.findall(f"{SVG}text")
            for part in (one.findall(f"{SVG}tspan") or [one])
        ]
        assert some or svg.find(f"{SVG}g") is None, "a picture without texts"
        yield [written(style, text, float(x), float(y)) for x, y, style, text in some]


def faults(path: Path) -> List[Tuple[str, object]]:
    """The texts of a file that are over each other, or beyond the edge of the picture."""
    found: List[Tuple[str, object]] = []
    for texts in pictures(path):
        found += _overlaps(texts)
        found += [(one.text, one) for one in texts if one.left < 0 or one.right > 800]
    return found


def tracks(path: Path) -> Iterator[Tuple[str, Iterator[str]]]:
    """Each aspect of a table, and the track in it, as `draw --track --aspect` writes it. All are checked only once."""
    words = ["draw", str(path), "--track"]
    options = cli.parser(words).parse_args(words)
    of_line = settings.of_line(options)
    outcome = apply(checking.check(*shared.inputs(options)), tuple(FAMILIES), of_line)
    links, groups = links_of(outcome, of_line), outcome.checked.table.groups
    for name in {aspect.name for group in groups for aspect in group.aspects if aspect.name}:
        yield name, track_page(outcome, links, "", name)


def drawn(run: Run, path: Path, folder: Path) -> Dict[str, List[Tuple[str, object]]]:
    """The faults of all pictures of a table: of each group, message and track, and of the track in each aspect."""
    assert run("draw", path, "--all", folder)[0] in (0, 2)
    if (folder / "track.svg").exists():
        for name, page in tracks(path):
            (folder / f"track of {name.replace('/', '-')}.svg").write_text("".join(page), "utf-8")
    files = list(folder.glob("*.svg"))
    assert files
    found = {one.name: faults(one) for one in files}
    return {name: some for name, some in found.items() if some}


@pytest.mark.parametrize("path", TABLES, ids=lambda path: str(path.relative_to(EXAMPLES)))
def test_the_examples(path: Path, run: Run, tmp_path: Path) -> None:
    assert not drawn(run, path, tmp_path / "out")


@pytest.mark.parametrize("name", picture_lines.LINES)
def test_lines_made_for_it(name: str, program: Program, table: Write, run: Run, tmp_path: Path) -> None:
    path = table(content=picture_lines.table(program, list(picture_lines.LINES[name]())).encode())
    assert not drawn(run, path, tmp_path / "out")


@pytest.mark.parametrize("seeds", [range(10), range(10, 20), range(20, 30)], ids=str)
def test_random_lines(seeds: Iterable[int], program: Program, table: Write, run: Run, tmp_path: Path) -> None:
    for seed in seeds:
        path = table(*random_lines.table(program, seed), name=f"{seed}.csv")
        assert not drawn(run, path, tmp_path / f"out {seed}"), seed


def test_long_names(program: Program, table: Write, run: Run, tmp_path: Path) -> None:
    """They are shortened, with all of their words in a title."""
    rows = [("W" * 200 + row[0], *row[1:]) for row in picture_lines.both()]
    path = table(content=picture_lines.table(program, rows).encode())
    assert not drawn(run, path, tmp_path / "out")
    assert any(
        "W" * 200 in (one.text or "") for one in ElementTree.parse(tmp_path / "out" / "track.svg").iter(f"{SVG}title")
    )


def test_overlaps_are_found() -> None:
    """Of the same place, of a neighbour that is too near, and of a text in the middle of another one."""
    for style, x, y, meets in (
        ("", 100, 50, True),
        ("ending", 130, 55, True),
        ("middle", 100, 61, False),
        ("", 170, 50, False),
    ):
        shapes = [
            Shape("text", "", x="100", y="50", text="a text"),
            Shape("text", style, x=str(x), y=str(y), text="another"),
        ]
        assert bool(overlaps(Picture("", 100, tuple(shapes)))) == meets


@pytest.mark.skipif(CHROMIUM is None, reason="tests of balisekit in a browser (chromium)")
def test_widths_are_those_of_a_browser(tmp_path: Path) -> None:
    """If it has the font. Another font is no wider."""
    texts = ("Signal E, green, V_MAIN 160 km/h", "\u22125 \u2030 \u25b8 A\u2026", "W\u00c4gj\u00e9~{}")
    samples = [(text, weight) for text in texts for weight in ("normal", "bold")]
    look = "font: {} 10px DejaVu Sans, Arial, sans-serif; white-space: pre"
    spans = "".join(f'<span style="{look.format(weight)}">{text}</span><br>' for text, weight in samples)
    script = "document.title = [...document.querySelectorAll('span')].map(s => s.getBoundingClientRect().width).join()"
    page = tmp_path / "page.html"
    page.write_text(f'<meta charset="utf-8">{spans}<script>{script}</script>', "utf-8")
    (title,) = re.findall("<title>([^<]*)</title>", browse(tmp_path, page, "--dump-dom").stdout)
    for (text, weight), seen in zip(samples, map(float, title.split(","))):
        assert seen < advance(text, weight == "bold") / 100 + 0.3, text
