"""Makes the files of examples/design: `python3 companion/tests/design_example.py`.

The design is made of the properties of the line, not of its telegrams: places, speeds and gradients of the track, and
the rules by which its signals are built. So no mistake of reading telegrams is in it.
"""
from __future__ import annotations

import sys
from pathlib import Path
from typing import Dict, Iterator, List, Mapping, Sequence, Tuple

HERE = Path(__file__).resolve().parent
sys.path.insert(0, str(HERE.parent / "src"))

from balisekit.engine.program import Program  # noqa: E402  (the path comes first)
from balisekit.io import csv_writing  # noqa: E402
from balisekit.tables.own_headings import DESIGN  # noqa: E402
from meaning_line import OVERLAP, SPACING, Line, Site, table  # noqa: E402

FOLDER = HERE.parents[1] / "examples" / "design"
LINE = Line(signals=6, both=True)
HEADINGS: Mapping[str, str] = {
    "kind": "Kind",
    "km": "Kilometre",
    "km_to": "to",
    "track": "Track",
    "way": "Direction",
    "value": "Value",
    "name": "Name",
    "who": "Checked by",
}
WAYS = {1: "rising", -1: "falling"}
Cells = Dict[str, str]


def km(place: int) -> str:
    """A place in kilometres."""
    return f"{place / 1000:.3f}"


def row(kind: str, place: int, **cells: str) -> Cells:
    """A row of the design."""
    return {**dict.fromkeys(DESIGN, ""), "kind": kind, "km": km(place), **cells}


def rows() -> List[Cells]:
    """The design of the line, kind by kind."""
    reach = (len(LINE.aspects) - 1) * 1500 + OVERLAP
    low, high = LINE.sites[0].place - reach, LINE.sites[-1].place + reach
    made = [*_steps("speed", LINE.speeds, low, high), *_steps("gradient", LINE.gradients, low, high)]
    made += [each for site in LINE.sites for each in _signals(site)]
    made += [each for site in LINE.sites for each in _aspects(site)]
    return [*made, *map(_group, LINE.sites)]


def _steps(kind: str, steps: Sequence[Tuple[int, int]], low: int, high: int) -> Iterator[Cells]:
    """The speeds or gradients between two places. Two steps with one value are one."""
    within = [step for step, after in zip(steps, [*steps[1:], (high + 1, 0)]) if after[0] > low and step[0] < high]
    for index, (place, value) in enumerate(within):
        if not index or within[index - 1][1] != value:
            yield row(kind, max(place, low), value=str(value))


def _signals(site: Site) -> Iterator[Cells]:
    """The signal at a group, and beyond the last one of each direction the two that follow."""
    places = [site.place, *(site.place + site.way * each for each in LINE.ends(site)[:2] if not LINE.ahead(site))]
    for index, place in enumerate(places):
        yield row("signal", place, way=WAYS[site.way], name=f"{site.name}{' and on' * index}")


def _aspects(site: Site) -> Iterator[Cells]:
    """The aspects of a signal: red stops, and each other one ends at one signal more."""
    for number, aspect in enumerate(LINE.aspects):
        length = LINE.ends(site)[number - 1] if number else 0
        value = "v=0 end=0 overlap=none danger=none loa=0 loa_time=none"
        if number:
            fastest = max(_speeds(site, length + OVERLAP))
            value = f"v={fastest} end={length} overlap={OVERLAP} overlap_start=100 overlap_time=60 release=onboard"
            value += " danger=none loa=0 loa_time=none"
        yield {**row("aspect", site.place, way=WAYS[site.way], value=value, name=f"{site.name}/{aspect}"), "km": ""}


def _speeds(site: Site, reach: int) -> Iterator[int]:
    """The line speeds that a train meets within this distance of a signal."""
    first, last = sorted((site.place, site.place + site.way * reach))
    for (begin, value), (end, _) in zip(LINE.speeds, LINE.speeds[1:]):
        if begin < last and end > first:
            yield value


def _group(site: Site) -> Cells:
    at = ",".join(km(site.place + site.nominal * SPACING * number) for number in (0, 1))
    value = f"id=352/{site.number} balises=2 linked=yes at={at}"
    return row("group", site.place, way=WAYS[site.nominal], value=value, name=site.name)


def workbook(path: Path) -> None:
    """The design as a workbook: a title page, and a sheet for each kind."""
    import openpyxl

    book = openpyxl.Workbook()
    book.active.title = "Title"
    book.active.append(["Design of the line, revision C"])
    for kind in dict.fromkeys(each["kind"] for each in rows()):
        sheet = book.create_sheet(kind)
        names = [name for name in DESIGN if name != "kind"]
        sheet.append([HEADINGS[name] for name in names])
        for each in rows():
            if each["kind"] == kind:
                sheet.append([each[name] for name in names])
    book.save(path)


def main() -> None:
    """Writes the files."""
    FOLDER.mkdir(exist_ok=True)
    (FOLDER / "line.csv").write_bytes(table(Program.find(), LINE.rows).encode())
    design = csv_writing.text(list(HEADINGS.values()), ([each[name] for name in DESIGN] for each in rows()))
    (FOLDER / "design.csv").write_bytes(design.encode())
    heads = "".join(f'{name} = "{own}"\n' for name, own in HEADINGS.items())
    (FOLDER / "balisekit.toml").write_text(f"# The headings of design.csv and design.xlsx.\n[design]\n{heads}", "utf-8")
    workbook(FOLDER / "design.xlsx")


if __name__ == "__main__":
    main()
