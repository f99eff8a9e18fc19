"""The page of a report. Its groups are made first, because the list of all groups precedes them."""
from __future__ import annotations

from datetime import datetime
from functools import partial
from itertools import groupby
from operator import itemgetter
from tempfile import SpooledTemporaryFile
from typing import Dict, Iterator, List, NamedTuple, Optional, Sequence, Tuple

from balisekit.drawing.flags import Mark, marks_of
from balisekit.drawing.svg import in_page
from balisekit.drawing.track import track_pictures, tracks_of
from balisekit.drawing.track_pages import shares
from balisekit.io.workers import copies, shared
from balisekit.present.certificate_reading import Certified
from balisekit.present.cover import cover
from balisekit.present.explanations import with_items
from balisekit.present.outcome_text import explained_rules
from balisekit.present.design_text import matrix
from balisekit.present.opening import paths_from
from balisekit.present.pages import pieces, premises
from balisekit.present.report import ListedPart, listed
from balisekit.present.report_blocks import KEPT, block_html, blocks, overview_row
from balisekit.present.telegram_text import LEGEND
from balisekit.rules.families import Outcome
from balisekit.rules.line import Line
from balisekit.rules.links import Links
from balisekit.tables.names import clean
from balisekit.tables.own_headings import ReportHeading

IN_MEMORY, PIECE = 1 << 20, 1 << 14
"""How many characters of the groups are kept in memory at most, and how many are copied at a time."""
STYLES = ("palette.css", "page.css", "report.css", "picture.css", "track.css")
DISTANCE = "one whose distance differs from the kilometres (L2, a rule of balisekit)"


def report_page(
    outcome: Outcome,
    links: Links,
    heading: ReportHeading,
    command: str,
    now: datetime,
    aspect: Optional[str] = None,
    full: bool = False,
    certified: Optional[Certified] = None,
) -> Iterator[str]:
    """The page in pieces. A full one has nothing folded.

    `links` are those that pictures of tracks show. `command` begins the command that writes the document again.
    """
    parts, names = listed(outcome), tracks_of(links.line)
    works = partial(_groups, outcome, links.line, parts, full), partial(_tracks, links, outcome, aspect)
    several = shared(works, copies(len(links.line.groups)))
    with SpooledTemporaryFile(IN_MEMORY, "w+", encoding="utf-8") as groups, several as (made, drawn):
        about = cover(outcome, heading, command, now, certified)  # (meanwhile others make the groups)
        noted = [each._replace(html="") for each in made if groups.write(each.html)]
        groups.seek(0)
        yield from pieces(
            "report.html",
            STYLES,
            "report.js",
            cover=about,
            found=parts,
            design=matrix(outcome, paths_from(outcome.checked)),
            explained=list(explained_rules(outcome)),
            **_overview(noted),
            parts=iter(partial(groups.read, PIECE), ""),
            aspect=aspect,
            full=full,
            **_of_tracks(names),
            tracks=((clean(name), map(itemgetter(1), some)) for name, some in groupby(drawn, itemgetter(0))),
            **_of_every_page(),
        )


def _of_every_page() -> Dict[str, object]:
    """What the template needs for any table."""
    return {"with_items": with_items, "legend": LEGEND, "premises": premises(), "links_rule": DISTANCE}


def _of_tracks(names: Sequence[str]) -> Dict[str, object]:
    """Whether there are tracks, and whether they have names, for the template."""
    return {"has_tracks": bool(names), "has_names": any(names)}


def _overview(noted: List[Made]) -> Dict[str, object]:
    """The list of all groups and messages, for the template."""
    return {
        "rows": [each.row for each in noted],
        "plain": sum(each.is_plain for each in noted),
        "pictured": {each.id for each in noted if each.has_picture},
    }


class Made(NamedTuple):
    """A group or message as the page has it."""

    id: str
    is_plain: bool
    has_picture: bool
    row: str
    """Its row of the overview."""
    html: str
    """The block."""


def _groups(
    outcome: Outcome, line: Line, found: Sequence[ListedPart], full: bool, part: int, count: int
) -> Iterator[Made]:
    """One of `count` parts of the groups and messages."""
    listed_ones = (each for one in found for each in one.all)
    for block in blocks(outcome.checked, line, listed_ones, full, part, count):
        row = overview_row(block, any(line.along))
        yield Made(block.id, block.is_plain, block.has_picture, row, block_html(block, full))
    KEPT.forget()


def _tracks(links: Links, outcome: Outcome, aspect: Optional[str], part: int, count: int) -> Iterator[Tuple[str, str]]:
    """Each picture of a part of the tracks, after the name of its track."""
    marks: Dict[str, List[Mark]] = {}
    for mark in (mark for each in outcome.parts for mark in marks_of(each.open, each.accepted)):
        marks.setdefault(mark.track, []).append(mark)
    for name, within in shares(links.line, part, count):
        for picture in track_pictures(links.line, links, name, aspect, marks.get(name, ()), within):
            yield name, in_page(picture)
