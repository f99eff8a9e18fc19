"""Pictures as SVG files: their contents, their names, and the groups that `draw --track` reports as not drawn."""
from __future__ import annotations

import re
from collections import Counter
from itertools import accumulate
from typing import Dict, Iterator, List, Optional, Set
from unicodedata import normalize

from balisekit.drawing.flags import marks_of
from balisekit.drawing.group import picture_of_message
from balisekit.drawing.sheet import WIDTH, Picture
from balisekit.drawing.track import note, track_pictures
from balisekit.drawing.track_pages import shown_words, undrawn
from balisekit.etcs.places import Identities
from balisekit.present.pages import pieces
from balisekit.rules.checking import AcceptedMessage, Checked
from balisekit.rules.families import Outcome
from balisekit.rules.line import Line
from balisekit.rules.links import Links
from balisekit.tables.names import clean, describe_message, listed, quoted

GREATEST_NAME = 50
"""The most characters of a file's name that are taken from the table."""
MARK_ALONE = "only a mark"
NAMED = 5
"""How many groups, rows or lines that a track lacks are named."""


def picture_page(picture: Picture) -> Iterator[str]:
    """The file of a picture of a group or message."""
    return pieces("group.svg", ["palette.css", "picture.css"], picture=picture)


def track_page(outcome: Outcome, links: Links, track: str, aspect: Optional[str]) -> Iterator[str]:
    """The pictures of a track below each other, with flags for what is open, after a note on what was refused."""
    marks = [mark for part in outcome.parts for mark in marks_of(part.open)]
    pictures = list(track_pictures(links.line, links, track, aspect, marks))
    pictures[:0] = [] if outcome.checked.whole else [note(refused_rows(outcome.checked))]
    tops = list(accumulate([0, *(picture.height for picture in pictures)]))
    return pieces(
        "track.svg",
        ["palette.css", "picture.css", "track.css"],
        title=f"track {clean(track)}" if track else "the track",
        description=f"{len(links.line.along[track])} groups, {shown_words(aspect, 'each')}, in pictures of 5 km each",
        width=WIDTH,
        height=tops[-1],
        pictures=list(zip(tops, pictures)),
    )


def written(line: Line, track: str, aspect: Optional[str], where: str) -> Iterator[str]:
    """What was written to the file `where`, and which groups are not drawn, by the reason."""
    reasons: Dict[str, List[str]] = {}
    for station in line.groups:
        if station.km is None or station.track != track:
            why = "left out, no kilometre" if station.km is None else "left out, on another track"
        else:
            reason = undrawn(station, aspect)
            why = f"{MARK_ALONE}, {reason}" if reason else ""
        reasons.setdefault(why, []).append(clean(station.group.name))
    of_track, groups = f"track {quoted(track)}" if track else "the track", len(line.along[track])
    yield f"written: {where}: {groups} group{'s' * (groups > 1)} of {of_track}, {shown_words(aspect, 'each')}"
    yield from (f"{why}: {listed(names, NAMED)}" for why, names in reasons.items() if why)


def on_no_track(line: Line) -> Iterator[str]:
    """The groups that are on the picture of no track, if there are any."""
    names = [clean(station.group.name) for station in line.groups if station.km is None]
    yield from [f"on no track, no kilometre: {listed(names, NAMED)}"] if names else ()


def refused_rows(checked: Checked) -> str:
    """Which telegrams and messages are refused, in a line of the picture."""
    parts = [
        ("telegrams by row", [str(telegram.row.number) for telegram in checked.refused]),
        ("messages by line", [str(message.message.number) for message in checked.refused_messages]),
    ]
    return "; ".join(f"refused {what}: {listed(numbers, NAMED)}" for what, numbers in parts if numbers)


def message_picture(checked: Checked, message: AcceptedMessage) -> Optional[Picture]:
    """The picture of a message, if it has anything to draw."""
    here = Identities(checked.table.groups, checked.accepted).here(message.form)
    findings = [place.finding for place in checked.findings if place.message == message.message]
    heading = f"message of {describe_message(message.message)}"
    return picture_of_message(heading, message.form, findings, here.kilometres, titled=True)


class FileNames:
    """File names made of names of a table. They are safe, and unique even if a file system ignores case."""

    def __init__(self) -> None:
        self._taken: Set[str] = set()
        self._numbers: "Counter[str]" = Counter()

    def svg(self, *parts: str) -> str:
        """A name of these parts, of letters, digits, `_` and `-`, with a number if an earlier file has the name."""
        words = [re.sub(r"\W+", "-", normalize("NFC", part)).strip("-") for part in parts]
        stem = name = "-".join(filter(None, words))[:GREATEST_NAME].rstrip("-")
        while name.casefold() in self._taken:
            self._numbers[stem.casefold()] += 1
            name = f"{stem}-{self._numbers[stem.casefold()] + 1}"
        self._taken.add(name.casefold())
        return f"{name}.svg"
