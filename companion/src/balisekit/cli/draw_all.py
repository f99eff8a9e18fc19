"""`balisekit draw --all`: every picture of a table in a folder."""
from __future__ import annotations

import argparse
import os
import sys
from typing import Iterator, Optional

from balisekit.cli.outcome import links_of
from balisekit.drawing.group import pictures_of
from balisekit.drawing.track import tracks_of
from balisekit.io.output_folder import OutputFolder
from balisekit.present.account_text import overlooked_lines
from balisekit.present.opening import opening
from balisekit.present.pictures import (
    MARK_ALONE,
    FileNames,
    message_picture,
    on_no_track,
    picture_page,
    track_page,
    written,
)
from balisekit.present.refusals import not_looked_at, refused
from balisekit.rules.checking import Checked
from balisekit.rules.families import FAMILIES, Outcome, apply
from balisekit.rules.line import Line
from balisekit.rules.links import Links
from balisekit.rules.rule import Options
from balisekit.tables.names import NAMED, clean, describe_group, describe_message, listed, notes_on, quoted


def run(options: argparse.Namespace, checked: Checked, of_line: Options) -> int:
    """Writes the pictures and reports each file. What is refused is reported too, and the rest is drawn."""
    for item in [*refused(checked), *not_looked_at(checked)]:
        print(f"balisekit: {item}", file=sys.stderr)
    for line in (*opening(checked), *notes_on(checked.table), *overlooked_lines(checked.table)):
        print(line)
    outcome, folder, names = apply(checked, tuple(FAMILIES), of_line), options.all, FileNames()
    links = links_of(outcome, of_line)
    for lines in (
        _groups(links.line, checked, folder, names),
        _tracks(outcome, links, folder, names, options.aspect),
        _messages(checked, folder, names),
    ):
        for text in lines:
            print(text)
    return 0 if checked.whole else 2


def _path(folder: OutputFolder, name: str) -> str:
    return clean(os.path.join(folder.path, name))


def _groups(line: Line, checked: Checked, folder: OutputFolder, names: FileNames) -> Iterator[str]:
    """Draws each group in each of its aspects. Aspects with the same picture share a file."""
    kept = {group.name for group in checked.kept}
    for group in (group for group in line.directed if group.name in kept):
        for aspects, picture in pictures_of(group, line.forms, line.findings.get(group.name, ())):
            name = names.svg("group", group.name, *aspects[:1])
            folder.write(name, picture_page(picture))
            where = describe_group(group, aspects[0] or None) if len(aspects) == 1 else describe_group(group)
            many = f"  aspects {listed(list(map(quoted, aspects)), NAMED)}" if len(aspects) > 1 else ""
            yield f"written: {_path(folder, name)}: {where}{many}"
    for left_out in checked.left_out:
        yield f"left out: {describe_group(left_out.group)}: {clean(left_out.why)}"


def _tracks(
    outcome: Outcome, links: Links, folder: OutputFolder, names: FileNames, aspect: Optional[str]
) -> Iterator[str]:
    """Draws each track, and names the groups that are on none."""
    for track in tracks_of(links.line):
        name = names.svg("track", track)
        folder.write(name, track_page(outcome, links, track, aspect))
        lines = written(links.line, track, aspect, _path(folder, name))
        yield from (text for text in lines if text.startswith(("written", MARK_ALONE)))
    yield from on_no_track(links.line)


def _messages(checked: Checked, folder: OutputFolder, names: FileNames) -> Iterator[str]:
    """Draws each message that has an authority or a profile."""
    for message in checked.accepted_messages:
        where, picture = f"message of {describe_message(message.message)}", message_picture(checked, message)
        if picture is None:
            yield f"left out: {where}: it has no authority, gradient or speed profile"
            continue
        name = names.svg(f"message-{message.message.number}", message.message.name)
        folder.write(name, picture_page(picture))
        yield f"written: {_path(folder, name)}: {where}"
