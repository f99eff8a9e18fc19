"""`balisekit draw`: a group, a radio message, a whole track or all of these as SVG."""
from __future__ import annotations

import argparse
import sys
from dataclasses import replace
from typing import Optional, Sequence, Tuple

from balisekit.cli import draw_all, options as shared, settings
from balisekit.cli.in_force import in_force
from balisekit.cli.outcome import links_of
from balisekit.cli.selection import check_aspect, check_aspect_of, groups_named, meant, with_directions_of
from balisekit.drawing.group import picture_of
from balisekit.drawing.sheet import Picture
from balisekit.drawing.track import tracks_of
from balisekit.engine.program import Program
from balisekit.errors import TableError
from balisekit.io.output_folder import OutputFolder
from balisekit.io.outputs import Output
from balisekit.present.account_text import overlooked_lines
from balisekit.present.opening import opening, opening_of
from balisekit.present.pictures import message_picture, picture_page, track_page, written
from balisekit.present.refusals import not_looked_at, overlooked, refused
from balisekit.rules import checking
from balisekit.rules.checking import Checked
from balisekit.rules.families import FAMILIES, apply
from balisekit.rules.line import Line
from balisekit.rules.rule import Options
from balisekit.tables.model import Messages, Table
from balisekit.tables.names import clean, describe_message, notes_on, passed_over, quoted


def add_options(parser: argparse.ArgumentParser) -> None:
    """The options of this command."""
    shared.add(parser, *shared.INPUTS)
    what = parser.add_mutually_exclusive_group(required=True)
    what.add_argument("--group", **shared.value("NAME", shared.name, "the group's name in the table"))
    what.add_argument("--message", metavar="LINE", type=int, help="the message in this line of the file of --messages")
    track = "a whole track, in strips of 5 km; without NAME the only track, or the track without a name"
    what.add_argument("--track", nargs="?", const=True, **shared.value("NAME", shared.name, track))
    text = "every group in each aspect, every track and message, into a folder that is new or empty"
    what.add_argument("--all", **shared.value("DIR", lambda path: OutputFolder(shared.name(path)), text))
    shared.add(parser, "--aspect", help=f"{shared.ASPECT}; with --group, the only aspect to draw")
    settings.add_options(parser)
    parser.add_argument("--svg", **shared.output_file("the file to write; by default standard output"))
    shared.add(parser, "--force")


def run(options: argparse.Namespace) -> int:
    """Does it. The answer is the exit status."""
    if options.message is not None:
        shared.refuse_unused(options, "with --message", "aspect", "by_position", *settings.KINDS)
    if options.group is not None:
        shared.refuse_unused(options, "with --group", "messages", *settings.KINDS)
    if options.all is not None:
        shared.refuse_unused(options, "with --all", "svg", "force")
    options.svg = options.svg or Output("-")
    program, table, messages = shared.inputs(options)
    notes: Sequence[str] = ()
    keys = tuple(settings.KINDS) if options.group is None and options.message is None else ()
    in_use = in_force(options, [table], keys)
    lacks: Sequence[object] = overlooked(table)
    if options.group is not None:
        picture, notes = _group(options, program, table)
    elif options.message is not None:
        checked = checking.check(program, table, _only_message(messages, options.message))
        picture, lacks = _message(checked), _lacking(checked)
    else:
        check_aspect(table, options.aspect)
        of_line = settings.of_line(options)
        checked = replace(checking.check(program, table, messages, options.by_position), settings=in_use)
        return draw_all.run(options, checked, of_line) if options.all else _track(options, checked, of_line)
    options.svg.write(picture_page(picture))
    head = [*opening_of(program, in_use), *(f"note: {note}" for note in notes)]
    shared.say([*head, *notes_on(table), *overlooked_lines(table), f"written: {clean(str(options.svg))}"], options.svg)
    return _status(lacks)


def _lacking(checked: Checked) -> Sequence[object]:
    """What was refused, and what was not looked at."""
    return [*refused(checked), *not_looked_at(checked)]


def _status(lacks: Sequence[object]) -> int:
    """Names what the picture lacks. The answer is the exit status."""
    for item in lacks:
        print(f"balisekit: {item}", file=sys.stderr)
    return 2 if lacks else 0


def _group(options: argparse.Namespace, program: Program, table: Table) -> Tuple[Picture, Sequence[str]]:
    """The picture of one group, and a note if links give its direction. Refused telegrams of others do not matter."""
    alone = groups_named(table, [options.group])
    check_aspect_of(alone.groups[0], options.aspect)
    checked = checking.check(program, alone, by_position=options.by_position)
    for item in refused(checked):
        raise TableError(str(item))
    (group,), notes = with_directions_of(table, checked.kept, program, options.by_position)
    findings = [place.finding for place in checked.findings]
    return picture_of(group, checked.accepted, findings, True, options.aspect), notes


def _message(checked: Checked) -> Picture:
    """The picture of the only message of a file. It is drawn if telegrams of the table are refused."""
    for item in refused(replace(checked, refused=())):
        raise TableError(str(item))
    message = checked.accepted_messages[0]
    picture = message_picture(checked, message)
    if picture is None:
        raise TableError(
            f"message of {describe_message(message.message)}: it has no authority, gradient or speed profile"
        )
    return picture


def _track(options: argparse.Namespace, checked: Checked, of_line: Options) -> int:
    """Draws a track. What is refused is named, and the rest is drawn."""
    outcome, table = apply(checked, tuple(FAMILIES), of_line), checked.table
    links = links_of(outcome, of_line)
    line, name = links.line, "" if options.track is True else options.track
    track = _chosen_track(line, table, name)
    options.svg.write(track_page(outcome, links, track, options.aspect))
    _status(_lacking(checked))
    lines = [*opening(checked), *notes_on(table), *overlooked_lines(table)]
    lines += written(line, track, options.aspect, clean(str(options.svg)))
    count = len(checked.accepted_messages)
    lines += [f"left out: {count} message{'s' * (count > 1)}, which --message draws"] if count else []
    shared.say(lines, options.svg)
    return 0 if checked.whole else 2


def _chosen_track(line: Line, table: Table, name: str) -> str:
    """The track of this name. Without a name it is the only track, or the one without a name."""
    known = tracks_of(line)
    track = known[0] if not name and len(known) == 1 else name
    if track not in known:
        tracks = ", ".join(map(quoted, known)) or "no group has a kilometre"
        named = quoted(track) + meant(track, known) if track else "without a name"
        why = f"there is no track {named} with kilometres in {clean(table.path)}: {tracks}"
        raise TableError("; ".join([why, *passed_over(table)]))
    return track


def _only_message(messages: Optional[Messages], line: int) -> Messages:
    """The file of messages with only the message of this line."""
    if messages is None:
        raise TableError("--message needs --messages FILE")
    for message in messages.messages:
        if message.number == line:
            return messages._replace(messages=(message,))
    raise TableError(f"line {line} of {messages.path} has no message")
