"""`balisekit certify`: which mistakes `check` would find on this very line, by making them."""
from __future__ import annotations

import argparse
import os
import re
import sys
import time
from typing import Callable, Iterator

from balisekit.certificate.certificate import certificate
from balisekit.certificate.judging import Judge
from balisekit.cli import console, options as shared, settings
from balisekit.cli.outcome import add_only, letters_of, outcome as outcome_of, signed_by, stated
from balisekit.io import clock
from balisekit.io.output_folder import OutputFolder
from balisekit.io.outputs import write_json
from balisekit.certificate.certificate import Certificate
from balisekit.present.certificate_json import as_json
from balisekit.present.certificate_tables import examples
from balisekit.present.certificate_text import lines, page
from balisekit.tables.names import clean

PER_KIND, SEED = 5, 1
GREATEST = 1000
"""The most changes of a kind, or in a field."""


def _whole(text: str, greatest: int) -> int:
    """A whole number from 1 on."""
    if not re.fullmatch("[0-9]{1,9}", text) or not 0 < int(text) <= greatest:
        raise argparse.ArgumentTypeError(f"{text[:40]} is no whole number from 1 to {greatest}")
    return int(text)


def _minutes(text: str) -> float:
    """A time in minutes."""
    if not re.fullmatch(r"[0-9]{1,4}([.][0-9]{1,2})?", text) or not float(text):
        raise argparse.ArgumentTypeError(f"{text[:40]} is no time in minutes: write 5 or 0.5")
    return float(text)


def add_options(parser: argparse.ArgumentParser) -> None:
    """The options of this command: those of `check` that say how it judges, and how much is tried."""
    shared.add(parser, *shared.INPUTS, "--all", "--accepted")
    add_only(parser)
    settings.add_options(parser)
    each = f"how many changes of each kind, and in each field; by default {PER_KIND}"
    parser.add_argument("--per-kind", **shared.value("N", lambda text: _whole(text, GREATEST), each), default=PER_KIND)
    seed = f"another number makes the mistakes at other places; by default {SEED}"
    parser.add_argument("--seed", **shared.value("N", lambda text: _whole(text, 10**9 - 1), seed), default=SEED)
    most = "end after this time; what was not tried is counted"
    parser.add_argument("--minutes", **shared.value("MINUTES", _minutes, most))
    parser.add_argument("--html", **shared.output_file("write the certificate as one page of HTML"))
    text = "write the table with one mistake of each kind into a folder that is new or empty, for `check`"
    parser.add_argument("--examples", **shared.value("DIR", lambda path: OutputFolder(shared.name(path)), text))
    shared.add(parser, "--json", "--force")


def run(options: argparse.Namespace) -> int:
    """Does it. The answer is the exit status: 2 if the line itself could not be judged completely."""
    now = clock.now()
    line = stated(options)
    signed = signed_by(options, line)
    outcome = outcome_of(options, line)
    judge = Judge(letters_of(options), line, signed, options.by_position, options.all)
    seconds = None if options.minutes is None else 60 * options.minutes
    made = certificate(outcome, judge, options.per_kind, options.seed, seconds, _progress())
    if options.html:
        options.html.write(page(made, now))
    if options.json:
        write_json(options.json, as_json(made))
    written = list(_written(made, options.examples)) if options.examples else []
    shared.say(lines(made, written), options.html, options.json)
    return 0 if outcome.whole else 2


def _written(made: Certificate, folder: OutputFolder) -> Iterator[str]:
    """Writes the examples, and gives a line for each."""
    for each in examples(made):
        folder.write(each.name, [each.text])
        yield clean(f"written: {os.path.join(folder.path, each.name)}: {each.words}")


def _progress() -> Callable[[int, int], None]:
    """Shows on a terminal how many changes were tried. It writes nothing to a file or pipe."""
    if not sys.stderr.isatty():
        return lambda done, count: None
    begin = time.monotonic()

    def tell(done: int, count: int) -> None:
        left = (time.monotonic() - begin) * (count - done) / max(done, 1)
        end = console.CLEARED if done == count else f", {left:.0f} s left"
        sys.stderr.write(f"{console.CLEARED}balisekit certify: {done:,} of {count:,} changes{end}")
        sys.stderr.flush()

    return tell
