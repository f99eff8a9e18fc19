#!/usr/bin/env -S python3 -B
"""Judges what `rt ci` wrote about each wrong edit in crates/NAME/must-fail: tests/refused.py LOG

`rt ci` skips an edit that does not reach the prover, and accepts any refusal. Here the log must have one line on each
file but notes in *.md, with a refusal for a contract: at a goal that is not proved, or at an error in a function's
proof file that is more than a name that is gone. The log has only the first reason.

The last line is 'the edits: N passed, M failed', and the exit status is 1 if anything failed or there is no edit.
"""
import collections
import pathlib
import re
import sys

from runner import TOP

GOAL = re.compile(r"note: (\./)?src/\S+:\d+:\d+: it is not proved that ")
# The line of an error, with its file and its message.
ERROR = re.compile(r"(?m)^(?:\./)?(\S+):\d+:\d+: error: (.*)")
# A proof file names what is not there, or rests on a part of it that was refused.
IS_GONE = re.compile(r"has no field|\(nearest: \.|is not in scope|has no `|is no name")
FOLLOWS = re.compile(r"which was rejected, (were|was) not checked|was not admitted")


def is_stale(errors, is_open=False):
    """Whether a function with these errors at its proof file may be refused only because that file names what is gone.
    A goal is open if the search for its proof failed."""
    own = [it for it in errors if not FOLLOWS.search(it)]
    return all(map(IS_GONE.search, own)) and (bool(own) or not is_open)


def is_refused(line):
    """Whether the line reports a refusal for a contract."""
    refused, _, reason = line.partition(": ")
    error = ERROR.match(reason)
    is_proof = error and re.match("proofs/.+/", error[1]) and not is_stale([error[2]])
    return refused == "refused, as it must be" and bool(GOAL.match(reason) or is_proof)


def main(log):
    lines = collections.defaultdict(list)
    for name, line in re.findall(r"(?m)^rt: must-fail (\S+): (.*)$", pathlib.Path(log).read_text("utf-8", "replace")):
        lines[name].append(line)
    files = sorted(it for it in TOP.glob("crates/*/must-fail/**/*") if it.is_file() and it.suffix != ".md")
    names = [it.relative_to(TOP / "crates").as_posix().replace("/must-fail/", "/") for it in files]
    failed = [name for name in names if [*map(is_refused, lines[name])] != [True]]
    for name in failed:
        print(f"failed: {name}: the log has no refusal for a contract: {lines[name]}")
    print(f"the edits: {len(names) - len(failed)} passed, {len(failed)} failed")
    sys.exit(bool(failed) or not names)


if __name__ == "__main__":
    main(*sys.argv[1:])
