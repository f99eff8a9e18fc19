#!/usr/bin/env python3
"""Compares the findings as data with the report's text, for random documents.

    bench/findings.py [--inputs N] [--seed S] [--jobs N]

The library for C answers each document twice: `balisecheck_check` writes the text, and `balisecheck_findings` the JSON.
balisekit reads both, and has to get the same verdict, counts, findings and refusal, with each of their parts; the lines
that it makes of the JSON are those of the text. The program answers each twentieth document too, with the same text.

The documents are those of bench/compare.py; a tenth of them have a key or value too many, too few or wrong, and another
tenth are torn, so that they are refused for their form. The first differences are printed. The last line counts answers, findings and
differences. The exit status is 1 if there is a difference. BALISECHECK_LIBRARY names the folder of the library.
"""
import argparse
import collections
import concurrent.futures
import os
import re
import sys

from compare import BATCH, SHOWN, accepted_of, inputs, spoiled_keys, torn  # (it finds the modules of the tests)
from hostile import CHECK, Job, shared
from records import numbers
from runner import TOP

from balisekit.engine.library import Library
from balisekit.engine.loaded_library import answer
from balisekit.engine.program import Report, read_report

PATH = os.path.join(os.environ.get("BALISECHECK_LIBRARY", TOP / "dist" / "x86_64-linux"), "libbalisecheck.so.0")
EACH = 20  # one document of so many goes to the program
FORM = re.compile("refused: (?:[a-z]+ [0-9]+ ?)*(?:: )?(.*?)(?: at .*)?\n")  # the reason of a refusal


def lines_of(found):
    """The lines that stand for this report or refusal."""
    return [found.verdict.line, *(it.line for it in found.findings)] if isinstance(found, Report) else [found.line]


def difference(library, document):
    """What differs between the two answers to a document, if anything, and the text."""
    text, data = library.check(document), library.findings(document)
    found = answer(data.text)
    said = "".join(f"{line}\n" for line in lines_of(found))
    if (data.status, said) != (text.status, text.text):
        return f"status {data.status}, {said}", text.text
    wanted = read_report(text, len(document))
    return (f"parts {found}, and of the text {wanted}" if found != wanted else ""), text.text


def spoiled(document):
    """The document, or one time in five another one whose form is wrong."""
    way = numbers.random()
    return document if way > 0.2 else spoiled_keys(document) if way > 0.1 else torn(document, document)


def batch(said, first):
    """The counts of a batch, and its first documents whose answers differ, with what differs."""
    numbers.seed(f"{said.seed} findings {first}")
    jobs = inputs(CHECK, accepted_of(shared(), CHECK), min(BATCH, said.inputs - first))
    jobs = [Job(CHECK, spoiled(job.data)) for job in jobs]
    library, met, differences, texts = Library(PATH), collections.Counter(), [], []
    for job in jobs:
        why, text = difference(library, job.data)
        texts.append(text)
        differences += [(job.data, why)] * bool(why)
        met.update([re.split("[ :]", text, 1)[0], *FORM.findall(text), *re.findall(r"(?m)^(F\d+) ", text)])
    for job, text, (played, _) in zip(jobs[::EACH], texts[::EACH], shared().play(jobs[::EACH])):
        met["by the program"] += 1
        differences += [(job.data, f"the program: {played.stdout}")] * (played.stdout != text)
    met["different"] = len(differences)
    return met, differences[:SHOWN]


def main():
    """Compares as the command line says."""
    parser = argparse.ArgumentParser(description="Compares findings as data with the report's text.")
    parser.add_argument("--inputs", type=int, default=100_000, help="how many documents, 100000 if not given")
    parser.add_argument("--seed", type=int, default=1, help="of the documents, 1 if not given")
    parser.add_argument("--jobs", type=int, default=2, help="processes side by side, 2 if not given")
    said, met, differences = parser.parse_args(), collections.Counter(), []
    firsts = range(0, said.inputs, BATCH)
    with concurrent.futures.ProcessPoolExecutor(said.jobs) as pool:
        for counted, found in pool.map(batch, [said] * len(firsts), firsts):
            met.update(counted)
            differences += found
    for data, why in differences[:SHOWN]:
        print(f"{data[:2000]}\n  {why}")
    print(", ".join(f"{name} {met[name]}" for name in sorted(met)))
    sys.exit(bool(differences))


if __name__ == "__main__":
    main()
