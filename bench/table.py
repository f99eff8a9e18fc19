#!/usr/bin/env python3
"""Writes a large table for balisekit to standard output: bench/table.py ROWS [new] [--of KIND] [--refused N]

Signals of two balises in three aspects, in long telegrams with linking, authority, gradients and speeds, 2,500 groups
a track. With the second word each twentieth group is another one, for `diff`. With `--of` it is a table of another kind
(`KINDS`). With `--refused` the telegrams of N rows, spread over the table, lack their last byte, so that the program
refuses them. The program that ./balisecheck would run, or that BALISECHECK names, makes the telegrams. Measure on an
idle processor, memory with GNU time:

    bench/table.py 100000 >old.csv; hyperfine -i './balisekit check old.csv' './balisekit links old.csv'
    /usr/bin/time -f '%M kB' ./balisekit report old.csv --html report.html
"""
import argparse
import csv
import sys
from pathlib import Path

TOP = Path(__file__).resolve().parents[1]
sys.path[:0] = [str(TOP / "companion" / "src"), str(TOP / "companion" / "tests")]

import line_table  # noqa: E402  (the path comes first)
from balisekit.engine.program import Program  # noqa: E402

HEADING = ("group", "name", "km", "track", "nominal", "aspect", "balise", "telegram")
OF_TRACK, APART = 2500, 1500  # groups of a track, metres between two
GRADIENTS = (2, -5, 0, 4, -3, 1)  # in per mille, each for 2 km


def linking(number, last):
    """The packet that links the next two groups of the track."""
    known = {"d_link": APART, "q_linkorientation": 1, "q_linkreaction": 1, "q_locacc": 5}
    links = [{**known, "nid_bg": it % OF_TRACK + 1} for it in range(number + 1, min(number + 2, last) + 1)]
    return [line_table.packet(5, links=links)] if links else []


def aspects(at):
    """Each aspect with the packets of the switched balise, for a signal at this metre of its track."""
    line_table.GRADIENTS = tuple((it * 2000, GRADIENTS[it % 6]) for it in range(at // 2000, at // 2000 + 4))
    line_table.SPEEDS = tuple((it * 6000, 100 + 20 * (it % 2)) for it in range(at // 6000, at // 6000 + 3))
    for aspect, length, speed in (("red", 0, 0), ("yellow", APART, 120), ("green", 2 * APART, 160)):
        profiles = [make(at, length + line_table.OVERLAP) for make in (line_table.gradients, line_table.speeds)]
        yield aspect, [line_table.authority(length, speed), *profiles]


def rows(groups, is_new):
    """The rows, with forms instead of telegrams."""
    for number in range(groups):
        track, place = divmod(number, OF_TRACK)
        last = min((track + 1) * OF_TRACK, groups) - 1
        for counter, (aspect, packets) in enumerate(aspects(place * APART), 1):
            if is_new and number % 20 == 0:
                packets = [{**one, "v_main": one["v_main"] + 1} if one.get("v_main") else one for one in packets]
            for balise, content in enumerate((linking(number, last), packets)):
                form = {**line_table.telegram(place + 1, balise, 1, counter, *content), "nid_c": track + 1}
                km = f"{(place * APART + 3 * balise) / 1000:.3f}"
                yield f"Signal {number}", f"{number}.{balise}", km, f"T{track}", "rising", aspect, balise, form


def single(number, **header):
    """The row of a single balise, whose telegram is only its header."""
    track, place = divmod(number, OF_TRACK)
    form = {**line_table.telegram(place + 1, 0, 0, 255), "nid_c": track + 1, "user_bits": 210, **header}
    return f"Group {number}", f"{number}.0", f"{place * APART / 1000:.3f}", f"T{track}", "rising", "", 0, form


def of_headers(count):
    """Single balises, whose telegrams are only headers."""
    return map(single, range(count))


def of_findings(count):
    """The same with a finding each: N_TOTAL says that the group has two balises."""
    return (single(number, n_total=1) for number in range(count))


def of_four(count):
    """Groups of four balises with full telegrams, in one aspect: two packets of them are kept as bits."""
    groups = count // 4
    for number in range(groups):
        track, place = divmod(number, OF_TRACK)
        last = min((track + 1) * OF_TRACK, groups) - 1
        *_, (_, packets) = aspects(place * APART)
        transition = {"m_leveltr": 2, "l_ackleveltr": 100}
        level = line_table.packet(41, d_leveltr=500, transitions=[transition])
        raw = [{"nid_packet": it, "q_dir": 1, "l_packet": 63, "body": f"{place:010x}"} for it in (90, 200)]
        for balise, content in enumerate((linking(number, last), packets, [level], raw)):
            form = {**line_table.telegram(place + 1, balise, 3, 255, *content), "nid_c": track + 1}
            km = f"{(place * APART + 3 * balise) / 1000:.3f}"
            yield f"Signal {number}", f"{number}.{balise}", km, f"T{track}", "rising", "", balise, form


def of_aspects(count):
    """One signal of two balises with very many aspects, no two of them alike."""
    fixed = line_table.telegram(1, 0, 1, 255)
    yield "Signal", "fixed", "1.000", "T", "rising", "*", 0, fixed
    for number in range(1, count):
        length = 1000 + number
        profiles = [make(0, length + line_table.OVERLAP) for make in (line_table.gradients, line_table.speeds)]
        form = line_table.telegram(1, 1, 1, number % 254, line_table.authority(length, 120), *profiles)
        yield "Signal", "switched", "1.003", "T", "rising", f"aspect {number}", 1, form


KINDS = {"headers": of_headers, "findings": of_findings, "four": of_four, "aspects": of_aspects}
"""Tables of other kinds, by their number of rows."""


def refused_places(count, most):
    """The places of this many rows, spread over all of them."""
    return {it * count // most for it in range(most)}


def main():
    parser = argparse.ArgumentParser(description=__doc__.partition("\n")[0])
    parser.add_argument("rows", type=int)
    parser.add_argument("new", nargs="?", choices=["new"], help="each twentieth group is another one")
    parser.add_argument("--of", choices=KINDS, metavar="KIND", help=f"another kind: {', '.join(KINDS)}")
    parser.add_argument("--refused", type=int, default=0, metavar="N", help="the program refuses so many rows")
    words = parser.parse_args()
    made = list(KINDS[words.of](words.rows) if words.of else rows(words.rows // 6, words.new is not None))
    wrong = refused_places(len(made), words.refused)
    texts = [text.line for text in Program.find().encode([row[-1] for row in made])]
    telegrams = [text[:-2] if place in wrong else text for place, text in enumerate(texts)]
    csv.writer(sys.stdout).writerows([HEADING, *((*row[:-1], text) for row, text in zip(made, telegrams))])


if __name__ == "__main__":
    main()
