#!/usr/bin/env python3
"""Compares all that the commands of two clones write about random lines.

    bench/outputs.py OLD NEW [--lines N] [--seed S]

The lines are of five shapes that take turns: headers only, small groups with any finding, signals with aspects, lines
in both directions with one mistake that a rule covers, and such lines with several fields, cells and rows spoiled. A
third of them has messages. OLD makes a track plan, a sheet of variables and accepted entries of each line, with which
both clones are run. The lines depend only on the seed.

Each command writes standard output, standard error, its status and its files. What differs is counted by its kind: by
the command, the file, and the first lines that differ, without their numbers. The exit status is 1 if anything differs.
The pages of the rules are not compared unless `--pages` asks for it, nor are the paths of the clones and the lines of
ABOUT, nor seconds. `--keep FOLDER` keeps the lines that differ with the outputs of both clones.
"""
import argparse
import collections
import concurrent.futures
import difflib
import filecmp
import functools
import json
import os
import re
import shutil
import subprocess
import sys
import tempfile
from pathlib import Path
from random import Random

TOP = Path(__file__).resolve().parents[1]
sys.path[:0] = [str(TOP / "companion" / "src"), str(TOP / "companion" / "tests")]

TABLE, NEW_TABLE, MESSAGES = "line.csv", "new.csv", "messages.txt"
MADE = {"plan": "plan.csv", "expected": "expected.csv", "accepted": "accepted.csv"}
PREPARED = (["plan", TABLE, "--csv", MADE["plan"]], ["table", TABLE, "--csv", MADE["expected"]],
            ["check", TABLE, "--rules", "all", "--propose", MADE["accepted"]])
COMMANDS = {
    "check": "check line.csv --rules all --explain --json out/json --sarif out/sarif --junit out/junit "
             "--propose out/propose --document out/document {messages}",
    "check, plan": "check line.csv --plan plan.csv --only L,X --json out/json --tolerance 2 {messages}",
    "check, accepted": "check line.csv --rules all --accepted accepted.csv --json out/json",
    "check, by position": "check line.csv --by-position --rules all",
    "report": "report line.csv --rules all --plan plan.csv --html out/html {messages}",
    "report, full": "report line.csv --full --only F,E --html out/html",
    "links": "links line.csv --explain --json out/json {messages}",
    "diff": "diff line.csv new.csv --html out/html --json out/json",
    "table": "table line.csv --csv out/csv",
    "table, expected": "table line.csv --expect expected.csv",
    "plan": "plan line.csv --csv out/csv {messages}",
    "show": "show line.csv --bits {messages}",
    "draw": "draw line.csv --all out/pictures --rules all {messages}",
}
"""The words of each run. All outputs are in the folder `out`."""
SHOWN, LONGEST = 3, 160  # differing lines that make a kind, and how much of each is kept

# ---- lines: each shape gives the cells of a table, heading first, and forms in place of telegrams


def of_headers(random, seed):
    """Groups of one or two balises whose telegrams are only headers. Some values and kilometres are wrong."""
    rows, km = [("group", "km", "track", "nominal", "telegram")], 10_000
    for number in range(1, random.randint(10, 40)):
        balises, km = random.choice((1, 1, 2)), km + random.randrange(0, 2000)
        for place in range(balises):
            pair = 0 if balises == 1 else place + 1
            form = {"user_bits": random.choice((210, 830)), "m_version": 33, "n_pig": place, "n_total": balises - 1,
                    "m_dup": pair, "m_mcount": 255, "nid_c": 352, "nid_bg": number, "q_link": 1, "packets": []}
            if random.random() < 0.05:
                form[random.choice(("n_total", "n_pig", "m_dup", "nid_bg", "m_mcount", "q_link"))] = 1
            cells = f"{(km + 3 * place) / 1000:.3f}", random.choice(("", "A")) if seed % 3 else "", "rising"
            rows.append((f"Group {number}", *cells, form))
    return rows


def of_findings(random, seed):
    """Small groups with several aspects, in which every finding of the program comes up."""
    import random_lines

    rows = [("group", "name", "km", "aspect", "telegram")]
    for number in range(6):
        has_km, made = random.random() < 0.5, random_lines.group(random, number % 4)
        for aspect, balises in zip(("red", "yellow", "green"), made):
            for place, form in enumerate(balises):
                cells = (f"B{place}", f"{10 + number}.{place:03}") if has_km else ("", "")
                rows.append((f"Signal {number}", *cells, aspect if len(made) > 1 else "", form))
    return rows


def _cells(rows):
    """The cells of rows of the tests' lines."""
    from meaning_line import HEADING

    kms = [f"{row.place // 1000}.{row.place % 1000:03}" for row in rows]
    return [HEADING, *((row.group, row.name, km, row.track, row.aspect, str(row.balise), row.form)
                       for row, km in zip(rows, kms))]


def of_aspects(random, seed):
    """A sound line of signals with red, yellow and green, some with infill, borders and signals for both directions."""
    from meaning_line import Line

    both, infill = random.random() < 0.3, tuple(random.sample(range(1, 5), random.randint(0, 2)))
    return _cells(Line(random.randint(5, 9), random.choice((1, -1)), both, infill=infill,
                       border=random.choice((None, 0, 2)), seed=seed).rows)


def of_mistakes(random, seed):
    """A line in both directions with one mistake that a rule covers. The kinds of mistakes take turns."""
    import meaning_changes

    return _cells(meaning_changes.changed(seed // len(SHAPES), 12).rows)


def of_spoiled(random, seed):
    """A line in both directions with several fields, cells and rows spoiled."""
    from meaning_random import random_line

    rows = spoiled(random, _cells(random_line(seed, 14).rows), random.randint(1, 12))
    for _ in range(random.randint(0, 3)):
        at, column = random.randrange(1, len(rows)), random.choice((1, 2, 2, 3))
        other = random.choice((rows[random.randrange(1, len(rows))][column], ""))
        rows[at] = (*rows[at][:column], other, *rows[at][column + 1:])
    return rows


SHAPES = (of_headers, of_findings, of_aspects, of_mistakes, of_spoiled)


def spoiled(random, rows, times):
    """The rows with that many numbers of their telegrams replaced, and some packets, rows and groups gone or twice."""
    rows = [rows[0], *((*row[:-1], json.loads(json.dumps(row[-1]))) for row in rows[1:])]
    for _ in range(times):
        at, way = random.randrange(1, len(rows)), random.random()
        form, packets = rows[at][-1], rows[at][-1]["packets"]
        if way < 0.1 and len(rows) > 3:
            rows.pop(at)
        elif way < 0.25 and packets:
            packets.pop(random.randrange(len(packets)))
        elif way < 0.35 and packets:
            rows[random.randrange(1, len(rows))][-1]["packets"].append(random.choice(packets))
        else:
            key = random.choice(("nid_bg", "n_total", "m_dup", "m_mcount", "m_version", "q_link"))
            field = random.choice([*_numbers(packets), (form, key), (form, "nid_bg")])
            field[0][field[1]] = max(field[0][field[1]] + random.choice((-10, -1, 1, 1, 7)), 0)
    return rows


def _numbers(form):
    """Each number within packets, with the object that has it."""
    if isinstance(form, list):
        return [one for each in form for one in _numbers(each)]
    fixed = "nid_packet", "l_packet"
    own = [(form, key) for key, value in form.items() if isinstance(value, int) and key not in fixed]
    return own + [one for value in form.values() if isinstance(value, (list, dict)) for one in _numbers(value)]


# ---- files of a line


def write_line(program, room, seed):
    """Writes table, next release and messages of a line."""
    random = Random(f"outputs {seed}")
    rows = SHAPES[seed % len(SHAPES)](random, seed)
    _write_table(program, room / TABLE, rows, random)
    later = spoiled(random, rows, random.randint(0, 6))
    _write_table(program, room / NEW_TABLE, later, random)
    if seed % 3 == 0:
        (room / MESSAGES).write_text(_messages(program, rows, random), "utf-8")


def _write_table(program, path, rows, random):
    """The table as CSV. A telegram that cannot be encoded is replaced by another one, and some have a digit less."""
    from balisekit.engine.program import Text

    answers = [*program.encode([row[-1] for row in rows[1:]])]
    other = next(each.line for each in answers if isinstance(each, Text))
    texts = [each.line if isinstance(each, Text) else other for each in answers]
    if random.random() < 0.15:
        at = random.randrange(len(texts))
        texts[at] = texts[at][:-1] + random.choice(("", "z"))
    lines = [rows[0], *((*row[:-1], text) for row, text in zip(rows[1:], texts))]
    path.write_text("".join(";".join(line) + "\n" for line in lines), "utf-8")


def _messages(program, rows, random):
    """Messages 3 with the packets of some telegrams, each with a name."""
    from balisekit.engine.program import Text

    forms = []
    for row in random.sample(rows[1:], min(4, len(rows) - 1)):
        packets = [each for each in row[-1]["packets"] if each["nid_packet"] in (5, 21, 27, 41)]
        authority = {"nid_packet": 15, "q_dir": random.randint(0, 2), "q_scale": 1, "end_speed": 0,
                     "end_timeout": 1023, "sections": [], "l_endsection": random.choice((500, 1500))}
        forms.append({"nid_message": 3, "t_train": 1, "m_ack": 0, "nid_c": row[-1]["nid_c"],
                      "nid_bg": row[-1]["nid_bg"], "packets": [authority, *packets]})
    texts = [each.line for each in program.encode(forms, radio=True) if isinstance(each, Text)]
    return "".join(f"{text};message {number}\n" for number, text in enumerate(texts, 1))


def spoil_prepared(room, seed):
    """Changes a number in the plan and in the expected sheet, and signs every second entry."""
    random = Random(f"prepared {seed}")
    for name in (MADE["plan"], MADE["expected"]):
        path = room / name
        lines = path.read_text("utf-8").splitlines() if path.exists() else []
        for _ in range(2 if len(lines) > 1 else 0):
            at = random.randrange(1, len(lines))
            numbers = [*re.finditer(r"\d+", lines[at])]
            if numbers:
                it = random.choice(numbers)
                lines[at] = f"{lines[at][:it.start()]}{int(it[0]) + 1}{lines[at][it.end():]}"
        if lines:
            path.write_text("\n".join(lines) + "\n", "utf-8")
    path = room / MADE["accepted"]
    if path.exists():
        head, *lines = path.read_text("utf-8").splitlines()
        path.write_text("\n".join([head, *(_signed(head, line) for line in lines[::2])]) + "\n", "utf-8")


def _signed(head, line):
    """An entry with somebody's name and a reason."""
    import csv

    cells = next(csv.reader([line]))
    known = {"reason": "It is so.", "who": "A. Tester", "date": "2026-01-01"}
    return ",".join(f'"{known.get(name) or cell}"' for name, cell in zip(next(csv.reader([head])), cells))


# ---- runs


class Clone:
    """A process that has imported balisekit of a clone, and runs each command line in a process of its own."""

    def __init__(self, path, pages):
        command = [sys.executable, __file__, "--serve", str(path), *(["--pages"] if pages else [])]
        self.process = subprocess.Popen(command, stdin=subprocess.PIPE, stdout=subprocess.PIPE, text=True)

    def run(self, room, words, said):
        """The status of a command, whose outputs are in the folder `said`."""
        json.dump([str(room), words, str(said)], self.process.stdin)
        self.process.stdin.write("\n")
        self.process.stdin.flush()
        return int(self.process.stdout.readline())


def without_pages():
    """Leaves out what the pages of the rules say, but not whether correct data can get a remark: rules go by it."""
    from balisekit.present import explanations
    from balisekit.rules.accepted import RULES

    for rule in RULES.values():
        parts = rule.parts.items()
        rule.__dict__["parts"] = {head: "Never" if text.startswith("Never") else "x" for head, text in parts}
    known = {number: {key: "x" for key in page} for number, page in explanations.explanations().items()}
    for module in list(sys.modules.values()):
        if getattr(module, "explanations", None) is explanations.explanations:
            module.explanations = lambda: known


def serve(clone, pages):
    """Runs the command lines that standard input names."""
    sys.path[:] = [str(Path(clone) / "companion" / "src"), *sys.path[3:]]
    from importlib import import_module

    main = import_module("balisekit.cli.main").main
    for name in ("check", "show", "draw", "report", "links", "diff", "plan", "table"):
        import_module(f"balisekit.cli.{name}")
    if not pages:
        without_pages()
    for line in sys.stdin:
        room, words, said = json.loads(line)
        child = os.fork()
        if child == 0:
            os.chdir(room)
            for number, name in ((0, os.devnull), (1, f"{said}/stdout"), (2, f"{said}/stderr")):
                os.dup2(os.open(name, os.O_RDONLY if number == 0 else os.O_WRONLY | os.O_CREAT), number)
            try:
                status = main(words)
            except SystemExit as ended:
                status = int(ended.code or 0)
            sys.stdout.flush()
            os._exit(status)
        print(os.waitstatus_to_exitcode(os.waitpid(child, 0)[1]), flush=True)


@functools.lru_cache(None)
def clones(paths, pages):
    """The clones at these paths, for this process."""
    return [Clone(path, pages) for path in paths]


@functools.lru_cache(None)
def names_of(path):
    """What outputs name of a clone: its path, and the lines of ABOUT."""
    about = (path / "dist" / "x86_64-linux" / "ABOUT").read_text("utf-8").splitlines()
    names = {line.split(" ", 1)[1]: line.split(" ", 1)[0] for line in about if not line.startswith("program")}
    named = {os.environ["BALISECHECK"]: "PROGRAM", str(path): "CLONE"}
    return {**named, **{value: name for value, name in names.items() if len(value) > 12}}


def unnamed(path, folder):
    """Replaces what the outputs in a folder name of a clone, and the seconds of JUnit."""
    names = names_of(path)
    for file in folder.rglob("*"):
        if file.is_file():
            text = file.read_bytes().decode("utf-8", "surrogateescape")
            text = re.sub("|".join(map(re.escape, names)), lambda it: names[it[0]], text)
            text = re.sub(r' time="[0-9.]+"', ' time=""', text)
            file.write_bytes(text.encode("utf-8", "surrogateescape"))


def outputs_of(clone, room, words, kept):
    """Runs a command, and moves its outputs to `kept`."""
    out = room / "out"
    shutil.rmtree(out, ignore_errors=True)
    out.mkdir()
    status = clone.run(room, words, out)
    (out / "status").write_text(f"{status}\n", "utf-8")
    out.rename(kept)


def compare_line(paths, seed, keep, pages):
    """The kinds of differences of a line, with the number of each, and how often each command had each status."""
    from balisekit.engine.program import Program

    found, statuses = collections.Counter(), collections.Counter()
    with tempfile.TemporaryDirectory(prefix="outputs-") as folder:
        room = Path(folder)
        write_line(Program.find(), room, seed)
        for words in PREPARED:
            outputs_of(clones(paths, pages)[0], room, words, room / "unused")
            shutil.rmtree(room / "unused")
        spoil_prepared(room, seed)
        messages = f"--messages {MESSAGES}" if (room / MESSAGES).exists() else ""
        for name, words in COMMANDS.items():
            sides = [room / f"{which} {name}" for which in ("old", "new")]
            for path, clone, kept in zip(paths, clones(paths, pages), sides):
                outputs_of(clone, room, words.format(messages=messages).split(), kept)
                unnamed(path, kept)
            statuses[f"{name}: {(sides[0] / 'status').read_text().strip()}"] += 1
            found.update({f"{name}, {kind}" for kind in differences(*sides)})
        if found and keep:
            shutil.copytree(room, Path(keep) / str(seed), dirs_exist_ok=True)
    return seed, found, statuses


def differences(old, new):
    """The kind of each difference between two folders of outputs."""
    names = sorted({str(path.relative_to(side)) for side in (old, new) for path in side.rglob("*") if path.is_file()})
    for name in names:
        one, other = old / name, new / name
        if not (one.exists() and other.exists()):
            yield f"{name}: only {'old' if one.exists() else 'new'}"
        elif not filecmp.cmp(one, other, shallow=False):
            yield from (f"{re.sub('[0-9]+', 'N', name)}: {kind}" for kind in kinds(one, other))


def kinds(one, other):
    """The first lines of each part that differs, without numbers."""
    cut = re.compile(r"(?<=>)(?=<)|(?<=[,{]) ?(?=\")")
    texts = [cut.sub("\n", each.read_text("utf-8")).split("\n") for each in (one, other)]
    texts = [[re.sub(r"[0-9a-f]{16,}|\d+(\.\d+)?", "N", line)[:LONGEST] for line in text] for text in texts]
    for _ in range(2):  # (what both begin and end with is left out: difflib takes long)
        same = next((at for at, lines in enumerate(zip(*texts)) if lines[0] != lines[1]), min(map(len, texts)))
        texts = [text[same:][::-1] for text in texts]
    parts = [*difflib.unified_diff(*texts, n=0, lineterm="")][2:]
    chunk = []
    for line in [*parts, "@@"]:
        if line.startswith("@@"):
            if chunk:
                yield " | ".join(chunk[:SHOWN])
            chunk = []
        else:
            chunk.append(line)
    if not parts:
        yield "numbers only"


def main():
    parser = argparse.ArgumentParser(description=__doc__.partition("\n")[0])
    parser.add_argument("clones", nargs="+", metavar="OLD NEW")
    parser.add_argument("--lines", type=int, default=500)
    parser.add_argument("--seed", type=int, default=0, help="of the first line")
    parser.add_argument("--jobs", type=int, default=2)
    parser.add_argument("--keep", metavar="FOLDER")
    parser.add_argument("--pages", action="store_true", help="compare the pages of the rules too")
    parser.add_argument("--serve", action="store_true", help=argparse.SUPPRESS)
    words = parser.parse_args()
    os.environ["SOURCE_DATE_EPOCH"] = "1700000000"
    if words.serve:
        serve(*words.clones, words.pages)
        return
    paths = tuple(Path(each).resolve() for each in words.clones)
    os.environ["BALISECHECK"] = str(paths[0] / "dist" / "x86_64-linux" / "balisecheck")
    found, statuses, different = collections.Counter(), collections.Counter(), set()
    seeds = range(words.seed, words.seed + words.lines)
    with concurrent.futures.ProcessPoolExecutor(words.jobs) as pool:
        compare = functools.partial(compare_line, paths, keep=words.keep, pages=words.pages)
        for seed, own, met in pool.map(compare, seeds):
            found.update(own)
            statuses.update(met)
            different |= {seed} if own else set()
    for kind, times in found.most_common():
        print(f"{times:5}  {kind}")
    print(", ".join(f"{name} {times}" for name, times in sorted(statuses.items())))
    print(f"lines {words.lines}, different {len(different)}: {sorted(different)[:10]}")
    sys.exit(bool(found))


if __name__ == "__main__":
    main()
