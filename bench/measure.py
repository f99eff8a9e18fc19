#!/usr/bin/env python3
"""Measures the commands of the program: bench/measure.py speed|instructions|memory [--count N] [PROGRAM..]

    speed          seconds of the processor by hyperfine, the mean of ten runs, and megabytes of input a second
    instructions   a byte of input, by valgrind; no load of the machine changes them
    memory         the peak of `check` by GNU time, in MiB, and by the size of the document

The inputs are N telegrams, messages and groups: 10,000, or 500 for instructions. Without a PROGRAM it is the one that
./balisecheck would run. Each program has a column, and the last column divides the last program by the first one. A
wrong answer ends the run. 100,000 groups take 250 MB of the temporary folder, which TMPDIR names.
"""
import argparse
import json
import os
import pathlib
import re
import shlex
import subprocess
import sys
import tempfile

HERE = pathlib.Path(__file__).resolve().parent
sys.path.append(str(HERE.parent / "tests"))

from documents import ANY_MESSAGE, GROUPS_OF_COUNTRY, balise_text, pair  # noqa: E402  (the path comes first)
import runner  # noqa: E402

NO_MESSAGE, SHORT, CUT = 254, 210, 254  # M_MCOUNT, user bits, digits of a line
DECODE, ENCODE, CHECK, RADIO = ["decode"], ["encode"], ["check"], ["--radio"]


def made(script, *words):
    """What a script of this folder writes."""
    return subprocess.check_output([sys.executable, "-B", HERE / script, *map(str, words)], text=True)


def inputs(room, count):
    """The name, the words, the input and the wanted output of each run."""
    for kind, words in (("telegrams", []), ("messages", RADIO)):
        texts = made("records.py", kind, count, room / "forms")
        forms = (room / "forms").read_text(encoding="utf-8")
        yield kind, DECODE + words, texts, forms
        yield kind, ENCODE + words, forms, texts
    digits = texts.replace("\n", "")
    yield "cut", DECODE + RADIO, "".join(f"{digits[at:at + CUT]}\n" for at in range(0, len(digits), CUT)), forms
    for aspects in (2, 1):
        document, yes = made("documents.py", count, aspects), f"yes: groups {count}, messages 0\n"
        yield f"aspects {aspects}", CHECK, document, yes
    yield "messages first", CHECK, '{"messages":[],' + document.strip()[1:].removesuffix(',"messages":[]}') + "}\n", yes
    texts = "".join(f"{it}\n" for it in re.findall('"([0-9a-f]{208})"', document))
    yield "of groups", DECODE, texts, None
    yield "of groups", ENCODE, None, texts


def answer(command, text, wanted=None):
    """What a command writes, which must be as wanted."""
    written = subprocess.check_output(command, input=text, text=True)
    if wanted is not None and written != wanted:
        sys.exit(f"{' '.join(command)} writes another answer: {written[:200]}")
    return written


def seconds(commands, path):
    """The seconds of the processor that each command takes for the input."""
    lines, found = [f"{shlex.join(it)} <{shlex.quote(str(path))}" for it in commands], path.with_suffix(".json")
    subprocess.run(["hyperfine", "--warmup=1", "--runs=10", "--export-json", found, *lines], check=True,
                   stdout=subprocess.DEVNULL, stderr=subprocess.DEVNULL)
    return [it["user"] + it["system"] for it in json.loads(found.read_text(encoding="utf-8"))["results"]]


def instructions(command, path):
    """How many instructions a command takes for the input. Those of the C library and the loader depend on the machine:
    they are not counted, and a call of a library counts as 100."""
    counts, program = path.with_suffix(".counts"), re.escape(os.path.realpath(command[0]))
    options = "--tool=callgrind", "--compress-strings=no", "--compress-pos=no", f"--callgrind-out-file={counts}"
    with open(path, "rb") as file:
        subprocess.run(["valgrind", *options, *command], stdin=file, capture_output=True, check=False)
    own = "\n".join(re.findall(rf"(?ms)^ob={program}\n(.*?)(?=^ob=|\Z)", counts.read_text()))
    calls = re.findall(rf"cob=(?!{program}\n).*\n(?:cf[il]=.*\n)?cfn=.*\ncalls=(\d+)", own)
    steps = re.findall(r"(?m)^\d+ (\d+)$", re.sub(r"calls=.*\n.*", "", own))
    return sum(map(int, steps)) + 100 * sum(map(int, calls))


def measure(what, programs, count, room):
    """Prints a line for each input."""
    print(f"{'':28} {'MB':>8}", *programs)
    forms = ""
    for name, words, text, wanted in inputs(room, count):
        text, path = forms if text is None else text, room / "input"
        commands = [[program, *words] for program in programs]
        forms = [answer(it, text, wanted) for it in commands][0]
        path.write_text(text, encoding="utf-8")
        if what == "speed":
            found = seconds(commands, path)
            shown = [f"{it:9.4f} s {len(text) / 1e6 / max(it, 1e-4):7.1f} MB/s" for it in found]
        else:
            found = [instructions(it, path) / len(text) for it in commands]
            shown = [f"{it:9.1f}" for it in found]
        shown += [f"{found[-1] / found[0]:9.3f}"] * (len(programs) > 1)
        print(f"{' '.join(words) + ', ' + name:28} {len(text) / 1e6:8.2f}", *shown, flush=True)


def single(place, counter=ANY_MESSAGE):
    """The short telegram of the group at this place, with this M_MCOUNT."""
    country, number = divmod(place, GROUPS_OF_COUNTRY)
    return [balise_text({"nid_c": country, "nid_bg": number, "m_mcount": counter}, [], SHORT)]


def documents(make, count):
    """Documents of groups that this makes: the name, the text, and how the answer begins."""
    def document(*counter):
        groups = ",".join('{"balises":["%s"]}' % '","'.join(make(place, *counter)) for place in range(count))
        return '{"groups":[%s],"messages":[]}\n' % groups

    sound, yes = document(), f"yes: groups {count}, messages 0"
    begin, end, after = sound.rpartition('"]}],')
    size = len(make(0)[0])
    yield "sound", sound, yes
    yield "a finding a telegram", document(NO_MESSAGE), "no: findings "
    yield "an escape", f"{begin[:-size]}\\u0061{begin[1 - size:]}{end}{after}", yes
    yield "last telegram refused", f"{begin[:-1]}1{end}{after}", "refused: group "
    yield "a key twice", sound.replace('"messages":[]', '"messages":[],"messages":[]'), yes


def memory(programs, count, room):
    """Prints a line for each kind of document: the peak of each program, and the peak divided by the size."""
    for kind, make in (("pairs of long telegrams", pair), ("short telegrams", single)):
        for name, text, wanted in documents(make, count):
            path, taken, peaks = room / "document", room / "taken", []
            path.write_text(text, encoding="utf-8")
            for program in programs:
                with open(path, "rb") as file:
                    command = ["/usr/bin/time", "-q", "-f", "%M", "-o", taken, program, "check"]
                    said = subprocess.run(command, stdin=file, stdout=subprocess.PIPE, text=True, check=False).stdout
                if not said.startswith(wanted):
                    sys.exit(f"{kind}, {name}: {said[:200]}")
                peaks.append(int(taken.read_text(encoding="utf-8").split()[-1]) / 1024)
            shown = [f"{it:8.1f} MiB {it * 2**20 / len(text):6.1f} times" for it in peaks]
            print(f"{count} {kind + ', ' + name:48} {len(text) / 1e6:8.2f} MB", *shown, flush=True)


def main():
    parser = argparse.ArgumentParser(description=__doc__.partition("\n")[0])
    parser.add_argument("what", choices=("speed", "instructions", "memory"))
    parser.add_argument("--count", type=int, help="telegrams, messages and groups")
    parser.add_argument("programs", nargs="*", metavar="PROGRAM")
    words = parser.parse_intermixed_args()
    words.programs = words.programs or [runner.program()]
    with tempfile.TemporaryDirectory(prefix="measure-") as room:
        count, room = words.count or (500 if words.what == "instructions" else 10_000), pathlib.Path(room)
        if words.what == "memory":
            memory(words.programs, count, room)
        else:
            measure(words.what, words.programs, count, room)


if __name__ == "__main__":
    main()
