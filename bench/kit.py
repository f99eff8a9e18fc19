#!/usr/bin/env python3
"""Measures balisekit on tables of bench/table.py: bench/kit.py [--runs N] [--of KIND] [--refused PART] [ROWS..]

For each number of rows and each command there is a line: seconds of the processor, by balisekit and all that it
starts, the least of N runs, and how many seconds for 1,000 rows; the peak of memory, of the largest process, in MiB.
The load of the machine changes these seconds less than those of a clock. With `--refused 0.1` the program refuses a
tenth of the rows. With `--of` the tables are of another kind, and only `check` is run, with all rules.
"""
import argparse
import os
import subprocess
import sys
import tempfile
from pathlib import Path

TOP = Path(__file__).resolve().parents[1]
COMMANDS = (["check"], ["links"], ["report", "--force", "--html"])
OF_KIND = (["check", "--rules=all"],)
SOUND, FOUND, INCOMPLETE = 0, 1, 2


def table(room, rows, refused, kind):
    """The path of a table."""
    path = room / f"{rows}.csv"
    options = [f"--refused={refused}", *([f"--of={kind}"] if kind else [])]
    with open(path, "wb") as file:
        subprocess.run([TOP / "bench/table.py", str(rows), *options], stdout=file, check=True)
    return path


def taken(command):
    """Seconds of the processor and MiB of a run, which must give an answer."""
    run = subprocess.Popen(command, stdout=subprocess.DEVNULL, stderr=subprocess.DEVNULL)
    _, status, usage = os.wait4(run.pid, 0)
    run.returncode = os.waitstatus_to_exitcode(status)
    if run.returncode not in (SOUND, FOUND, INCOMPLETE):
        sys.exit(f"{' '.join(map(str, command))} ends with {run.returncode}")
    return usage.ru_utime + usage.ru_stime, usage.ru_maxrss / 1024


def main():
    parser = argparse.ArgumentParser(description=__doc__.partition("\n")[0])
    parser.add_argument("--runs", type=int, default=3)
    parser.add_argument("--of", metavar="KIND")
    parser.add_argument("--refused", type=float, default=0, metavar="PART")
    parser.add_argument("rows", type=int, nargs="*", default=[1200, 12000, 60000])
    words = parser.parse_args()
    with tempfile.TemporaryDirectory(prefix="kit-") as room:
        for rows in words.rows:
            path = table(Path(room), rows, int(rows * words.refused), words.of)
            for command, *options in OF_KIND if words.of else COMMANDS:
                page = [path.with_suffix(".html")] if "--html" in options else []
                runs = [taken([TOP / "balisekit", command, path, *options, *page]) for _ in range(words.runs)]
                seconds, memory = min(it[0] for it in runs), max(it[1] for it in runs)
                print(f"{rows:8} rows  {command:8} {seconds:8.2f} s  {seconds * 1000 / rows:6.3f} s for 1,000 rows "
                      f"{memory:8.0f} MiB", flush=True)


if __name__ == "__main__":
    main()
