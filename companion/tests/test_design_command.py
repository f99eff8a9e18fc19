"""`balisekit design`, the example of docs/design.md, and that a design never hides an entry."""
from __future__ import annotations

import csv
import json
import re
from pathlib import Path
from typing import Any, Dict, List, Set

import design_example
import pytest
from conftest import Run
from test_design_files import TOP, write_csv

from balisekit.tables.plan import MADE

TABLES = sorted((TOP / "examples/meaning").glob("*-*.csv")) + [TOP / "examples/meaning/line.csv"]
LINE = design_example.FOLDER / "line.csv"
PAGE = (TOP / "docs" / "design.md").read_text("utf-8")


def made(run: Run, tmp_path: Path, table: Path, who: str = "") -> Path:
    """The design of a table by the command, with this name in each row."""
    file = tmp_path / "made.csv"
    status, lines, _ = run("design", table, "--csv", file, "--force")
    assert status == 0 and lines[-1].startswith("written: ")
    first, *others = file.read_text("utf-8").splitlines()
    assert first == MADE
    rows = list(csv.DictReader(others))
    with file.open("w", encoding="utf-8", newline="") as out:
        out.write(f"{MADE}\n")
        writer = csv.DictWriter(out, list(rows[0]))
        writer.writeheader()
        writer.writerows({**row, "who": who} for row in rows)
    return file


def answer(run: Run, tmp_path: Path, *words: object) -> Dict[str, Any]:
    """The JSON of a check."""
    run("check", *words, "--json", tmp_path / "found.json", "--force")
    form: Dict[str, Any] = json.loads((tmp_path / "found.json").read_text("utf-8"))
    return form


@pytest.mark.parametrize("table", TABLES, ids=[path.stem for path in TABLES])
def test_a_made_design_confirms_nothing_without_names(run: Run, tmp_path: Path, table: Path) -> None:
    """Its table has no entry of its rules; only rows with a name are met, and confirm variables."""
    for who in ("", "J. Doe"):
        form = answer(run, tmp_path, table, "--design", made(run, tmp_path, table, who))
        assert [each for each in form["entries"] if each["rule"].startswith("X")] == []
        words = {row["word"] for row in form["design"]["rows"]}
        assert bool(form["design"]["variables"]["confirmed"]) == bool(who)
        assert ("met" in words) == bool(who) and words <= {"met", "not compared"}


def keys(form: Dict[str, Any]) -> Set[str]:
    """The entries of all rules but those of the design."""
    entries: List[Dict[str, Any]] = [one for each in form["entries"] for one in (each, *each["folded"])]
    return {f"{each['rule']} {each['rows']}" for each in entries if not each["rule"].startswith("X")}


@pytest.mark.parametrize("folder", ["meaning", "meaning/mistakes", "links", "table"])
def test_a_design_hides_no_entry(run: Run, tmp_path: Path, folder: str) -> None:
    """Each entry that an example has without a design is there with one too: with the design of the correct line."""
    sound = made(run, tmp_path, TOP / "examples/meaning/line.csv")
    rows = list(csv.DictReader(sound.read_text("utf-8").splitlines()[1:]))
    design = write_csv(tmp_path / "design.csv", [row for row in rows if row["kind"] != "jump"])
    tables = [path for path in sorted((TOP / "examples" / folder).glob("*.csv")) if "telegram" in path.read_text()[:99]]
    assert tables
    for table in tables[:: 1 + len(tables) // 8]:
        without = keys(answer(run, tmp_path, table))
        assert without <= keys(answer(run, tmp_path, table, "--design", design)), table.name


def test_the_example(run: Run, tmp_path: Path, monkeypatch: pytest.MonkeyPatch) -> None:
    """The line has no entry with its design in both forms, and the page has the answer."""
    monkeypatch.chdir(TOP)
    (block,) = re.findall(r"```console\n\$ \./balisekit ([^|]*) \| tail -n 3\n(.*?)```", PAGE, re.DOTALL)
    for file in ("design.xlsx", "design.csv"):
        words = block[0].replace("design.xlsx", file).split()
        status, lines, _ = run(*words)
        assert status == 0 and "\n".join(lines[-3:]) == block[1].strip()


def test_the_files_of_the_example(tmp_path: Path, monkeypatch: pytest.MonkeyPatch) -> None:
    """`python3 companion/tests/design_example.py` makes them. (A workbook has the time at which it was written.)"""
    monkeypatch.setattr(design_example, "FOLDER", tmp_path)
    design_example.main()
    for name in ("line.csv", "design.csv", "balisekit.toml"):
        assert (tmp_path / name).read_bytes() == (LINE.parent / name).read_bytes()


MISTAKES = [
    ("speed", "Kilometre", "13.320", "Value", "60"),
    ("gradient", "Kilometre", "11.690", "Value", "18"),
    ("signal", "Name", "Signal 3", "Kilometre", "13.050"),
    ("aspect", "Name", "Signal 2/yellow", "Value", "overlap=250"),
    ("aspect", "Name", "Signal 2/yellow", "Name", "Signal 22/yellow"),
    ("group", "Name", "Signal 4", "Value", "balises=3"),
]


def test_each_row_of_the_page_finds_its_mistake(run: Run, tmp_path: Path) -> None:
    """What the page shows for each kind is reported if that cell is changed, with status 1."""
    shown = re.findall(r"\| (X[0-9]: .*?) \|$", PAGE, re.MULTILINE)
    assert len(shown) == len(MISTAKES)
    for (kind, column, name, changed, value), text in zip(MISTAKES, shown):
        rows = list(csv.DictReader((LINE.parent / "design.csv").open(encoding="utf-8", newline="")))
        (row,) = [row for row in rows if row["Kind"] == kind and row[column] == name]
        is_key = "=" in value
        row[changed] = re.sub(f"{value.split('=')[0]}=[0-9]+", value, row[changed]) if is_key else value
        row["Value"] = row["Value"].split(" at=")[0]
        file = write_csv(tmp_path / "design.csv", rows)
        words = ("--design", file, "--columns", LINE.parent / "balisekit.toml", "--only", "X")
        status, lines, _ = run("check", LINE, *words)
        rule, _, words_of_it = text.partition(": ")
        parts = [f"{rule}: ", *words_of_it.split(" .. ")]
        assert status == 1 and any(all(each in line for each in parts) for line in lines), text
