"""`--junit`, and the job files of examples/ci, in a folder that has only a release's tarball."""
from __future__ import annotations

import hashlib
import json
import os
import re
import shutil
import subprocess
import tarfile
import xml.etree.ElementTree as ElementTree
from importlib.util import cache_from_source
from pathlib import Path
from typing import Any, Callable, Dict, List

import pytest
from cases_of_program import TOP
from conftest import Run
from telegrams import ALONE, MESSAGE, OTHER, SPARE, account, digest

from balisekit import __version__
from balisekit.engine.program import Program
from balisekit.io import csv_writing
from balisekit.rules.accepted import COLUMNS

Write = Callable[..., Path]
HEADING = ",".join(COLUMNS)
SOUND = ["group,telegram", f"A,{ALONE}", f"B,{OTHER}"]
JOBS = sorted((TOP / "examples" / "ci").glob("*.yml"))
NAME = f"balisecheck-{__version__}-x86_64-linux"


def entry(**fields: str) -> str:
    """A row of accepted.csv about F14 of the group with identity 1."""
    values = {
        "rule": "F14",
        "nid_c": "1",
        "nid_bg": "1",
        "reason": "by design",
        "who": "J. Doe",
        "date": "2026-01-02",
        "sha256": digest([ALONE, ALONE]),
        **fields,
    }
    return csv_writing.text([values.get(name, "") for name in COLUMNS], []).rstrip("\n")


def read(path: Path) -> Any:
    """The suite of the program's findings, read by junitparser. The suite of remarks has only what was left out."""
    junitparser = pytest.importorskip("junitparser")
    findings, remarks = junitparser.JUnitXml.fromfile(str(path))
    lost = {name: result for name, result in results(findings).items() if result == ["Error"] and name[:5] == "group"}
    assert remarks.name.startswith("balisekit remarks ")
    assert {name: result for name, result in results(remarks).items() if result} == lost
    return findings


def results(suite: Any) -> Dict[str, List[str]]:
    """The results of each case, by its name."""
    return {f"{case.classname} {case.name}": [type(one).__name__ for one in case.result] for case in suite}


def test_a_case_for_each_group_and_message(run: Run, table: Write, tmp_path: Path) -> None:
    path = table(*SOUND, f"C,{OTHER}", f"D,{SPARE}", f"E,{ALONE}", name="t.csv")
    radio = table(f"{MESSAGE};one", "0400c0;two", name="m.txt")
    file = table(HEADING, entry(), entry(rule="F1"), name="accepted.csv")
    status = run("check", path, "--messages", radio, "--accepted", file, "--junit", tmp_path / "out.xml")[0]
    suite = read(tmp_path / "out.xml")
    assert status == 2 and results(suite) == {
        "group A": [],
        "group B": [],
        "group C": ["Failure"],
        "group D": ["Error"],
        "group E": ["Skipped"],
        "message line 1  one": ["Failure"],
        "message line 2  two": ["Error"],
        "accepted row 3": ["Failure"],
    }
    assert (suite.tests, suite.failures, suite.errors, suite.skipped) == (8, 3, 2, 1)
    whole = {case.name: case.result[0] for case in suite if case.result}
    assert whole["E"].message == "accepted: by design (J. Doe, 2026-01-02)"
    assert whole["C"].message == "1 open: F14 group 2: identity used before"
    assert "    program: F14 group 2: identity used before" in whole["C"].text
    assert whole["D"].message == "left out: refused: row 5" and "M_DUP is 3" in whole["D"].text
    assert whole["row 3"].message == "unused: it matches no finding"
    said = (tmp_path / "out.xml").read_text("utf-8")
    assert "balisekit is not proved; the program's own lines" in said and "INCOMPLETE: " in said


def test_a_yes(run: Run, table: Write, tmp_path: Path) -> None:
    assert run("check", table(*SOUND), "--junit", tmp_path / "out.xml")[0] == 0
    assert results(read(tmp_path / "out.xml")) == {"group A": [], "group B": []}


def test_the_output_tells_a_lost_aspect(run: Run, table: Write, tmp_path: Path) -> None:
    path = table("group,aspect,telegram", *[f"A,{one},{ALONE}" for one in "xyz"], *[f"B,{one},{OTHER}" for one in "xy"])
    assert run("check", path, "--junit", tmp_path / "out.xml")[0] == 0
    said = ElementTree.parse(tmp_path / "out.xml").findtext(".//system-out") or ""
    assert said.splitlines()[2:8] == [
        "settings: all have their defaults",
        'look: B has 2 aspects, 1 other group has 3: it lacks "z"',
        "aspects found: 3 in 1 group (A), 2 in 1 (B)",
        "no kilometres: rules over the line are not applied",
        account(5),
        'program: "yes: groups 2, messages 0"',
    ]


def test_names_are_text(run: Run, table: Write, tmp_path: Path) -> None:
    name = "<script>&\"'\x1b\u202e\ufffe=1+1"
    path = table(content=csv_writing.text(["group", "telegram"], [[name, ALONE], ["B", ALONE]]).encode())
    run("check", path, "--junit", tmp_path / "out.xml")
    cases = list(ElementTree.parse(tmp_path / "out.xml").iter("testcase"))
    names = [case.get("name") for case in cases]
    assert names == ["<script>&\"'\\x1b\\u202e\\ufffe=1+1", "B"] * 2


def test_nothing_half_written(run: Run, table: Write, tmp_path: Path) -> None:
    assert run("check", table(*SOUND), "--program", "/bin/false", "--junit", tmp_path / "out.xml")[0] == 3
    assert run("check", table(*SOUND), "--junit", tmp_path)[0] == 3
    assert not (tmp_path / "out.xml").exists()


@pytest.fixture(scope="module")
def release(tmp_path_factory: pytest.TempPathFactory, program: Program) -> Path:
    """A folder with a tarball, as a release has it, and its checksum.

    BALISECHECK_RELEASE names one that scripts/release.sh has written. Else it is made here, of what a job needs.
    """
    real = os.environ.get("BALISECHECK_RELEASE")
    if real:
        return Path(real)
    room = tmp_path_factory.mktemp("release")
    top = room / NAME
    top.mkdir()
    for name in ("balisekit", "companion/pyproject.toml", "companion/start.py"):
        (top / name).parent.mkdir(exist_ok=True)
        shutil.copy(TOP / name, top / name)
    shutil.copytree(TOP / "companion" / "src", top / "companion" / "src", ignore=shutil.ignore_patterns("__pycache__"))
    for path in (top / "companion" / "src").rglob("*.py"):
        # (Modules that were compiled already are taken along: else each job would compile them anew.)
        compiled = Path(cache_from_source(str(TOP / path.relative_to(top))))
        if compiled.exists():
            (path.parent / "__pycache__").mkdir(exist_ok=True)
            shutil.copy(compiled, path.parent / "__pycache__" / compiled.name)
    shutil.copy(program.path, top / "balisecheck")
    about = top / "dist" / "x86_64-linux" / "ABOUT"
    about.parent.mkdir(parents=True)
    about.write_text(f"version 0.0.0\nprogram {program.sha256}\n", "utf-8")
    tools = room / "tools"
    tools.mkdir()
    with tarfile.open(tools / f"{NAME}.tar.gz", "w:gz", compresslevel=1) as tar:
        tar.add(top, NAME)
    digest = hashlib.sha256((tools / f"{NAME}.tar.gz").read_bytes()).hexdigest()
    (tools / f"{NAME}.tar.gz.sha256").write_text(f"{digest}  {NAME}.tar.gz\n")
    return tools


def steps(job: Path) -> List[str]:
    """What a job file runs, a shell each: GitLab gives all lines of `script` to one, GitHub each `run` to its own."""
    lines = job.read_text("utf-8").splitlines()
    if job.stem == "github":
        at = lines.index("    steps:")
        some = [re.fullmatch(r" +- (run: (?P<run>.+)|uses: \S+|{uses: .+})", line) for line in lines[at + 1 :]]
        assert all(some), "a step of another kind"
        return [one["run"] for one in some if one and one["run"]]
    at = lines.index("  script:")
    end = next(place for place, line in enumerate(lines) if place > at and not line.startswith("    - "))
    return ["\n".join(line[len("    - ") :] for line in lines[at + 1 : end])]


def version(job: Path) -> str:
    """The release that a job file names."""
    found = re.findall(r'^(?:env|  variables): {VERSION: "([0-9.]+)"}$', job.read_text("utf-8"), re.MULTILINE)
    assert len(found) == 1
    return str(found[0])


def run_job(job: Path, room: Path, release: Path, *tables: List[str]) -> int:
    """Runs the commands of a job in a folder that has the tarball and the two tables. Returns 0 if all return 0."""
    shutil.copytree(release, room / "tools")
    for name, lines in zip(("line.csv", "accepted.csv"), tables):
        (room / name).write_text("".join(f"{line}\n" for line in lines), "utf-8")
    environment = {"PATH": "/usr/bin:/bin", "HOME": str(room), "VERSION": version(job)}
    for step in steps(job):
        done = subprocess.run(
            ["bash", "-e", "-o", "pipefail", "-c", step],
            cwd=room,
            env=environment,
            stdout=subprocess.DEVNULL,
            stderr=subprocess.DEVNULL,
            check=False,
        )
        if done.returncode:
            return done.returncode
    return 0


@pytest.mark.parametrize("job", JOBS, ids=[path.stem for path in JOBS])
@pytest.mark.parametrize(
    "third, entries, status, cases",
    [
        ("", [], 0, {}),
        (ALONE, [], 1, {"group C": ["Failure"]}),
        (ALONE, [entry()], 0, {"group C": ["Skipped"]}),
        (ALONE, [entry(until="2020-01-03")], 1, {"group C": ["Failure"], "accepted row 2": ["Failure"]}),
        ("", [entry()], 1, {"accepted row 2": ["Failure"]}),
        (SPARE, [], 2, {"group C": ["Error"]}),
    ],
    ids=["sound", "new", "accepted", "expired", "unused", "refused"],
)
def test_jobs(
    job: Path, tmp_path: Path, release: Path, third: str, entries: List[str], status: int, cases: Dict[str, List[str]]
) -> None:
    """A new finding is red, an accepted one is not, and one whose date is past is red again."""
    lines = [*SOUND, *([f"C,{third}"] if third else [])]
    assert run_job(job, tmp_path, release, lines, [HEADING, *entries]) == status
    kept = re.search("(?:junit|path): ([^ },]+)", job.read_text("utf-8").split("balisekit check", 1)[1])
    cases = {"group A": [], "group B": [], **cases}
    assert kept and results(read(tmp_path / kept[1])) == cases
    if job.stem == "github":
        (log,) = json.loads((tmp_path / "balises.sarif").read_text("utf-8"))["runs"]
        assert log["invocations"][0]["exitCode"] == status and "sarif_file: balises.sarif" in job.read_text("utf-8")
        assert all("suppressions" in result for result in log["results"]) == (status == 0)


@pytest.mark.parametrize("job", JOBS, ids=[path.stem for path in JOBS])
def test_a_damaged_tarball_is_red(job: Path, tmp_path: Path, release: Path) -> None:
    other = tmp_path / "other"
    shutil.copytree(release, other)
    with open(other / f"{NAME}.tar.gz", "ab") as file:
        file.write(b"x")
    (tmp_path / "room").mkdir()
    assert run_job(job, tmp_path / "room", other, SOUND, [HEADING]) != 0
    assert not (tmp_path / "room" / "balises.xml").exists()


@pytest.mark.parametrize("job", JOBS, ids=[path.stem for path in JOBS])
def test_another_release_beside_it_changes_nothing(job: Path, tmp_path: Path, release: Path) -> None:
    """Neither its tarball, which is damaged here, nor what was unpacked of it."""
    both = tmp_path / "both"
    shutil.copytree(release, both)
    for name in ("balisecheck-0.0-x86_64-linux", "balisecheck-9.9-x86_64-linux"):
        (both / f"{name}.tar.gz").write_bytes(b"x")
        (both / f"{name}.tar.gz.sha256").write_text(f"{'0' * 64}  {name}.tar.gz\n")
        (both / name).mkdir()
    assert run_job(job, tmp_path / "room", both, SOUND, [HEADING]) == 0


def test_job_files_name_this_release() -> None:
    assert [version(path) for path in JOBS] == [__version__] * 2
    kept = TOP / "VERSION"
    assert not kept.exists() or kept.read_text("utf-8") == f"{__version__}\n", "a release's tarball has no such file"


def test_job_files_are_short() -> None:
    assert [path.name for path in JOBS] == ["github.yml", "gitlab-ci.yml"]
    lines = [[it for it in path.read_text("utf-8").splitlines() if not it.startswith("#")] for path in JOBS]
    assert all(len(it) <= 12 for it in lines)
    assert [len("\n".join(steps(path)).splitlines()) for path in JOBS] == [2, 2]
