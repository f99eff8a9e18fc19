"""Which node runs the module, and that another program with its name is not believed.

The module of these tests asks the program, so that they need no toolchain.
"""
from __future__ import annotations

import json
import os
import shutil
import sys
from pathlib import Path
from typing import Callable, Iterator

import pytest
from telegrams import ALONE, FIRST

from balisekit.cli import main as cli
from balisekit.engine import find_program, loaded_module
from balisekit.engine.loaded_module import Module
from balisekit.engine.program import Program
from balisekit.errors import NoAnswer

Write = Callable[..., Path]
NODE = shutil.which("node") or ""
FAULTY_LINE = ("group,telegram", f"A,{ALONE}", f"B,{FIRST}")
ASKS = """import { spawnSync } from "node:child_process";
export const version = "VERSION";
function asked(words, input) {
    const run = spawnSync(PROGRAM, words, { input });
    return { status: run.status, text: run.stdout.toString() };
}
export const decode = (data) => asked(["decode"], data), check = (data) => asked(["check"], data);
export function findings(data) {
    const lines = check(data).text.trim().split("\\n");
    const found = lines.slice(1).map((line) => ({ rule: line.split(" ")[0], name: line.split(": ")[1], group: 1 }));
    const answer = { verdict: found.length ? "no" : "yes", groups: 1, messages: 0, findings: found };
    return { status: found.length ? 1 : 0, text: JSON.stringify(answer) + "\\n" };
}
"""
SAYS_YES = f"""#!{sys.executable}
import sys
def write(words, text=b""):
    sys.stdout.buffer.write(" ".join(words).ljust(80).encode() + text)
    sys.stdout.buffer.flush()
write(["VERSION", "v20.20.2"])
while True:
    head = sys.stdin.buffer.read(80).split()
    if not head:
        break
    sys.stdin.buffer.read(int(head[1]))
    text = b'{{"verdict":"yes","groups":2,"messages":0,"findings":[]}}\\n'
    write(["0", str(len(text)), "0", "0", "0"], text)
"""
NO_ROOM = 'write(["3", "0", "0", "0", "0"])'
"""What node answers if memory runs out."""


@pytest.fixture(name="package")
def a_package(program: Program, tmp_path: Path, monkeypatch: pytest.MonkeyPatch) -> Iterator[Path]:
    """A package that has only the module, and its folder with node on the path."""
    if not NODE:
        pytest.skip("the module by node (nodejs)")
    module = tmp_path / find_program.MODULE
    module.write_text(ASKS.replace("PROGRAM", json.dumps(program.path)).replace("VERSION", "1.2.3"), "utf-8")
    about = f"version 1.2.3\nsources 0\nmodule {find_program.checksum(str(module))}\n"
    (tmp_path / "ABOUT").write_text(about, "utf-8")
    monkeypatch.setattr(find_program, "TOP", str(tmp_path / "none"))
    monkeypatch.setattr(find_program, "PACKAGE", str(tmp_path))
    monkeypatch.setattr(find_program, "current_library", find_program.current_library.__wrapped__)
    monkeypatch.setattr(find_program, "_installed", without_program)
    monkeypatch.delenv("BALISECHECK")
    folder = tmp_path / "bin"
    folder.mkdir()
    (folder / "node").symlink_to(NODE)
    monkeypatch.setenv("PATH", str(folder))
    yield folder


def without_program() -> str:
    """Where no program is installed."""
    raise NoAnswer("there is no balisecheck")


def says_yes(path: Path) -> None:
    """Writes a node that answers yes to everything."""
    path.unlink(missing_ok=True)
    path.write_text(SAYS_YES.replace("VERSION", "1.2.3"), "utf-8")
    path.chmod(0o755)


Capture = pytest.CaptureFixture[str]


def test_it_is_named(package: Path, table: Write, capsys: Capture) -> None:
    """In text and JSON, with its file and version."""
    status, said = cli.main(["check", str(table(*FAULTY_LINE)), "--only", "F"]), capsys.readouterr().out.splitlines()
    version = os.popen(f"{NODE} --version").read().strip()
    named = f": the module of this balisekit, by ABOUT, run by node {version}, {package / 'node'}"
    assert status == 1 and any(line.startswith("balisecheck.mjs 1.2.3") and line.endswith(named) for line in said)
    cli.main(["check", str(table(*FAULTY_LINE)), "--only", "F", "--json", "-"])
    program = json.loads(capsys.readouterr().out)["program"]
    assert (program["node"], program["node_version"]) == (str(package / "node"), version)


def test_a_node_that_says_yes(package: Path, table: Write, capsys: Capture) -> None:
    """A program of that name that does not run the module is found out by its trial answers."""
    says_yes(package / "node")
    status, (said, err) = cli.main(["check", str(table(*FAULTY_LINE)), "--only", "F"]), capsys.readouterr()
    assert (status, said) == (3, "") and "a trial answer of it is wrong" in err and str(package / "node") in err


def test_a_node_without_memory(package: Path, table: Write, capsys: Capture) -> None:
    """A trial answer that lacks memory is not called wrong."""
    says_yes(package / "node")
    text = (package / "node").read_text("utf-8")
    (package / "node").write_text(text.replace('write(["0", str(len(text)), "0", "0", "0"], text)', NO_ROOM), "utf-8")
    status, (said, err) = cli.main(["check", str(table(*FAULTY_LINE)), "--only", "F"]), capsys.readouterr()
    assert (status, said) == (3, "") and "decode: memory" in err and "wrong" not in err


@pytest.mark.parametrize("answer", ["", "x", "x" * 80, "1.2.3 v20" + " " * 71, "\\377" * 80])
def test_a_node_that_says_something_else(package: Path, answer: str) -> None:
    """There is no answer of it."""
    (package / "node").unlink()
    (package / "node").write_text(f"#!/bin/sh\nprintf '{answer}'\n", "utf-8")
    (package / "node").chmod(0o755)
    with pytest.raises((NoAnswer, OSError)):
        Module(str(package.parent / find_program.MODULE))
    with pytest.raises(NoAnswer):
        Program.find()


def test_a_node_that_says_nothing(package: Path, monkeypatch: pytest.MonkeyPatch) -> None:
    """It is ended."""
    (package / "node").unlink()
    (package / "node").write_text("#!/bin/sh\nexec /bin/sleep 100\n", "utf-8")
    (package / "node").chmod(0o755)
    monkeypatch.setattr(loaded_module, "SECONDS", 0.5)
    with pytest.raises(NoAnswer):
        Program.find()


@pytest.mark.parametrize(
    "path", ["", ".", "{here}", "bin:.", "{here}/../{name}", ":{real}", ".:{real}", "{here}:{real}"]
)
def test_a_node_of_this_folder(path: str, package: Path, tmp_path: Path, monkeypatch: pytest.MonkeyPatch) -> None:
    """One that lies beside the table is not started, whatever the path says. The next one is."""
    here = tmp_path / "project"
    (here / "bin").mkdir(parents=True)
    says_yes(here / "node")
    says_yes(here / "bin" / "node")
    monkeypatch.chdir(here)
    monkeypatch.setenv("PATH", path.format(here=here, name=here.name, real=package))
    wanted = str(package / "node") if "{real}" in path else ""
    assert loaded_module.found_node() == wanted
    if not wanted:
        with pytest.raises(NoAnswer):
            Program.find()


def test_a_node_that_is_replaced(package: Path) -> None:
    """A later process runs the same file, and gives its trial answers again."""
    its = Module(str(package.parent / find_program.MODULE))
    its._end()
    says_yes(package / "node")
    with pytest.raises(NoAnswer, match="a trial answer of it is wrong"):
        its.call(["decode"], f"{ALONE}\n".encode())
