"""The module by node, in the place of program and library: how balisekit finds it, and that it answers as they do."""
from __future__ import annotations

import json
import multiprocessing
import shutil
from pathlib import Path
from typing import Iterator, Set

import pytest
from cases_of_program import TOP
from telegrams import ALONE, MESSAGE, OTHER, SPARE
from test_library import LINES, MESSAGES, said

import balisekit
from balisekit.engine import find_program, loaded_module, program as engine
from balisekit.engine.loaded_module import LoadedModule, Module
from balisekit.engine.program import Program
from balisekit.errors import NoAnswer
from balisekit.present.opening import program_words

BUILT = TOP / "out" / "targets" / "wasm64" / "balisecheck.mjs"
DOCUMENTS = (
    '{"groups":[],"messages":[]}',
    json.dumps({"groups": [{"balises": [ALONE]}, {"aspects": [{"balises": [ALONE]}] * 2}], "messages": [MESSAGE]}),
    "[",
    '{"groups":[{"balises":[]}],"messages":[]}',
    json.dumps({"groups": [{"balises": [SPARE]}], "messages": ["z"]}),
    json.dumps({"groups": [{"balises": [ALONE]}] * 3000, "messages": []}),
)


@pytest.fixture(scope="module", name="module")
def a_module() -> LoadedModule:
    """The module that scripts/targets has built of these sources."""
    about = dict(line.split(" ", 1) for line in (TOP / "dist/x86_64-linux/ABOUT").read_text("utf-8").splitlines())
    if not BUILT.exists() or find_program.checksum(str(BUILT)) != about.get("wasm64/balisecheck.mjs"):
        pytest.skip("the module by node (scripts/targets, which needs the toolchain)")
    if loaded_module.opened(str(BUILT)) is None:
        pytest.skip("the module by node (nodejs 20 or later)")
    return LoadedModule(str(BUILT), find_program.checksum(str(BUILT)), about, None, find_program.ABOUT)


@pytest.fixture
def package(module: LoadedModule, tmp_path: Path, monkeypatch: pytest.MonkeyPatch) -> Iterator[Path]:
    """The folder of a package that has only the module. No program is named, and none is on the path."""
    shutil.copy(module.path, tmp_path)
    (tmp_path / "ABOUT").write_text(f"version {module.version}\nsources 0\nmodule {module.sha256}\n", "utf-8")
    (tmp_path / "bin").mkdir()
    (tmp_path / "bin" / "node").symlink_to(shutil.which("node") or "")
    monkeypatch.setattr(find_program, "TOP", str(tmp_path / "none"))
    monkeypatch.setattr(find_program, "PACKAGE", str(tmp_path))
    monkeypatch.setattr(find_program, "current_library", find_program.current_library.__wrapped__)
    monkeypatch.setattr(find_program, "_installed", without_program)
    monkeypatch.setenv("PATH", str(tmp_path / "bin"))
    monkeypatch.delenv("BALISECHECK")
    yield tmp_path


def without_program() -> str:
    """Where no program is installed."""
    raise NoAnswer("there is no balisecheck")


def test_the_module_answers_as_the_program(module: LoadedModule, program: Program) -> None:
    """Lines and messages, with the numbers of refusals."""
    assert len(LINES) + len(MESSAGES) > engine.FEW and said(module) == said(program)


def test_documents(module: LoadedModule, program: Program) -> None:
    """The report or the refusal is that of the program."""
    for document in DOCUMENTS:
        assert module.check(document) == program.check(document)


def numbers(its: Module, telegram: str, count: int) -> Set[str]:
    """The answers to this telegram, decoded so many times."""
    return {its.call(["decode"], f"{telegram}\n".encode()).text for _ in range(count)}


def test_forked_processes(module: LoadedModule) -> None:
    """Each has a node of its own, so none gets the answer of another one."""
    its, context = Module(module.path), multiprocessing.get_context("fork")
    wanted = {each: numbers(its, each, 1) for each in (ALONE, OTHER)}
    said = context.Queue()

    def work(telegram: str) -> None:
        said.put((telegram, numbers(its, telegram, 40)))

    processes = [context.Process(target=work, args=(each,)) for each in [*wanted] * 2]
    for each in processes:
        each.start()
    answers = [said.get(timeout=60) for _ in processes]
    for each in processes:
        each.join()
    assert sorted(answers, key=str) == sorted([*wanted.items()] * 2, key=str)
    assert numbers(its, OTHER, 1) == wanted[OTHER]


def test_an_interrupted_call(module: LoadedModule, monkeypatch: pytest.MonkeyPatch) -> None:
    """Its answer is not that of the next call."""
    its = Module(module.path)
    wanted = numbers(its, OTHER, 1)

    def interrupted() -> None:
        raise KeyboardInterrupt

    with monkeypatch.context() as patch:
        patch.setattr(its, "_words", interrupted)
        with pytest.raises(KeyboardInterrupt):
            its.call(["decode"], f"{ALONE}\n".encode())
    assert numbers(its, OTHER, 2) == wanted


def test_records(module: LoadedModule, monkeypatch: pytest.MonkeyPatch) -> None:
    """A record, and the first fault of another. No variable makes node run anything else."""
    monkeypatch.setenv("NODE_OPTIONS", "--require /no/file")
    its = Module(module.path)
    assert its.telegram(ALONE.encode()).status == 0 and its.message(b"z").status == 2
    fault = its.telegram(ALONE[:-1].encode() + b"1").fault
    assert fault is not None and fault.reason == 3
    with pytest.raises(balisekit.KitError, match="another type"):
        its.check("text")  # type: ignore[arg-type]


def test_it_answers_if_nothing_else_can(package: Path, module: LoadedModule) -> None:
    """And each output names it."""
    found = Program.find()
    assert (found.kind, found.sha256, found.known_by) == ("module", module.sha256, "ABOUT")
    assert program_words(found).startswith(f"balisecheck.mjs {module.version}, SHA-256 {module.sha256}: the module of")
    assert find_program.answering(None, None) == found.path == str(package / find_program.MODULE)
    assert find_program.released().endswith(f", module {module.sha256}")


@pytest.mark.parametrize("lacks", ["timeout", "name", "node", "module", "undamaged", "version"])
def test_otherwise_there_is_no_answer(package: Path, lacks: str) -> None:
    """Nothing ends its calls, so a limit of time asks for the program. A damaged or other module is not taken."""
    about = package / "ABOUT"
    if lacks == "node":
        (package / "bin" / "node").unlink()
    elif lacks == "module":
        (package / find_program.MODULE).unlink()
    elif lacks == "undamaged":
        (package / find_program.MODULE).write_text("changed")
    elif lacks == "version":
        about.write_text("version 0.0.1\n" + about.read_text("utf-8").split("\n", 1)[1], "utf-8")
    named = "/no/program" if lacks == "name" else None
    with pytest.raises(NoAnswer, match="there is no "):
        Program.find(named, 5 if lacks == "timeout" else None)


def test_node_that_has_ended(module: LoadedModule) -> None:
    """There is no answer of it."""
    its = Module(module.path)
    its._node.kill()
    its._node.wait()
    with pytest.raises(NoAnswer, match="check: node has ended"):
        its.check(b"{}")
