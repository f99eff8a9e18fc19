"""The library for C: its calls in Python, and the answers of balisekit by it instead of by runs of the program."""
from __future__ import annotations

import ctypes
import hashlib
import json
import os
import random
import re
import resource
import shutil
import subprocess
import sys
import threading
import time
from dataclasses import replace
from pathlib import Path
from typing import Any, Callable, Dict, Iterator, List, Optional

import pytest
from cases_of_program import TOP
from conftest import library_under_test
from telegrams import ALONE, FAULTY, MESSAGE, OTHER, SPARE

import balisekit
from balisekit.engine import find_program, loaded_library, program as engine, records
from balisekit.engine.grammar import Refusal
from balisekit.engine.library import COMMANDS, Call, Library, opened
from balisekit.engine.loaded_library import LoadedLibrary
from balisekit.engine.program import Program, Record
from balisekit.engine.run import Run
from balisekit.errors import NoAnswer

STORED = TOP / "dist" / "x86_64-linux"
LIBRARY = os.path.join(os.environ.get("BALISECHECK_LIBRARY", STORED), find_program.LIBRARY)
DICE = random.Random(7)
LINES = DICE.choices((ALONE, OTHER, SPARE, FAULTY, "zz"), k=200)
MESSAGES = DICE.choices((MESSAGE, MESSAGE, MESSAGE[:-2], "0304", "zz"), k=200)
needs_library = pytest.mark.skipif(not os.path.exists(LIBRARY), reason="the library for C is not stored here")


@pytest.fixture
def runs(monkeypatch: pytest.MonkeyPatch) -> List[Any]:
    """The words of each process that is started."""
    started: List[Any] = []

    class Counted(Run):
        def __init__(self, path: str, words: Any, *others: Any) -> None:
            started.append(words)
            super().__init__(path, words, *others)

    monkeypatch.setattr(engine, "Run", Counted)
    return started


@pytest.fixture
def library(program: Program) -> LoadedLibrary:
    """The library of the program under test."""
    found = library_under_test(program.sha256)
    if found is None:
        pytest.skip("the library for C of this program is not here")
    return found


def said(program: Program) -> List[Any]:
    """Its answers, with the lines and numbers of refusals."""
    return [*program.decode(LINES), *program.messages(MESSAGES), *program.encode([{"a": 1}, {}], radio=True)]


def test_the_library_answers_as_the_program(library: LoadedLibrary, program: Program, runs: List[Any]) -> None:
    """And it starts no process. After some refusals the program reads parts, whose lines it counts from 1."""
    answers = said(library)
    assert runs == [] and answers == said(program) and runs != []
    assert sum(isinstance(answer, Refusal) for answer in answers) > 2 * engine.FEW
    assert {answer.number for answer in answers if isinstance(answer, Refusal)} > {None, 1, 2, 3}


def test_lines_of_a_program_are_compared_with_the_form_of_records(
    library: LoadedLibrary, program: Program, monkeypatch: pytest.MonkeyPatch
) -> None:
    """Those of the library are not, which would take long: it is known by its checksum."""
    for record in ("telegram", "message"):
        monkeypatch.setattr(records, f"{record}_expression", lambda: re.compile("(?!)"))
    answers = [*library.decode([ALONE]), *library.messages([MESSAGE])]
    assert [type(answer) for answer in answers] == [Record, Record]
    with pytest.raises(NoAnswer, match="no record of a telegram"):
        list(program.decode([ALONE]))
    with pytest.raises(NoAnswer, match="no record of a message"):
        list(program.messages([MESSAGE]))


@pytest.mark.parametrize(
    "document",
    [
        '{"groups":[],"messages":[]}',
        json.dumps({"groups": [{"balises": [ALONE]}, {"aspects": [{"balises": [ALONE]}] * 2}], "messages": [MESSAGE]}),
        "[",
        "[]",
        '{"groups":[]}',
        '{"groups":[],"messages":[],"x":1}',
        '{"groups":[{"balises":[1]}],"messages":[]}',
        '{"groups":[{"balises":[]}],"messages":[]}',
        '{"groups":[{"aspects":[{"balises":["' + ALONE + '"]}]}],"messages":[]}',
        json.dumps({"groups": [{"balises": [SPARE]}], "messages": []}),
        json.dumps({"groups": [{"aspects": [{"balises": [ALONE]}, {"balises": ["zz"]}]}], "messages": []}),
        json.dumps({"groups": [], "messages": [MESSAGE, "0304"]}),
        json.dumps({"groups": [], "messages": ["z"]}),
    ],
)
def test_findings_as_data_are_the_report(library: LoadedLibrary, program: Program, document: str) -> None:
    """The report and each refusal that is read as data has the lines and parts of the text."""
    assert library.check(document) == program.check(document.encode()) == library.check([document[:5], document[5:]])


def test_many_findings_need_a_larger_buffer(library: LoadedLibrary, program: Program) -> None:
    document = {"groups": [{"balises": [ALONE]}] * 3000, "messages": []}
    report = library.check(document)
    assert report == program.check(document) and len(repr(report)) > 1 << 16


# How balisekit finds the library.


@pytest.fixture
def clone(program: Program, library: LoadedLibrary, tmp_path: Path, monkeypatch: pytest.MonkeyPatch) -> Iterator[Path]:
    """A clone with a crate, whose start script names the program, and with its library. No program is named."""
    stored = tmp_path / "dist" / "x86_64-linux"
    for folder in (stored, tmp_path / "crates" / "one" / "src", tmp_path / "companion", tmp_path / "out"):
        folder.mkdir(parents=True)
    for name in ("crates.txt", "HANDLES", "companion/pyproject.toml", "crates/one/src/lib.rt"):
        (tmp_path / name).touch()
    shutil.copy(library.path, stored)
    about = f"version {library._library.version}\nprogram {program.sha256}\nlibrary {library.sha256}\n"
    (stored / "ABOUT").write_text(about, "utf-8")
    (tmp_path / "balisecheck").write_text(f"#!/bin/sh\necho {program.path}\n")
    monkeypatch.setattr(find_program, "TOP", str(tmp_path))
    monkeypatch.setattr(find_program, "PACKAGE", str(tmp_path))
    monkeypatch.setattr(find_program, "current_library", find_program.current_library.__wrapped__)
    monkeypatch.delenv("BALISECHECK")
    time.sleep(0.02)  # (a change within the same tick of the clock has the same time)
    yield tmp_path


def change(path: str, content: Optional[str] = None) -> Callable[[Path], None]:
    """Writes a file of the clone, or removes it."""
    return lambda clone: (clone / path).unlink() if content is None else void((clone / path).write_text(content))


def void(_: object) -> None:
    """Drops a value."""


def test_the_library_of_a_clone(clone: Path, runs: List[Any]) -> None:
    """It answers without a process, and is known by ABOUT. Its version and checksum are those of its file."""
    found = Program.find()
    assert (found.kind, found.path) == ("library", str(clone / "dist" / "x86_64-linux" / find_program.LIBRARY))
    assert found.sha256 == hashlib.sha256(Path(found.path).read_bytes()).hexdigest() == found.about["library"]
    assert (found.known_by, found.version) == ("ABOUT", found.about["version"])
    with find_program.script_ahead():
        assert not find_program._STARTED
    assert list(found.decode([ALONE])) and runs == []


@pytest.mark.parametrize(
    "does",
    [
        change("crates/one/src/lib.rt", "changed"),
        change("crates/one/src/new.rt", "added"),
        change("crates/one/src/lib.rt"),
        change("HANDLES", "changed"),
        change("out/balisecheck", "built"),
        lambda clone: (clone / "crates" / "two").mkdir(),
        change("dist/x86_64-linux/libbalisecheck.so.0"),
        change("dist/x86_64-linux/libbalisecheck.so.0", "damaged"),
        change("dist/x86_64-linux/ABOUT", "version 0.0.1\n"),
    ],
)
def test_the_start_script_decides_if_anything_has_changed(clone: Path, does: Callable[[Path], None]) -> None:
    """A source, or the folder of one; or something was built; or the library is not the one of ABOUT."""
    does(clone)
    assert Program.find().kind == "program"


def test_the_library_of_another_version_does_not_answer(clone: Path) -> None:
    about = clone / "dist" / "x86_64-linux" / "ABOUT"
    about.write_text("".join(["version 0.0.1\n", *about.read_text().splitlines(keepends=True)[1:]]))
    assert find_program.current_library() is not None and Program.find().kind == "program"


@pytest.mark.parametrize("name", ["name", "variable", "timeout", "empty variable"])
def test_who_names_the_program_gets_it(
    clone: Path, program: Program, name: str, monkeypatch: pytest.MonkeyPatch
) -> None:
    """Also by a timeout, because nothing can end a call. An empty variable names none, as for a shell."""
    if "variable" in name:
        monkeypatch.setenv("BALISECHECK", program.path if name == "variable" else "")
    found = Program.find(program.path if name == "name" else None, 5 if name == "timeout" else None)
    assert found.kind == ("library" if name == "empty variable" else "program")
    assert find_program.answering(program.path if name == "name" else None, 5 if name == "timeout" else None) == (
        found.path
    )


def test_a_named_program_that_nobody_knows_is_refused_beside_a_library(
    clone: Path, monkeypatch: pytest.MonkeyPatch
) -> None:
    """If only the variable names it."""
    monkeypatch.setenv("BALISECHECK", shutil.which("true") or "")
    with pytest.raises(NoAnswer, match="which is not a released program"):
        Program.find()


@pytest.mark.parametrize("lacks", ["stack", "stack of threads", "processor", "cpuinfo", "ctypes"])
def test_where_the_library_cannot_be_called(clone: Path, lacks: str, monkeypatch: pytest.MonkeyPatch) -> None:
    """A call with a short stack, or on an old processor, would end the process: the program runs instead."""
    if lacks == "stack":
        monkeypatch.setattr(loaded_library, "getrlimit", lambda _: (1 << 20, resource.RLIM_INFINITY))
    elif lacks == "stack of threads":
        monkeypatch.setattr(loaded_library, "stack_size", lambda: 1 << 20)
    elif lacks == "processor":
        monkeypatch.setattr(loaded_library, "PROCESSOR", {*loaded_library.PROCESSOR, "no such feature"})
    elif lacks == "cpuinfo":
        monkeypatch.setattr("builtins.open", refusing("/proc/cpuinfo"))
    else:
        modules: Dict[str, Any] = sys.modules
        monkeypatch.setitem(modules, "balisekit.engine.loaded_library", None)
    assert Program.find().kind == "program"


def test_each_processor_of_arm_has_what_the_library_for_it_needs(clone: Path, monkeypatch: pytest.MonkeyPatch) -> None:
    """Its /proc/cpuinfo has none of the words of x86-64. (Here the library itself is that for x86-64.)"""
    monkeypatch.setattr(loaded_library, "uname", lambda: os.uname_result(["Linux", "here", "6.1", "1", "aarch64"]))
    monkeypatch.setattr("builtins.open", refusing("/proc/cpuinfo"))
    assert Program.find().kind == "library"


def refusing(refused: str) -> Callable[..., Any]:
    """`open`, which cannot open this file."""
    real = open

    def opens(path: Any, *others: Any, **named: Any) -> Any:
        if path == refused:
            raise FileNotFoundError(path)
        return real(path, *others, **named)

    return opens


@pytest.mark.parametrize("path", ["", "/no/library", "libc.so.6", "a\0b", 5])
def test_a_library_that_cannot_be_used_is_named(path: Any) -> None:
    """Also an empty path, as of an unset variable, and another library."""
    with pytest.raises(balisekit.KitError, match="no library for C: .* cannot be used here"):
        balisekit.Library.find(path)


def test_no_library_is_found(monkeypatch: pytest.MonkeyPatch) -> None:
    monkeypatch.setattr("balisekit.engine.library.stored_library", lambda: None)
    with pytest.raises(balisekit.KitError, match="no library for C is here"):
        balisekit.Library.find()


@pytest.mark.parametrize("path", ["", "/no/program", 5])
def test_a_program_that_cannot_be_found_is_named(path: Any) -> None:
    with pytest.raises(balisekit.KitError, match="there is no program "):
        balisekit.Program.find(path)


def test_a_library_that_cannot_be_loaded_is_none(tmp_path: Path) -> None:
    (tmp_path / find_program.LIBRARY).write_text("no library", "utf-8")
    assert opened(str(tmp_path / find_program.LIBRARY)) is None


# The calls of the public class.


def stand(*answers: Any) -> Library:
    """A library whose calls have these statuses and texts."""
    following: Iterator[Any] = iter(answers)

    def call(_: bytes, __: int, buffer: Any, capacity: int, length: Any) -> int:
        status, text = next(following)
        if status == "memory":
            raise MemoryError
        length._obj.value = len(text) if isinstance(text, bytes) else text
        ctypes.memmove(buffer, text, len(text)) if isinstance(text, bytes) else None
        assert not isinstance(text, bytes) or capacity >= len(text)
        return int(status)

    library = Library.__new__(Library)
    library.__dict__.update(path="stand", _functions={"decode": call})
    return library


def test_a_text_that_is_longer_than_the_buffer() -> None:
    call = stand((4, 1 + (1 << 20)), (0, b"a" * (1 << 20) + b"\n")).call(["decode"], b"")
    assert (call.status, list(call.lines())) == (0, ["a" * (1 << 20)])


@pytest.mark.parametrize(
    "status, text", [(3, b""), ("memory", b""), (0, b""), (2, b"refused: line 2: wrong size\n"), (0, b"{}\n{}\n")]
)
def test_no_answer_of_the_library(status: Any, text: bytes, monkeypatch: pytest.MonkeyPatch) -> None:
    """Memory, memory for its buffer, too few lines, another line, too many lines."""
    monkeypatch.setattr(LoadedLibrary, "_library", stand((status, text)))
    with pytest.raises(NoAnswer, match="no answer of stand: balisecheck_decode: "):
        list(LoadedLibrary("stand", "0").decode([ALONE]))


def said_of(program: Program, words: List[str], data: bytes) -> str:
    """What a run of the program writes."""
    return subprocess.run([program.path, *words], input=data, stdout=subprocess.PIPE, check=False).stdout.decode()


@needs_library
def test_the_public_calls(program: Program) -> None:
    """Each answers as the command of its name, or as the command of its record."""
    library = balisekit.Library.find(LIBRARY)
    telegrams, messages = (f"{text}\n".encode() for text in (ALONE, MESSAGE))
    document = json.dumps({"groups": [{"balises": [ALONE]}], "messages": [MESSAGE]}).encode()
    lines, radio = library.decode(telegrams), library.decode_radio(messages)
    assert library.check(document).text == said_of(program, ["check"], document) and library.check(document).status == 1
    found = library.findings(document)
    assert found.status == 1 and json.loads(found.text)["verdict"] == "no" and found.text.endswith("}\n")
    assert lines.text == said_of(program, ["decode"], telegrams)
    assert radio.text == said_of(program, ["decode", "--radio"], messages)
    assert library.encode(lines.text.encode()).text.encode() == telegrams
    assert library.encode_radio(radio.text.encode()).text.encode() == messages
    assert library.telegram(telegrams[:-1]).text == lines.text and library.message(messages[:-1]).text == radio.text
    assert library.telegram(ALONE.encode()).fault is None and library.version.count(".") == 2


@needs_library
@pytest.mark.parametrize("name", [*COMMANDS, "telegram", "message"])
def test_the_types_of_inputs(name: str) -> None:
    """Bytes in each form are read. What is none is an error."""
    call = getattr(balisekit.Library.find(LIBRARY), name)
    data = b"\0" + ALONE.encode() + b"\n"
    for content in (data, bytearray(data), memoryview(data), memoryview(data * 2)[: len(data)]):
        assert vars(call(content)) == vars(call(data))
    for wrong in ("text", None, 5, [1], object()):
        with pytest.raises(balisekit.KitError, match="the library reads bytes: .* is another type"):
            call(wrong)


@needs_library
def test_the_fault_of_a_record() -> None:
    """It is the one that the refusal of the program names."""
    library = balisekit.Library.find(LIBRARY)
    for call, fault in ((library.telegram(b"zz"), (1, 0, 0)), (library.telegram(FAULTY.encode()), None)):
        refusal = library.check(json.dumps({"groups": [{"balises": [FAULTY]}], "messages": []}).encode()).text
        assert (call.status, call.text) == (2, "") and call.fault is not None
        assert call.fault == fault or f" at {call.fault.at} end {call.fault.end}\n" in refusal


def test_calls_in_threads(library: LoadedLibrary) -> None:
    """Several at a time, each with a buffer of its own."""
    wanted, answers = said(library), []
    threads = [threading.Thread(target=lambda: answers.append(said(replace(library)))) for _ in range(8)]
    for thread in threads:
        thread.start()
    for thread in threads:
        thread.join()
    assert answers == [wanted] * 8


def test_calls_in_a_copy_of_the_process(library: LoadedLibrary) -> None:
    """Commands share the work on large tables among copies of their process."""
    wanted = said(library)
    child = os.fork()
    if not child:
        os._exit(0 if said(library) == wanted else 1)
    assert os.waitstatus_to_exitcode(os.waitpid(child, 0)[1]) == 0


def test_the_lines_of_a_call() -> None:
    assert list(Call("stand", 0, b"").lines()) == [] and list(Call("stand", 0, b"a\nb\n").lines()) == ["a", "b"]
