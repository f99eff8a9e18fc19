"""The program for other systems (scripts/targets): its answers beside those of the library for C on Linux, with refused
memory, in each way in which it can be run here, and what its files need. No test runs on Windows or on a processor of
ARM: Wine and qemu stand for them."""
import functools
import json
import os
import random
import re
import shutil
import subprocess

import pytest

from cases import every
from compare import accepted_of, inputs
from corpus import jobs
from hostile import CHECK, COMMANDS, shared
from records import numbers
from runner import TOP, in_bytes, run
from targets import ARM, MODULE, WASM, WINDOWS, Call, answers, differences, need, node, programs
from test_library import EXPORTS

pytestmark = pytest.mark.slow
TARGETS = {"archive": "aarch64", "shared": "aarch64", "windows": "windows", "node": "node", "chromium": "chromium",
           "firefox": "firefox"}
TIMES = int(os.environ.get("BALISECHECK_TIMES", "1"))  # as many random inputs
LINES, DOCUMENTS = 10_000 * TIMES, 1_000 * TIMES  # of each command, random ones


def grouped(targets):
    """The targets, in two processes of xdist: a folder of Wine takes 700 MB."""
    return [pytest.param(it, marks=pytest.mark.xdist_group("wine" if it == "windows" else "targets")) for it in targets]


EACH = pytest.mark.parametrize("target", grouped(TARGETS))
PROGRAMS = pytest.mark.parametrize("target", grouped(["aarch64", "windows"]))


def named(words):
    """The name of the call for the words of a command."""
    return "_".join(words).replace("--", "")


@functools.lru_cache(None)
def all_calls():
    """The calls for all cases and examples. Documents also have `findings`, and short lines are records."""
    some = [(tuple(words), in_bytes(given)) for _, words, given, _ in every() if tuple(words) in COMMANDS]
    some += [(job.words, job.data) for job in jobs() if job.words in COMMANDS]
    found = [Call(named(words), data) for words, data in dict.fromkeys(some)]
    found += [Call("findings", it.data) for it in found if it.name == "check"]
    records = {"decode": "telegram", "decode_radio": "message"}
    short = [it for it in found if it.name in records and len(it.data) < 3000]
    return found + [Call(records[it.name], it.data.strip()) for it in short]


@functools.lru_cache(None)
def native(calls):
    """What the library for C answers here."""
    need()
    return answers("native", calls)


@EACH
def test_cases(target):
    """Each case and example has the answer of the library for C."""
    need(TARGETS[target])
    calls = tuple(all_calls())
    assert differences(calls, native(calls), answers(target, calls)) == []


@functools.lru_cache(None)
def random_calls():
    """Random inputs of each command: lines of which some are refused, and documents of which some have findings."""
    numbers.seed(107)
    found = []
    for words in COMMANDS:
        known, lines = accepted_of(shared(), words), 0
        while lines < (DOCUMENTS if words == CHECK else LINES):
            some = [Call(named(words), job.data) for job in inputs(words, known, 100)]
            lines += sum(1 if words == CHECK else len(it.data.splitlines()) for it in some)
            found += some
    return tuple(found)


@EACH
def test_random_inputs(target):
    """They have the answers of the library for C."""
    need(TARGETS[target])
    calls = random_calls()
    wanted = native(calls)
    assert {it.status for it in wanted} == {0, 1, 2}
    assert differences(calls, wanted, answers(target, calls)) == []


@EACH
def test_refused_memory(target):
    """If memory runs out at any request, or at any limit of the module, a call answers as before, or 3 and no text."""
    need(TARGETS[target])
    if target == "shared":
        pytest.skip("refused memory of the shared library: the archive has the same code")
    choice = random.Random(1)
    some = choice.sample([it for it in all_calls() if len(it.data) < 5000], 60)
    known = native(tuple(some))
    tried = [(call, before) for call, before in zip(some, known) for _ in limits(target, call, before)]
    calls = [call._replace(refused=it) for call, before in zip(some, known) for it in limits(target, call, before)]
    found = answers(target, calls)
    refused = [it for it in found if it.status == 3]
    for call, (_, before), answer in zip(calls, tried, found):
        assert answer[:3] == before[:3] or answer[:2] == (3, b""), (call, answer)
        if target in ("archive", "windows"):
            assert (answer.status == 3) <= (call.refused <= before.requests), (call, answer)
    assert len(refused) > len(calls) // 10


def limits(target, call, before):
    """Which requests are refused one after the other; for the module the bytes that it can have."""
    if target in ("archive", "windows"):
        return range(1, before.requests + 2, max(1, before.requests // 20))
    least = len(call.data) + 4096
    return [1, *range(least, 20 * least, least)]


# ---- programs


def said(path, case):
    """What the program at this path answers to the words and the input of a case.

    Under load Wine loses its server at times, and says so. The program has not run then, and is asked once more.
    """
    _, words, given, _ = case
    answer = run(words, given, path=path)
    return run(words, given, path=path) if answer.stderr.startswith("wine client error:") else answer


@functools.lru_cache(None)
def some_cases():
    """Cases of each command, and all that have other words."""
    known = [it for it in every() if len(in_bytes(it[2])) < 200_000]
    usual = [it for it in known if tuple(it[1]) in COMMANDS]
    return [*random.Random(1).sample(usual, 60), *(it for it in known if tuple(it[1]) not in COMMANDS)]


@PROGRAMS
def test_program(target):
    """Status, standard output and standard error are those of the cases, byte for byte."""
    need(target)
    found = [(case, answer) for case in some_cases() if (answer := said(programs(target), case)) != case[3]]
    assert found == []


@PROGRAMS
@pytest.mark.parametrize("words", [
    ["--version"], ["--help"], ["check", "line.json"], ["decode", "a b", 'c"d', "e\\"], ["", "*"], ["ü?"]])
def test_words(target, words):
    """Help, version and advice are those of the program on Linux, whatever the words are."""
    need(target)
    assert run(words, path=programs(target)) == run(words)


@PROGRAMS
def test_answers_at_once(target):
    """A line is answered before the next one is there."""
    need(target)
    line = (TOP / "examples/header-only.txt").read_bytes()
    with subprocess.Popen([programs(target), "decode"], stdin=subprocess.PIPE, stdout=subprocess.PIPE) as asked:
        for _ in range(2):
            asked.stdin.write(line)
            asked.stdin.flush()
            assert asked.stdout.readline() == (TOP / "examples/header-only.json").read_bytes()
        asked.stdin.close()
        assert asked.wait(60) == 0


@PROGRAMS
def test_no_output(target):
    """Without standard output it ends with status 3, as on Linux."""
    need(target)
    line = (TOP / "examples/header-only.txt").read_text()
    closed = run(["decode"], line, limits="exec >&-", path=programs(target))
    assert closed.status == 3 and closed.stderr == run(["decode"], line, limits="exec >&-").stderr != ""


# ---- files


def output(*words):
    """What a command prints."""
    return subprocess.check_output(words, text=True, stderr=subprocess.DEVNULL)


def test_needs_of_aarch64():
    """Both files need the first C library for aarch64, and no other library. The library exports what it promises."""
    need()
    if not shutil.which("readelf"):
        pytest.skip("what the program for aarch64 needs (binutils)")
    for name in ("balisecheck", "libbalisecheck.so.0"):
        assert {*re.findall(r"GLIBC_[\d.]+", output("readelf", "-V", ARM / name))} == {"GLIBC_2.17"}
        assert re.findall(r"\(NEEDED\).*\[(.*)\]", output("readelf", "-d", ARM / name)) == ["libc.so.6"]
        assert "AArch64" in output("readelf", "-h", ARM / name)
    exported = re.findall(r" (balisecheck_\w+)$", output("readelf", "--dyn-syms", "-W", ARM / name), re.M)
    assert {*exported} == EXPORTS | {"balisecheck_version"}


def test_needs_of_windows():
    """Program and DLL need what each Windows has. The DLL exports what the library for C promises."""
    need()
    if not shutil.which("x86_64-w64-mingw32-objdump"):
        pytest.skip("what the program for Windows needs (binutils-mingw-w64-x86-64)")
    names = "balisecheck.exe", "balisecheck.dll"
    told = {name: output("x86_64-w64-mingw32-objdump", "-p", WINDOWS / name) for name in names}
    dlls = {name: {*re.findall(r"DLL Name: (\S+)", text)} for name, text in told.items()}
    assert dlls == {"balisecheck.exe": {"kernel32.dll", "msvcrt.dll"}, "balisecheck.dll": {"msvcrt.dll"}}
    exported = told["balisecheck.dll"].partition("[Ordinal/Name Pointer] Table")[2]
    assert {*re.findall(r"\b(balisecheck_\w+)", exported)} == EXPORTS | {"balisecheck_version"}


def test_module_imports_nothing():
    """Nothing from outside can be reached from the module. It has the version of the program."""
    need("node")
    asks = f"""const its = await import({json.dumps(str(MODULE))}), fs = await import("node:fs");
        const text = fs.readFileSync({json.dumps(str(MODULE))}, "utf-8").split("`")[1];
        const module = await WebAssembly.compile(Buffer.from(text, "base64"));
        console.log(WebAssembly.Module.imports(module).length, its.version);"""
    version = (TOP / "VERSION").read_text().strip()
    assert output(*node(), "--input-type=module", "-e", asks) == f"0 {version}\n"
    package = json.loads((WASM / "package.json").read_text())
    assert package["version"] == version and all((WASM / it).exists() for it in package["exports"]["."].values())


def test_wrong_arguments_of_the_module():
    """They are refused by an exception, after which the module answers."""
    need("node")
    asks = f"""const its = await import({json.dumps(str(MODULE))});
        for (const wrong of [() => its.check(5), () => its.check(), () => its.limit(-1), () => its.limit(1.5)]) {{
            try {{ wrong(); console.log("none"); }} catch (error) {{ console.log(error.name); }}
        }}
        console.log(JSON.stringify(its.decode("a1")));"""
    said_ = output(*node(), "--input-type=module", "-e", asks).splitlines()
    assert said_[:4] == ["TypeError", "TypeError", "RangeError", "RangeError"]
    assert json.loads(said_[4]) == {"status": 2, "text": "refused: line 1: wrong size\n"}


def test_example_of_the_page(tmp_path):
    """It runs as printed, and so does one that names the installed package."""
    need("node")
    shutil.copytree(WASM, tmp_path / "node_modules" / "balisecheck")
    shutil.copy(MODULE, tmp_path)
    page = (TOP / "docs/module.md").read_text("utf-8")
    example, wanted = re.search(r"(?ms)^```js\n(.*?)^```$.*?^```text\n(.*?)^```$", page).groups()
    for name, text in ("one.mjs", example), ("other.mjs", example.replace("./balisecheck.mjs", "balisecheck")):
        (tmp_path / name).write_text(text, "utf-8")
        assert output(*node(), tmp_path / name) == wanted
    declared = {*re.findall(r"(?m)^export (?:function|const) (\w+)", (WASM / "balisecheck.d.mts").read_text("utf-8"))}
    assert declared == {*re.findall(r"`(\w+)(?:\([^`]*\))?`", page.split("| Call |")[1].split("\n\n")[0])} - {"true"}


WRONG = """import { check, decode, telegram, type Answer } from "balisecheck";
const answer: Answer = check("{}");
const fault: number | undefined = telegram(new Uint8Array()).fault?.reason;
decode("a1", { radio: true });
check(5);
"""


def test_types_of_the_module(tmp_path):
    """tsc finds the wrong line of a user, and only that."""
    need()
    if not shutil.which("tsc"):
        pytest.skip("types of the module (node-typescript)")
    shutil.copytree(WASM, tmp_path / "node_modules" / "balisecheck")
    (tmp_path / "user.mts").write_text(WRONG)
    words = *"--noEmit --strict --target es2022 --module node16 --moduleResolution node16".split(), "user.mts"
    ran = run(words, path="tsc", cwd=tmp_path, timeout=120)
    assert re.findall(r"user\.mts\((\d+),", ran.stdout) == ["5"], ran
