"""The library for C: its header, its page, its ABI, examples in four languages, its answers beside the program's, and
calls with refused memory, with small buffers and in threads. BALISECHECK_LIBRARY names its folder."""
import collections
import concurrent.futures
import functools
import json
import os
import pathlib
import re
import shutil
import sys
import threading

import pytest

from corpus import BALISE, LIST, LONG, SHORT, runs_of
from hostile import CHECK, COMMANDS, DECODE, DECODE_RADIO, STACK, Job, Library, shared
from runner import EXAMPLES, TOP, Answer, program, run
from test_memory import in_turn, refuse
from test_tables import CASES
from compare import accepted_of, inputs

FOLDER = pathlib.Path(os.environ.get("BALISECHECK_LIBRARY", TOP / "dist" / "x86_64-linux")).resolve()
ARCHIVE, SHARED = FOLDER / "libbalisecheck.a", FOLDER / "libbalisecheck.so.0"
HEADER = TOP / "crates" / "balisecheck_c" / "include" / "balisecheck.h"
ABI, PAGE = TOP / "tests" / "abi.c", (TOP / "docs" / "library.md").read_text("utf-8")
SOURCE, JNA = EXAMPLES / "library", "/usr/share/java/jna.jar"
STRICT = "-Wall", "-Wextra", "-Werror", "-pedantic", "-I", HEADER.parent
LINKED = {"archive": [ARCHIVE], "shared": [f"-Wl,-rpath,{FOLDER}", SHARED]}
WATCHED = "valgrind", "-q", "--error-exitcode=95", "--leak-check=full"
REFUSED, TOO_SMALL = 2, 4
RECORDS = {"telegram": DECODE, "message": DECODE_RADIO}
CALLS = {**{"_".join(words).replace("--", ""): words for words in COMMANDS}, "findings": CHECK, **RECORDS}
LENGTHS = {f"{name}_length": words for name, words in CALLS.items()}
TABLES = "check_table", "check_table_length"  # (balisecheck_table has their answers)
EXPORTS = {f"balisecheck_{name}" for name in (*CALLS, *LENGTHS, *TABLES)}
REASONS = dict(re.findall(r"BALISECHECK_\w+ = (\d+),? +/\* (.*?) \*/", HEADER.read_text()))
# How a parameter is written in C, by its type in Rattle.
TYPES = {"&[u8]": "const uint8_t *{0}, size_t {0}_length", "&mut [u8]": "uint8_t *{0}, size_t capacity",
         "&mut usize": "size_t *{0}", "&mut Fault": "struct balisecheck_fault *{0}"}


def need(tool, package):
    """Skips the test if a command or a file is not here."""
    if not (shutil.which(tool) or os.path.exists(tool)):
        pytest.skip(f"the library for C with {os.path.basename(tool)} ({package})")


def test_header_declares_each_export():
    text = re.sub(r"\s+", " ", HEADER.read_text())
    declared = re.findall(r"uint32_t (balisecheck_\w+)\(const", text)
    assert "const char *balisecheck_version(void);" in text
    crate = "\n".join(path.read_text() for path in HEADER.parents[1].glob("src/**/*.rt"))
    exports = {name: re.findall(r"(\w+): ((?:&(?:mut )?)?[\w\[\]]+)", given)
               for name, given in re.findall(r'pub extern "C" fn (\w+)\(([^)]*)\)', crate)}
    assert {*exports} == EXPORTS == {*declared} and len(declared) == len(EXPORTS)
    for name, given in exports.items():
        assert f"{name}({', '.join(TYPES[kind].format(it) for it, kind in given if kind != 'Global')});" in text


@pytest.mark.parametrize("kind", [ARCHIVE, SHARED], ids=lambda path: path.suffix)
def test_version(kind):
    """It is that of the program."""
    need("cc", "gcc")
    assert Library(kind).version() == (TOP / "VERSION").read_text().strip()


@pytest.mark.parametrize("kind", [ARCHIVE, SHARED], ids=lambda path: path.suffix)
def test_tables(kind):
    """A table has the answer of balisecheck_table and its length, and a buffer that is too small is reported."""
    need("cc", "gcc")
    library = Library(kind)
    for table, status, text in CASES:
        data = table.encode()
        assert library.call("check_table", data) == Answer(status, text, "")
        assert library.call("check_table_length", data) == Answer(status, str(len(text)), "")
        assert library.call("check_table", data, len(text) - 1) == Answer(4, "", "")


def test_tables_without_memory():
    """Each request of a table is refused in turn: the call reports it, or answers as before."""
    need("cc", "gcc")
    library, jobs = Library(ARCHIVE), [Job(("check_table",), table.encode()) for table, *_ in CASES]
    refuse(library, [(job, *played) for job, played in zip(jobs, library.play(jobs))], in_turn, "")


# ---- ABI


def compiled(compiler, source, header):
    """Whether a file compiles with a header in this folder, without a warning."""
    return run(("-std=c11", "-Wall", "-Wextra", "-Wpedantic", "-Werror", "-I", header, "-fsyntax-only", source),
               path=compiler).status == 0


@pytest.mark.parametrize("compiler", ["gcc", "clang"])
def test_abi(compiler, tmp_path):
    """The header has the calls, numbers and layout that are promised, and a header with others is noticed."""
    need(compiler, compiler)
    text = HEADER.read_text()
    assert compiled(compiler, ABI, HEADER.parent)
    for old, new in (("size_t at;", "uint32_t at;"),
                     ("uint32_t reason;\n    size_t at;", "size_t at;\n    uint32_t reason;"),
                     ("BALISECHECK_SPARE = 11", "BALISECHECK_SPARE = 20"), ("_DONE = 0", "_DONE = 5"),
                     ("uint32_t balisecheck_encode(const", "int balisecheck_encode(const"),
                     ("balisecheck_decode_length(const", "balisecheck_length_of_decode(const"),
                     ("const char *balisecheck_version", "char *balisecheck_version")):
        assert text.count(old) == 1, old
        (tmp_path / "balisecheck.h").write_text(text.replace(old, new))
        assert not compiled(compiler, ABI, tmp_path), old


@pytest.mark.skipif(not shutil.which("nm"), reason="symbols of the library (binutils)")
def test_symbols():
    """Both libraries export the calls that are promised, and no others. Debian's list of symbols has them."""
    promised, numbers = ABI.read_text(), r"\b(BALISECHECK_[A-Z_]+)\b"
    assert {*re.findall(numbers, promised)} == {*re.findall(numbers + " =", HEADER.read_text())}
    calls = EXPORTS | {"balisecheck_version"}
    assert {*re.findall(r"\b(balisecheck_\w+)\b", promised)} - {"balisecheck_fault"} == calls
    exported = re.findall(r" [A-Z] (\w+)", run(("-D", "--defined-only", SHARED), path="nm").stdout)
    archived = re.findall(r" T (\w+)", run(("-g", "--defined-only", ARCHIVE), path="nm").stdout)
    assert {*exported} == calls == {name for name in archived if name.startswith("balisecheck_")}
    listed = (TOP / "dist/pack/debian/libbalisecheck0.symbols").read_text()
    assert re.findall(r"(?m)^ (\w+)@Base \d", listed) == sorted(calls)


# ---- the page


def test_page_is_the_header():
    """The page has each call, type, status and reason as the header declares it, and no other."""
    code = " ".join(re.findall(r"(?ms)^```c\n(?!#include)(.*?)^```$", PAGE))
    header, shown = (re.sub(r"\s+", " ", text) for text in (HEADER.read_text(), code))
    calls = r"(?:uint32_t|const char \*) ?balisecheck_\w+\([^)]*\);|struct balisecheck_fault {[^}]*};"
    assert sorted(re.findall(calls, header)) == sorted(re.findall(calls, shown))
    listed = re.findall(r"(?m)^\| (\d+) \| `(BALISECHECK_\w+)` \| (?:`([^`]*)` \|)?", PAGE)
    assert [(name, number) for number, name, _ in listed] == re.findall(r"(BALISECHECK_\w+) = (\d+)", header)
    assert {number: words for number, _, words in listed if words} == REASONS
    wrappers = re.findall(r"inline answer (\w+)\(", header)
    assert f"`namespace balisecheck`: {', '.join(f'`{name}`' for name in wrappers[:-1])} and `{wrappers[-1]}`." in PAGE


def test_example_of_the_page(tmp_path):
    """It compiles as printed, without a warning, and answers as `check`, also if its first buffer is too small."""
    need("cc", "gcc")
    (tmp_path / "check.c").write_text(re.search(r"(?ms)^```c\n(#include.*?)^```$", PAGE)[1])
    words = *STRICT, "-o", tmp_path / "check", tmp_path / "check.c", ARCHIVE
    assert run(words, path="cc", timeout=None) == (0, "", "")
    checks(tmp_path / "check")
    assert run((), b" " * (1 << 20), path=tmp_path / "check") == (3, "", "")


# ---- examples


def reads_telegrams(command, *words):
    """An example answers telegrams line by line, and goes on after a refused one."""
    given = f"{SHORT}\n{SHORT[:-1]}1\n\n{SHORT.replace('007f', '01ff')}\n{LONG}"
    one, other = run(DECODE, f"{SHORT}\n{LONG}").stdout.splitlines()
    wanted = f"{one}\nline 2: reason 3 at 0 end 0\nline 4: reason 11 at 15 end 17\n{other}\n"
    assert run(words, given, path=command) == Answer(2, wanted, "")


def checks(command, *words):
    """An example answers as `check`. valgrind, which takes 1 s, gets an answer that needs a larger buffer, and no
    input: other documents take the same way through the example."""
    some = (EXAMPLES / "check" / "many-findings.json").read_text(), "", '{"groups":[],"messages":[]}'
    for data in some[:2] if command == WATCHED[0] else some:
        assert run(words, data, path=command) == run(CHECK, data)


@pytest.mark.parametrize("compiler, standard, source, answers", [
    ("cc", "c99", "c/telegrams.c", reads_telegrams), ("c++", "c++11", "cpp/check.cpp", checks)])
def test_example_in_c(compiler, standard, source, answers, tmp_path):
    """It compiles without a warning, answers with either library, and valgrind has nothing to report of the last."""
    need("c++", "g++")
    for linked in LINKED.values():
        words = *STRICT, f"-std={standard}", "-o", tmp_path / "example", SOURCE / source, *linked
        assert run(words, path=compiler, timeout=None) == Answer(0, "", "")
        answers(tmp_path / "example")
    need("valgrind", "valgrind")
    answers(*WATCHED, tmp_path / "example")


def test_example_in_python():
    reads_telegrams(sys.executable, SOURCE / "python" / "telegrams.py", SHARED)


def test_example_in_java(tmp_path):
    need("javac", "default-jdk-headless")
    need(JNA, "libjna-java")
    words = "-J-XX:TieredStopAtLevel=1", "-cp", JNA, "-d", tmp_path, SOURCE / "java" / "Check.java"
    assert run(words, path="javac", timeout=None).status == 0
    checks("java", "-XX:TieredStopAtLevel=1", "-XX:+UseSerialGC", "-cp", f"{JNA}:{tmp_path}", "Check", SHARED)


# ---- calls


def data_of(name, some):
    """What a call gets for these runs: records without line ends."""
    data = [job.data for job, *_ in some if job.words == CALLS[name]]
    return list({re.sub(rb"[\r\n]", b"", it): None for it in data}) if name in RECORDS else data


@pytest.mark.parametrize("name, document, place", [
    ("telegram", BALISE, "group 0 balise 0"), ("message", LIST, "message 0")])
def test_records_beside_the_program(name, document, place):
    """A record of the tests, or a random one, has the line of `decode`, or the fault that `check` finds in it."""
    words = CALLS[name]
    drawn = b"\n".join(job.data for job in inputs(words, accepted_of(shared(), words), 100)).split()
    records = [it for it in (*data_of(name, runs_of(shared(), words, each_kind=False)), *drawn) if it]
    decoded = shared().play([Job(words, it + b"\n") for it in records])
    texts = [json.dumps(it.decode("latin-1"))[1:-1] for it in records]
    checked = shared().play([Job(CHECK, (document % text).encode()) for text in texts])
    library = Library(SHARED)
    for record, (wanted, _), (verdict, _) in zip(records, decoded, checked):
        answer = library.call(name, record)
        if answer.status == REFUSED:
            reason, at, end = answer.stderr.split()
            why = REASONS[reason] + (f" at {at} end {end}" if int(reason) >= 10 else "")
            assert verdict.stdout == f"refused: {place}: {why}\n", record
        else:
            assert answer == wanted and verdict.status != REFUSED, record


PLACE, ORDER = ("group", "message", "aspect", "balise", "packet"), (
    "verdict", "reason", "path", "rule", "name", "group", "message", "aspect", "balise", "packet", "direction", "at",
    "end", "groups", "messages", "findings")


def place_of(parts):
    return "".join(f" {key} {parts[key]}" for key in PLACE if key in parts)


def report_of(line):
    """The report or the refusal with the findings or the fault of a line of JSON."""
    answer = json.loads(line)
    if answer["verdict"] == "refused":
        path = "".join(f"/{step}" for step in answer.get("path", ())) or "/"
        reason = f"form {answer['reason']} at {path}" if "path" in answer else answer["reason"]
        bits = f" at {answer['at']} end {answer['end']}" if "at" in answer else ""
        return f"refused: {': '.join(filter(None, (place_of(answer)[1:], reason)))}{bits}\n"
    found = [f"{it['rule']}{place_of(it)}{' ' + it['direction'] if 'direction' in it else ''}: {it['name']}\n"
             for it in answer["findings"]]
    if answer["verdict"] == "no":
        return f"no: findings {len(found)}\n{''.join(found)}"
    return f"yes: groups {answer['groups']}, messages {answer['messages']}\n"


def test_findings_beside_the_report():
    """For documents of the tests and random ones, the line has the parts of the report or the refusal in their order,
    and the counts of the document. All findings and refusals are among them."""
    drawn = [job.data for job in inputs(CHECK, accepted_of(shared(), CHECK), 300)]
    documents = [*data_of("findings", runs_of(shared(), CHECK, each_kind=False)), *drawn]
    library, reasons = Library(SHARED), collections.Counter()
    for data, (wanted, _) in zip(documents, shared().play([Job(CHECK, data) for data in documents])):
        found = library.call("findings", data, 1 << 20)
        answer = json.loads(found.stdout)
        assert (found.status, report_of(found.stdout)) == (wanted.status, wanted.stdout), data
        assert found.stdout == json.dumps(answer, separators=(",", ":")) + "\n"
        for parts in (answer, *answer.get("findings", ())):
            assert [*parts] == [key for key in ORDER if key in parts], found
        if "groups" in answer:
            assert all(answer[key] == len(json.loads(data)[key]) for key in ("groups", "messages"))
        reasons.update([answer.get("reason"), *(it["rule"] for it in answer.get("findings", ()))])
    assert {f"F{it}" for it in range(1, 17)} | {"not JSON", "missing key", "unknown key", "kind", "count", "aspects"} \
        <= {*reasons} and {*REASONS.values()} <= {*reasons}, reasons


def test_findings_are_of_the_schema():
    """And changed ones are not: without a member, or with another one."""
    schema = json.loads((TOP / "schemas" / "findings.json").read_text())
    jsonschema = pytest.importorskip("jsonschema", reason="JSON schemas (python3-jsonschema)")
    validator, library = jsonschema.Draft202012Validator(schema), Library(SHARED)
    for data in data_of("findings", runs_of(shared(), CHECK)):
        answer = json.loads(library.call("findings", data).stdout)
        validator.validate(answer)
        for key in answer:
            less = {it: value for it, value in answer.items() if it != key}
            assert not validator.is_valid(less) or key == "aspect", answer
        assert not validator.is_valid({**answer, "x": 0})


@pytest.mark.parametrize("name", [*CALLS, *LENGTHS])
def test_refused_memory(name):
    """With a request refused, by itself or with all later ones, a call answers as before, or 3 and no text."""
    need("cc", "gcc")
    call = name.replace("_length", "")
    library, jobs = Library(ARCHIVE), [Job((name,), data) for data in data_of(call, runs_of(shared(), CALLS[call]))]
    known = [(job, *played) for job, played in zip(jobs, library.play(jobs))]
    assert any(counts.requests for *_, counts in known)
    refuse(library, known, in_turn, "")


@pytest.mark.parametrize("name", CALLS)
def test_small_buffers_and_threads(name):
    """Too small a buffer stays, and one just large enough suffices. The call for the length, without a buffer, returns
    that size. Two threads with little stack get the same at once."""
    library = Library(SHARED)
    known = {data: library.call(name, data) for data in data_of(name, runs_of(shared(), CALLS[name]))}
    for data, wanted in known.items():
        assert library.call(f"{name}_length", data) == (wanted.status, str(len(wanted.stdout)), "")
        for less in (0, 1, 10) if wanted.stdout else ():
            found = library.call(name, data, max(0, len(wanted.stdout) - less))
            assert found == (Answer(TOO_SMALL, "", "") if less else wanted), data
    size = threading.stack_size((STACK + 64) * 1024)  # (64 KiB for Python)
    with concurrent.futures.ThreadPoolExecutor(2) as pool:
        again = pool.map(functools.partial(library.call, name), [*known] * 40)
        assert [*again] == [*known.values()] * 40
    threading.stack_size(size)


@pytest.mark.parametrize("kind", LINKED)
def test_threads_that_share_inputs(kind, tmp_path):
    """ThreadSanitizer reports nothing. It sees the caller, and what the library allocates, frees and copies by libc."""
    need("cc", "gcc")
    words = "-O1", "-g", "-fsanitize=thread", "-pthread", *STRICT, TOP / "tests" / "threads.c", *LINKED[kind]
    built = run(("-o", tmp_path / "threads", *words), path="cc")
    if "tsan" in built.stderr:
        pytest.skip("threads of the library by ThreadSanitizer (gcc)")
    files = [EXAMPLES / name for name in ("check/sound-line.json", "gradients.txt", "gradients.json", "spare-mark.txt")]
    ran = run(("-R", tmp_path / "threads", *files), path="setarch")
    assert built.status == 0 and ran == (0, "4 inputs, 15360 calls in 8 threads: 0 wrong\n", ""), (built, ran)


@pytest.mark.skipif(not shutil.which("readelf"), reason="hardening of the library (binutils)")
def test_hardening():
    """No stack or segment is writable and executable, tables are read-only once the library is loaded, and no path is
    searched for libraries."""
    said = run(("-W", "-l", "-d", SHARED), path="readelf").stdout
    flags = re.findall(r"(?m)^  (\w+) +(?:0x[0-9a-f]+ +){5}([RWE ]{3}) ", said)
    assert {("GNU_STACK", "RW "), ("GNU_RELRO", "R  "), ("LOAD", "R E")} < {*flags} and ("LOAD", "RWE") not in flags
    assert re.findall(r"\(SONAME\).*\[(.*)\]", said) == ["libbalisecheck.so.0"]
    assert re.search(r"\(FLAGS\) +BIND_NOW", said) and not re.search("TEXTREL|RPATH|RUNPATH", said) and re.findall(r"\(NEEDED\).*\[(.*)\]", said) == ["libc.so.6"]


def test_random_inputs():
    """The program answers random inputs as the documents name it, and as the library. Records come back."""
    words = program(), SHARED, "--inputs=100", "--jobs=1"
    ran = run(("-B", TOP / "bench" / "compare.py", *words), path=sys.executable, timeout=None)
    assert ran.status == 0 and {*re.findall(r"\bF\d+", ran.stdout)} == {f"F{it}" for it in range(1, 17)}, ran


def test_random_findings():
    """balisekit reads the same of the line of JSON as of the report, for random documents, and ones that are spoiled."""
    words = "--inputs=300", "--jobs=1"
    ran = run(("-B", TOP / "bench" / "findings.py", *words), path=sys.executable, timeout=None)
    assert ran.status == 0 and " different 0," in ran.stdout, ran
    assert {*re.findall(r"\bF\d+", ran.stdout)} == {f"F{it}" for it in range(1, 17)} and " refused " in ran.stdout, ran
