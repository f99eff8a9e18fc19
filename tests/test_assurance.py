"""Compares the pages on assurance with what they name and count, and with what the program does."""
import difflib
import functools
import re
import sys

import pytest

from edition.definitions import closure, definitions, key_of, lines
from edition.proofs import clauses_of, laws
from from_specs import made
from runner import TOP, crate_uses, program, run

PROOFS, SAFETY, YES = ((TOP / f"docs/assurance/{name}.md").read_text("utf-8") for name in ("proofs", "safety", "yes"))
CRATE = r"(?:etcs_\w+|balisecheck_c)"
CALL = re.compile(rf"`({CRATE})::(?:(\w+)::)?(\w+)`(?: \(((?:`\w+`(?:, )?)+)\))?")
DEFINED = re.compile(rf"`({CRATE})/(\w+\.antt)`: ((?:`\w+`(?:, )?)+)")


@functools.lru_cache(None)
def source(pattern, but=""):
    """The texts of the files of the crates with such a path, which is in no folder of that other name."""
    return "\n".join(path.read_text("utf-8") for path in sorted(TOP.glob(f"crates/{pattern}")) if but not in path.parts)


def has_call(crate, owner, name, clauses):
    """Whether a crate has a function, public by itself or of the owner, with these clauses."""
    text, head = source(f"{crate}/src/**/*.rt"), "(?:pub )?" if owner else 'pub (?:extern "C" )?'
    found = re.findall(rf"(?ms)^ *{head}(?:final )?fn {name}\b.*?(?=^ *(?:pub )?(?:final )?fn |\Z)", text)
    return re.search(rf"\b{owner}\b", text) and any(
        {*re.findall(r"\w+", clauses)} <= {*re.findall(r"ensures (\w+) {", it)} for it in found)


@functools.lru_cache(None)
def words():
    """Each word of the crates and of ABOUT, and the name of each file."""
    names = {path.name for folder in ("crates/*", "crates/*/src", "tests", ".") for path in TOP.glob(f"{folder}/*")}
    text = source("*/src/**/*.rt") + source("*/specs/*.antt") + source("../crates.txt") + source("../dist/*/ABOUT")
    return names | {*re.findall(r"\w+", text.replace("#[unsafe(no_mangle)]", ""))}


def is_there(span):
    """Whether what a page has between back quotes is there, if it is a word, a file, or a command that is a file."""
    path = re.sub(rf"^({CRATE})/(?=\w+\.antt$)", r"crates/\1/specs/", span.split()[0].replace("/NAME/", "/*/"))
    if "/" in path:
        return any([*TOP.glob(it.strip("/"))] for it in (path, f"crates/*/{path}"))
    return not re.fullmatch(r"[\w.]+", span) or span in words() or span in ("unsafe", "rt")


def signs(text):
    """The signs of definitions or of the notation, apart from those for punctuation."""
    return {*re.findall(r"(?<!\S)[^\w\s(){}\[\].,;:=\"-][^\w\s(){}\[\].,;\"]*(?!\S)|(?<= )-(?= )|[=>]{2,}|[λℕ⊤⊥]", text)}


def test_notation():
    """Each sign of the definitions in the edition and in the rules has a row of the notation, and no other sign has."""
    texts = (source(f"{crate}/specs/*.antt") for crate in ("etcs_edition", "etcs_group", "etcs_check"))
    lines_of = (line.partition("--")[0] for line in "\n".join(texts).split("\n") if not line.startswith("use "))
    rows = re.findall(r"(?m)^\| (`.*?) \| ", PROOFS.partition("### Notation")[2].partition("### Which")[0])
    assert len(rows) == len({*rows}) > 40
    assert signs(" ".join(rows).replace("`", " ").replace("\\", "")) == signs("\n".join(lines_of))


def test_names():
    """All that the page on proofs names is there."""
    assert [call for call in CALL.findall(PROOFS) if not has_call(*call)] == []
    defined = [(crate, file, name) for crate, file, names in DEFINED.findall(PROOFS)
               for name in re.findall(r"\w+", names)]
    assert len(defined) > 20 and [it for it in defined if not re.search(
        rf"(?m)^(?:abbrev |unfoldable )?pub (?:record |data )?{it[2]}\b", source(f"{it[0]}/specs/{it[1]}"))] == []
    spans = {span for span in re.findall(r"`([^`\n]+)`", PROOFS) if not CALL.fullmatch(f"`{span}`")}
    assert [span for span in spans if not is_there(span)] == []


def test_sources():
    """No source has an `unsafe`, and the crate of `main` has no clauses. crates.txt names each crate."""
    assert "unsafe" not in words() and "No source has an `unsafe`" in PROOFS
    main = source("balisecheck/src/*.rt")
    assert "fn main" in main and not re.search(r"(?m)^ *(?:ensures|requires)\b", main)
    assert {*crate_uses()} == {it.parent.name for it in TOP.glob("crates/*/src")}


def defined(text):
    """The definitions in a text of specs/, without comments and the lines unfolding. Imports, definitions and proofs
    are separated by empty lines, and a proof begins with a name and its type."""
    parts = re.findall(r"(?:.+\n)+", re.sub(r"(?m)^ *(?:--|unfolding ).*\n", "", text))
    return "".join(part for part in parts if not re.match(r"(?:pub )?(?:(?:use|mod) |\S+ :\s)", part))


@pytest.mark.parametrize("path, text", made().items(), ids=lambda it: getattr(it, "name", ""))
def test_made(path, text):
    """What pages take from definitions is what `scripts/from_specs.py` makes now."""
    there = path.read_text("utf-8").splitlines() if path.exists() else []
    assert not [*difflib.unified_diff(there, text.splitlines(), "there", "made", lineterm="", n=0)]


def test_closures():
    """Definitions are those that are no imports and no proofs. What one rests on is all that it names, and its own
    lines. No other definition names those of lemmas."""
    specs = source("*/specs/**/*.antt", "lemmas")
    assert sum(it.lines for it in definitions().values() if not it.is_proof) == defined(specs).count("\n") > 3000
    others = defined(specs) + source("*/src/**/*.rt")
    for name in re.findall(r"(?m)^abbrev (?:pub )?(\w+) :", source("*/specs/lemmas/**/*.antt")):
        assert not re.search(rf"\b{name}\b", others), name
    yes = {it.name for it in closure([key_of("SaysYes", "etcs_edition")])}
    assert {"num", "header_fields", "IsLineText", "IsSoundLine", "is_modelled"} <= yes
    assert not yes & {"IsViolated", "line_of_text", "program_output"}


def test_laws_of_the_edition():
    """Each law of the edition that definitions agree has definitions of the edition on one side only. A yes and the
    findings rest on less than half of the lines there."""
    for law in laws():
        assert law.short and law.others and not [key for key in law.others if key[0].startswith("etcs_edition.")]
        assert {key[0].partition(".")[0] for key in law.short} == {"etcs_edition"}
    stated = [words for law in {law.name: law for law in laws()} for _, words, _ in clauses_of("etcs_edition", law)]
    assert [words.count("↔") for words in stated] == [1] * len([*laws()])
    assert {"yes_agrees", "findings_agree"} <= {law.name for law in laws() if 2 * lines(law.short) < lines(law.others)}


def test_pins():
    """If the head of a file or of a section names a law that pins its definitions, this is a public law."""
    laws = {*re.findall(r"(?m)^pub fn (\w+)", source("*/src/laws.rt"))}
    for path in TOP.glob("crates/*/specs/**/*.antt"):
        text = path.read_text("utf-8")
        heads = "".join(re.findall(r"(?m)(?:\A|^(?=-- ----))(?:--.*\n)+", text))
        pins = re.findall(r"(?m)^-- Pinned by the law (\w+)\.$", heads)
        assert {*pins} <= laws and len(pins) == text.count("Pinned by"), path


def test_yes():
    """The page on a yes quotes the comment of the law, and has each field of the definition. README has its bullets."""
    law = re.search(r"(?m)^((?:///.*\n)+)pub fn no_finding_says_yes\(", source("etcs_document/src/laws.rt"))
    sentence = " ".join(law[1].replace("///", "").split()).partition("all is true that a yes says: ")[2]
    assert re.findall(r"(?m)^> Where the answer is yes, (.*)$", YES) == [sentence]
    begin = YES.partition("\n## ")[0].partition("If the answer is yes")[2].strip()
    assert begin and begin in (TOP / "README.md").read_text("utf-8")
    records = [key_of("SaysYes", crate) for crate in ("etcs_edition", "etcs_document")]
    fields = [re.findall(r"(?m)^  pub (\w+) :", definitions()[key].text) for key in records]
    listed = re.findall(r"(?m)^- ((?:`\w+`(?:, )?)+): ", YES.partition("## The sentence")[2].partition("\n## ")[0])
    assert re.findall(r"`(\w+)`", " ".join(listed)) == [*fields[0], *fields[1]]
    (law,) = [it for it in laws() if f"law `{it.name}` of `etcs_edition`" in YES]
    assert [*law.short, *law.others] == records
    assert all(f"`{definitions()[key].path.relative_to(TOP)}`" in YES for key in records)


def test_premises():
    """The page on a yes names all that the page on proofs says has to be trusted."""
    trusted = PROOFS.partition("## What has to be trusted")[2].partition("\n## ")[0]
    heads = re.findall(r"(?m)^- \*\*(.+?)[.:,]?\*\*", trusted)
    premises = YES.partition("## Premises")[2].partition("\n## ")[0].lower()
    wanted = {"The definitions": "definitions", "The toolchain": "toolchain", "The contracts of libraries": "libraries",
              "The C library, the operating system and the machine": "c library, system and machine",
              "`main`": "`main`", "Instead of `main`, for the library for C": "trusted instead of `main`",
              "Whoever wrote the clone": "whoever made your clone",
              "The compiler for another processor": "compiler for another processor",
              "C, assembler and JavaScript in `native/`": "`native/`", "The system": "and the system"}
    assert "memory" in premises and "memory" in PROOFS.partition("## What is proved")[2].partition("\n## ")[0].lower()
    assert heads == [*wanted] and all(words in premises for words in wanted.values()), heads


def test_axioms():
    """The page on proofs lists as many C functions as it counts, for the kit and the version of the stored program."""
    stated = (r"The program ([\d.]+) rests on the contracts of (\d+) C functions, which .*? \(kit (\w+), [\d-]+\)\. "
              r"(.*?) The gate")
    version, count, kit, names = re.search(stated, PROOFS).groups()
    listed = re.findall(r"\b(?:rattle_\w+|chdir|getcwd|lseek|read|write)\b", names)
    assert len({*listed}) == len(listed) == int(count) and f"`axioms={count}`" in PROOFS
    about = (TOP / "dist/x86_64-linux/ABOUT").read_text("utf-8")
    assert re.search(rf"(?m)^version .*\b{re.escape(version)}$", about) and re.search(rf"(?m)^kit .*\b{kit}\b", about)


def test_errata():
    """The list of wrong answers is that of this version."""
    errata = (TOP / "ERRATA.md").read_text("utf-8")
    (version,) = re.findall(r"any version up to ([\d.]+\d) \(20\d\d-\d\d-\d\d\)", errata)
    assert version == (TOP / "VERSION").read_text("utf-8").strip()


def test_statuses_without_a_text():
    """The pages on the library for C name both statuses after which the buffer has no text."""
    header = (TOP / "crates/balisecheck_c/include/balisecheck.h").read_text("utf-8")
    library = (TOP / "docs/library.md").read_text("utf-8")
    for name, number in re.findall(r"BALISECHECK_(MEMORY|CAPACITY) = (\d)", header):
        assert f"status {number}" in library.lower() and re.search(rf"returns 3 .* and 4\b", PROOFS), name
    assert "After a status of 3 or 4 the buffer is unchanged." in header


def test_packages():
    """THIRD-PARTY names each package that balisekit imports."""
    text = source("../companion/src/**/*.py")
    found = {name for pair in re.findall(r"(?m)^ *(?:from (\w+)[\w.]* import |import (\w+))", text) for name in pair}
    named = re.findall(r"\w+", (TOP / "THIRD-PARTY.md").read_text("utf-8"))
    assert found - {"", "balisekit", *sys.stdlib_module_names} <= {*named} and len(found) > 30


def rows(begin, columns):
    """The cells of the rows of safety.md whose first cell is this letter with a number. They are numbered from 1."""
    found = [line.split(" | ") for line in re.findall(rf"(?m)^\| ({begin}\d+ \|.*) \|$", SAFETY)]
    assert sorted(int(cells[0][1:]) for cells in found) == [*range(1, len(found) + 1)]
    assert {len([*filter(str.strip, cells)]) for cells in found} == {columns}
    return found


def test_failures_and_conditions():
    """Each condition meets a failure, and each failure names conditions and proofs that are there."""
    measures = " | ".join(cells[4] for cells in rows("H", 5))
    met = {int(number) for number in re.findall(r"\bC(\d+)", measures)}
    met = met.union(*(range(int(low), int(high)) for low, high in re.findall(r"\bC(\d+) to C(\d+)", measures)))
    assert met == {*range(1, len(rows("C", 3)) + 1)}
    proofs = ", ".join(re.findall(r"proof: ([^;|]+)", measures)).split(",")
    assert {title.strip() for title in proofs} <= {*re.findall(r"\*\*([\w ]+)\.\*\*", PROOFS)}
    assert '"Judgement" in [CHANGELOG]' in SAFETY and "Judgement" in (TOP / "CHANGELOG.md").read_text("utf-8")


@pytest.mark.parametrize("text, script", [
    ("1 by the loader", 'sed s/GLIBC_2.34/GLIBC_9.34/g <"$0" >other; chmod +x other; ./other check; [ $? = 1 ]'),
    ("126 not executable", 'cp "$0" other; chmod -x other; ./other check; [ $? = 126 ]'),
    ("127 not found or no address space", './none check; [ $? = 127 ] && ulimit -v 2000; "$0" check; [ $? = 127 ]'),
    ("above 128", '(ulimit -s 8; "$0" check; exit $?); [ $? -gt 128 ]')])
def test_statuses(text, script, tmp_path):
    """What safety.md states about statuses that come from the system. They have no output."""
    ran = run(("-c", script, program()), path="bash", cwd=tmp_path)
    assert (ran.status, ran.stdout) == (0, "") and text in SAFETY
