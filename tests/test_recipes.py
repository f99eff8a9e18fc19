"""Commands that pages show, run unchanged at the top of a clone, as a reader runs them; and the functions of
examples/find-field.sh and examples/parallel.sh with what they must refuse (tests/cases/recipes.txt)."""
import math
import os
import re
import shutil

import pytest

from runner import TOP, blocks, in_bytes, marked, program, run
from tiny import write

PAGES = ("README.md", "examples/README.md", "examples/parallel.sh", "man/balisecheck.1", *(
    f"docs/{name}.md" for name in (
        "refusals", "formats", "findings", "first-line", "added-rules", "guide", "faq", "commands", "certificate",
        "performance", "library", "other-systems")))
# A tool, the words of commands that need it, and what is skipped without it.
TOOLS = (("jq", "jq|shared_identities", "recipes by jq"), ("cc", "cc ", "the library for C (gcc)"),
         ("parallel", "check_doc|run_in_|check_tab", "recipes by GNU parallel"))
SOURCED = re.compile(r"(?m)^\. examples/\S+\.sh$")
RECIPES = {name: marked(lines) for name, *lines in blocks("recipes.txt")}
FILES = {name: in_bytes(texts["<"]) for name, texts in RECIPES.items() if "$" not in texts}
GOOD = FILES["good.txt"]
# The same lines with other characters, after the row of docs/refusals.md that corrects them.
TO_MEND = [("utf16", GOOD.decode().encode("utf-16")), ("utf16 LE", GOOD.decode().encode("utf-16-le")),
           *((name[9:], content) for name, content in FILES.items() if name.startswith("to mend: "))]


def shown(page):
    """The blocks of commands that a page or the head of a script shows: the commands, and what they write. Before the
    commands are those of earlier blocks that read functions."""
    text = (TOP / page).read_text(encoding="utf-8").replace(r"\(aq", "'")
    heads = (re.sub("(?m)^#     ", "", it) for it in re.findall(r"(?m)(?:^#     .*\n)+", text))
    sourced = []
    for block in [*re.findall(r"(?ms)^(?:```console|\.nf)\n(\$ .*?)^(?:```|\.fi)$", text), *heads]:
        commands = "\n".join(re.findall(r"(?m)^\$ (.*)", block))
        yield "\n".join([*sourced, commands]), re.sub(r"(?m)^\$ .*\n", "", block)
        sourced += SOURCED.findall(commands)  # (a reader has these functions from there on)


BLOCKS = [(page, *block) for page in PAGES for block in shown(page)]
MENDING = dict(re.findall(r"(?m)^\| `(\w+)\.txt`.*\| `(.*mended\.txt)` \|$", (TOP / "docs/refusals.md").read_text()))


@pytest.fixture
def reader(tmp_path):
    """Runs commands in a bash, in a folder with what the top of a clone has."""
    (tmp_path / "balisecheck").symlink_to(program())
    for name in ("examples", "balisekit", "companion", "docs", "crates", "dist"):
        (tmp_path / name).symlink_to(TOP / name)

    def ran(commands, **known):
        for tool, words, skipped in TOOLS:
            if re.search(words, commands) and not shutil.which(tool):
                pytest.skip(f"{skipped} ({tool})")
        env = {**os.environ, "BALISECHECK": program(), **known}
        return run(("-c", f"PATH=.:$PATH\n{commands}"), path="bash", cwd=tmp_path, env=env)
    return ran


@pytest.fixture
def shell(reader, tmp_path):
    """Runs commands in a bash that has the functions, in a folder of these files too."""
    for name, content in FILES.items():
        (tmp_path / name).write_bytes(content)
    known = {"T": GOOD[:54].decode(), "S": GOOD[-55:-1].decode(), "E": " \t\r"}
    return lambda commands: reader(f". examples/find-field.sh\n. examples/parallel.sh\n{commands}", **known)


def test_program(shell, tmp_path, monkeypatch):
    """Commands run the program under test and the balisekit of these sources, also where others are installed."""
    for name in ("balisecheck", "balisekit"):
        write(tmp_path / "bin" / name, "#!/bin/sh\n")
    monkeypatch.setenv("PATH", f"{tmp_path}/bin", prepend=":")
    assert shell("command -v balisecheck balisekit").stdout == "./balisecheck\n./balisekit\n"


@pytest.mark.parametrize("commands, wanted", [pytest.param(*it, id=page) for page, *it in BLOCKS])
def test_block(commands, wanted, reader):
    """The commands of a block write what it shows, with no file or function that a reader of the page lacks."""
    ran = reader(commands)
    assert ran.stdout == wanted, ran.stderr


def test_pages():
    """Each page has commands. Each kind of file has a row."""
    assert {page for page, commands, _ in BLOCKS if commands} == {*PAGES}
    assert {*MENDING} == {row.split()[0] for row, _ in TO_MEND}


@pytest.mark.parametrize("row, content", TO_MEND, ids=[row for row, _ in TO_MEND])
def test_mending(row, content, shell, tmp_path):
    """The file is refused. Corrected it has the lines, of which only the last one is refused."""
    assert re.search(r"(?m)^refused: line [12]: not hexadecimal\n\Z", run(("decode",), content).stdout)
    name, _, other = row.partition(" ")
    (tmp_path / f"{name}.txt").write_bytes(content)
    shell(MENDING[name].replace("UTF-16 ", f"UTF-16{other} "))
    assert (tmp_path / "mended.txt").read_bytes().replace(b"\r", b"").lower() == GOOD


@pytest.mark.parametrize("texts", [pytest.param(it, id=name) for name, it in RECIPES.items() if "$" in it])
def test_recipe(texts, shell):
    """A command of recipes.txt has its status, and its output if one is listed."""
    ran = shell(texts["$"])
    assert ran.status == int(texts["="] or 0)
    # (GNU parallel counts processors by lscpu, which complains without a /sys, as in a chroot)
    assert not texts[">"] or re.sub("(?m)^lscpu: .*\n", "", ran.stdout + ran.stderr) == texts[">"]


def test_sums(shell):
    """docs/variables.md adds up the number of bits of each example by the formula of its packet."""
    sums = r"L_PACKET(?: is|,) `([^`\n]*)`.*?`(examples/[^ ]*\.txt)` [^.\n]*: ([0-9 +×]*) = ([0-9]+)"
    found = re.findall(sums, (TOP / "docs/variables.md").read_text(encoding="utf-8"))
    assert len(found) == 7  # each packet of a changing size
    for formula, name, terms, bits in found:
        assert re.fullmatch(re.sub(r"[a-z][a-z ]*[a-z]", "[0-9]+", formula.replace("+", r"\+")), terms), name
        assert sum(math.prod(map(int, term.split("×"))) for term in terms.split("+")) == int(bits), name
        assert shell(f"list_packets 1 <{name} | head -n 1").stdout.endswith(f", {bits} bits\n"), name
