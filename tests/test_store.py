"""What scripts/release.sh stores and refuses, and what tests/dist reports of a stored program, in a tiny tree."""
import datetime
import shutil

import pytest

from tiny import FILES, NUMBERED, attempt, made, sh, write

pytestmark = [pytest.mark.elsewhere, pytest.mark.skipif(not shutil.which("git"), reason="storing and releasing (git)")]
TODAY = datetime.datetime.now(datetime.timezone.utc).date()
# A stand-in for both calls of readelf.
READELF = """#!/bin/sh
grep -o 'GLIBC_[0-9.]*' "$2"
echo ' (NEEDED)  Shared library: [libc.so.6]'
"""


def refused(tree, why, words=""):
    """Whether scripts/release.sh refuses, and why."""
    status, said = attempt(tree, f"scripts/release.sh {words}")
    return status == 1 and f"release: {why}" in said or said


def releases(tree):
    """The numbers of the programs in dist/RELEASES, each of which has three more lines for other systems."""
    lines = [line.split() for line in (tree / "dist/RELEASES").read_text("utf-8").splitlines()[1:]]
    programs = [line for line in lines if len(line) == 5]
    assert [line[0] for line in lines] == [line[0] for line in programs for _ in range(4)]
    assert {line[5] for line in lines if len(line) == 6} == {
        "aarch64-linux/balisecheck", "browser/balisecheck.html", "x86_64-windows/balisecheck.exe"}
    return [line[0] for line in programs]


@pytest.fixture(scope="module", name="kept")
def a_kept_tree(tmp_path_factory):
    """A folder with tools, and with a tree that has a stored program."""
    room = tmp_path_factory.mktemp("kept")
    write(room / "tools/readelf", READELF)
    write(room / "tools/rt", "#!/bin/sh\necho a kit\n")
    said = sh(made(room / "a tree"), "git init -q; save; built one; scripts/release.sh store; save")
    assert "the stored program: 17 passed, 0 failed\nstored: commit dist" in said
    return room


@pytest.fixture(name="stored")
def a_stored_program(kept, tmp_path):
    """A tree with a stored program."""
    return shutil.copytree(kept, tmp_path, dirs_exist_ok=True) / "a tree"


def test_store(stored):
    """To store again changes nothing. Each commit of sources gets a line in dist/RELEASES."""
    sh(stored, "scripts/release.sh store")
    assert sh(stored, "git status --porcelain") == "" and sh(stored, f"grep -c ' {TODAY}' dist/RELEASES") == "4\n"
    sh(stored, "echo // >>crates/etcs_low/src/lib.rt; save; built one; scripts/release.sh store")
    assert releases(stored) == ["1.2.9"] * 2


@pytest.mark.parametrize("command, why", [
    ("echo // >>crates/etcs_low/src/lib.rt", "not committed: "),
    ("echo // >>crates/etcs_low/src/lib.rt; save", "the program in out was built from other sources: scripts/build"),
    ("echo >>out/balisecheck", "the program in out is damaged: scripts/build"),
    ("echo >>out/libbalisecheck.so.0", "the library in out is damaged, missing or of other sources: scripts/library"),
    ("sed -i '1s/.*/sources 0/' out/LIBRARY", "the library in out is damaged, missing or of other sources: "),
    ("rm out/targets/wasm64/package.json", "the files for other systems in out are damaged, missing or of other sources: "),
    ("echo >>out/targets/x86_64-windows/balisecheck.exe", "the files for other systems in out are damaged, missing or of "),
    ("sed -i '1s/.*/sources 0/' out/TARGETS", "the files for other systems in out are damaged, missing or of other sources: "),
    ("sed -i s/1[.]2[.]9/9.9.9/ man/balisecheck.1", "not stored, since tests/dist failed")])
def test_not_stored(stored, command, why):
    """After the command nothing is stored."""
    sh(stored, command)
    assert refused(stored, why, "store") is True
    assert sh(stored, "git status --porcelain dist") == ""


def test_numbers(stored):
    """Another program needs another number, which is written wherever the number is, before the program is built."""
    sh(stored, "built other")
    assert refused(stored, "1.2.9 is the number of another program", "store") is True
    assert sh(stored, "git status --porcelain dist") == "" and (stored / "VERSION").read_text() == "1.2.10\n"
    for name in NUMBERED:
        assert (stored / name).read_text("utf-8") == FILES[name].replace("1.2.9", "1.2.10")
    heads = f"# Changelog\n\n## Unreleased\n\n## 1.2.10 - {TODAY}\n- more\n\n## 1.2.9 - 2026-01-01\n"
    assert (stored / "CHANGELOG.md").read_text("utf-8") == heads
    sh(stored, "save; built other; scripts/release.sh store; save")
    sh(stored, "scripts/release.sh raise; save; built third; scripts/release.sh store")
    assert releases(stored) == ["1.2.9", "1.2.10", "1.2.11"]


def test_release(stored):
    """Nothing is released that was not stored, judged or passed. After each command something else is missing."""
    sh(stored, "echo // >>crates/etcs_low/src/lib.rt; save; built one")
    for command, why in (
            (":", "the program in dist/x86_64-linux was built from other sources: scripts/release.sh store"),
            ("scripts/release.sh store", "not committed: "),
            ("save; mv out/targets out/other", "out/targets has not the files for other systems that ABOUT lists: "),
            ("mv out/other out/targets; echo >>out/targets/browser/balisecheck.html", "out/targets has not the files for "),
            ("sed -i '$d' out/targets/browser/balisecheck.html", "no out/gate.log in which everything passed: .ci/run"),
            ("echo '9 passed, 1 failed' >out/gate.log", "no out/gate.log in which everything passed: .ci/run"),
            ("echo '10 passed, 0 failed' >out/gate.log", "out/gate.log is from other sources: .ci/run"),
            ("sed -i \"1i== sources $(dist/sources)\" out/gate.log", "no out/edits.log in which everything passed: "),
            ("echo 'the edits: 0 passed, 0 failed' >out/edits.log", "no out/edits.log in which everything passed: "),
            ("echo 'the edits: 9 passed, 0 failed' >out/edits.log", "out/edits.log is from other sources: "),
            ("sed -i \"1i== crates $(git rev-parse HEAD:crates)\" out/edits.log", "no out/plants.log in which "),
            ("sed -i 's/^version .*/version 1.2.8/' $stored/ABOUT; save", "the stored program is not 1.2.9: ")):
        sh(stored, command)
        assert refused(stored, why) is True
    assert refused(stored, "usage: ", "tarball") is True


VERSIONED = ("ABOUT", "../../VERSION", "../../man/balisecheck.1", "../../CHANGELOG.md")


@pytest.mark.parametrize("command, why", [
    ("rm ABOUT", "ABOUT has these lines"), ("touch libc.so.6", "nothing else is stored"),
    *((f"sed -i s/1[.]2[.]9/9.9.9/ {name}", "the version is that of") for name in VERSIONED),
    (f"sed -i s/1[.]2[.]9/9.9.9/ ../RELEASES {' '.join(VERSIONED)}", "the version is that of"),
    ("sed -i '/ [-0-9]*$/d' ../RELEASES", "the last line of dist/RELEASES"),
    ("sed -i '2p; 2s/ [^ ]* 2/ 0 2/' ../RELEASES", "no number there is of two programs"),
    *((f"echo >>{name}", "programs and library are undamaged")
      for name in ("balisecheck", "balisecheck_table", "libbalisecheck.a")),
    ("chmod -x balisecheck", "the stored programs can be run"), ("sed -i s/2.34/2.17/ ABOUT", "it needs this C library"),
    ("echo GLIBC_2.36 >>libbalisecheck.so.0", "the stored library needs no more"),
    ("sed -i 's/^commit .*/commit 0123/' ABOUT", "the commit of its sources is in this history"),
    ("echo >>../../crates/etcs_low/src/lib.rt", "the stored program is of these sources"),
    ("echo >>../../out/balisecheck; sed -i 's/^kit .*/kit another/' ABOUT", "It was built by another kit, another."),
    ("rm ../../out/balisecheck", "the stored program is the one that was built here"),
    ("rm ../../out/LIBRARY", "the stored library is the one that was built here"),
    ("sed -i s/[0-9a]$/b/ ../../out/LIBRARY", "the stored library is the one that was built here"),
    ("rm ../../out/TARGETS", "the files for other systems are those that were built here"),
    ("sed -i '/wasm64/d' ABOUT ../../out/TARGETS", "ABOUT has these lines"),
    ("sed -i '/mjs/s/[0-9a]$/b/' ABOUT", "the files for other systems are those that were built here"),
    *((f"sed -i '/{it}/d' ../RELEASES", "dist/RELEASES lists the programs for other systems") for it in ("exe", "html"))])
def test_wrong(stored, command, why):
    """After the command in the folder of the stored program this test fails."""
    sh(stored, f"cd $stored; {command}")
    status, said = attempt(stored, "BALISECHECK=out/balisecheck tests/dist")
    assert status == 1 and why in said
