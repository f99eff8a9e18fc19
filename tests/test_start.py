"""The scripts that start and build the program, in a tiny tree with stand-ins for program and toolchain."""
import os
import platform

import pytest

import runner
from tiny import made, sh, write

pytestmark = pytest.mark.elsewhere
# A stand-in for the toolchain: it knows the calls of a build, and runs COMMAND before it builds the program.
TOOLCHAIN = """#!/bin/sh
echo "${PWD##*/} $*" >>"$ROOM/proved"
case "${PWD##*/} $*" in
"etcs_low lib" | "etcs_high lib") ;;
"balisecheck run -- decode") cd ../.. && { eval "$COMMAND"; } && cp "$ROOM/made/balisecheck" crates/balisecheck/out ;;
*) exit 9 ;;
esac
"""
STORED = "dist/x86_64-linux/balisecheck"
OTHER = f"out/balisecheck was built from other sources; {STORED} was built from other sources; run scripts/build"
NEEDS = f"{STORED} does not start here: it needs x86-64-v2 and glibc 2.34 or later, and this is {platform.machine()} " \
    f"with {os.confstr('CS_GNU_LIBC_VERSION')}: "
# Before a command, these make root obey the modes of files, and the limits of processes.
MODES = [] if os.getuid() else ["setpriv", "--bounding-set=-all", "--inh-caps=-all"]
USER = [] if os.getuid() else ["setpriv", "--reuid=65534", "--clear-groups", "--inh-caps=+dac_override",
                               "--ambient-caps=+dac_override"]


def run(tree, command, *words, **known):
    """The answer of a command to a line."""
    return runner.run(words, "a1\n", path=command, cwd=tree.parent, env={"PATH": os.environ["PATH"], **known})


def decode(tree, *before):
    """What the start script answers to a line, after these words of a command."""
    return run(tree, *before, tree / "balisecheck", "decode")


@pytest.fixture(name="tree")
def a_tree(tmp_path):
    """A tree with a stored program of its sources."""
    tree = made(tmp_path / "a tree")
    sh(tree, "answers $stored stored")
    yield tree
    sh(tmp_path, "chmod -R u+rwX .")


@pytest.mark.parametrize("command, wanted", [
    ("answers out built", "built"), ("chmod -R a-w .", "stored"),
    ("touch -d '+1 day' crates/etcs_low/src/lib.rt; touch crates/etcs_low/out/more more", "stored"),
    ("answers out built; echo // >>crates/etcs_low/src/lib.rt; about $stored", "stored"),
    ("answers out built; cd out; head -c 9 balisecheck >part; cat part >balisecheck", "stored")])
def test_one_answers(tree, command, wanted):
    """After the command the program that was built here answers, or the stored one. Nothing is written."""
    sh(tree, command)
    sh(tree, "find . >../before")
    assert decode(tree, *MODES) == (0, f"{wanted} a1\n", "")
    sh(tree, "find . | diff - ../before")


@pytest.mark.parametrize("command, why", [
    *((f"answers out built; echo // >>{name}", OTHER) for name in (
        "crates/etcs_low/src/lib.rt", "crates/etcs_high/specs/Lib.antt", "crates/etcs_high/proofs/Lib.antt",
        "crates.txt", "HANDLES")),
    ("answers out built; cd crates/etcs_high/specs; mv Lib.antt Other.antt", OTHER),
    ("echo '# more' >>$stored/balisecheck", f"{STORED} is damaged"),
    ("rm -r $stored", f"out/balisecheck is not there; {STORED} is not there; run scripts/build"),
    ("chmod -x $stored/balisecheck", f"{STORED} is not executable: chmod +x it, balisecheck and balisekit"),
    ("program $stored 'echo no GLIBC_2.34; echo no GLIBC_2.33; exit 1' 'glibc 2.34'", f"{NEEDS}no GLIBC_2.34; run"),
    ("rm $stored/ABOUT", f"{STORED} has no ABOUT: "), ("chmod a-r $stored/ABOUT", f"{STORED} has no ABOUT: "),
    ("chmod a-r crates/etcs_low/src/lib.rt", "the sources cannot be hashed"),
    ("chmod a-rx crates/etcs_low/specs", "the sources cannot be hashed")])
def test_none_answers(tree, command, why):
    """After the command no program is run, and the reason is reported in one line."""
    sh(tree, command)
    status, output, errors = decode(tree, *MODES)
    *others, last = errors.splitlines()
    assert (status, output) == (3, "") and last.startswith("balisecheck: not built: ") and why in last
    assert not others or "hashed" in why


def test_calls(tree):
    """Path, checksums, a call through a link, one that needs no modes of scripts, and one that can start no process."""
    assert run(tree, tree / "balisecheck", BALISECHECK_PATH="1") == (0, f"{tree}/{STORED}\n", "")
    about = (tree / STORED).with_name("ABOUT").read_text("utf-8")
    assert run(tree, tree / "balisecheck", "--version")[2] == about
    (tree.parent / "link").symlink_to(tree / "balisecheck")
    assert run(tree, "./link", "decode") == (0, "stored a1\n", "")
    sh(tree, "chmod -R -x+X .; chmod +x $stored/balisecheck")
    assert decode(tree, "sh") == (0, "stored a1\n", "")
    assert decode(tree, *USER, "bash", "-c", 'ulimit -u 1; exec sh "$@"', "-")[0] >= 3


@pytest.mark.parametrize("words", [("check",), ("decode",), ("encode",), ("--help",), ("check", "more"), ("",)])
def test_a_path_is_no_answer(words, tree):
    """With a word the program answers, also if the variable that asks for its path has stayed in the environment."""
    sh(tree, """program $stored '[ $# != 1 ] || [ "$1" != decode ] || exit 0; echo "it was $*"; exit 1'""")
    answers = [run(tree, tree / "balisecheck", *words, **known) for known in ({}, {"BALISECHECK_PATH": "1"})]
    assert answers[0] == answers[1] == ((0, "", "") if words == ("decode",) else (1, f"it was {' '.join(words)}\n", ""))


@pytest.mark.parametrize("limit", [*(f"-n {number}" for number in (12, 13, 14, 17, 23, 24)), "-v 3500", "-v 4000", "-v 6000"])
def test_too_few_files_or_too_little_memory(limit, tree):
    """The program answers, or it is status 3 with the reason: the sources of the program are not said to be others."""
    status, output, errors = decode(tree, *USER, "bash", "-c", f'ulimit {limit}; exec "$@"', "-")
    assert (status, output) in ((0, "stored a1\n"), (3, "")) and (status == 0 or errors)
    assert "other sources" not in errors and "damaged" not in errors


def build(tree, command=":"):
    """Status and last line of scripts/build with a toolchain that runs this. Its process is in the file `build`."""
    write(tree.parent / "tools/rt", TOOLCHAIN)
    sh(tree, "answers ../made made")
    status, output, errors = run(tree, "sh", "-c", 'echo $$ >build; exec "$0"', tree / "scripts/build", COMMAND=command,
                                 ROOM=str(tree.parent), PATH=f"{tree.parent}/tools:{os.environ['PATH']}")
    return status, output + errors.splitlines()[-1]


def test_build(tree):
    """Each crate but those of tests is proved once, in their order. The program is handed over with ABOUT and a log."""
    missing = "balisecheck: not built: the toolchain is not here: its command rt is not on the path\n"
    assert run(tree, tree / "scripts/build", PATH="/usr/bin:/bin") == (3, "", missing)
    assert build(tree) == (0, "balisecheck: version 1.2.9 is built: out/balisecheck")
    proved = (tree.parent / "proved").read_text("utf-8").splitlines()
    assert proved == ["etcs_low lib", "etcs_high lib", "balisecheck run -- decode"]
    assert decode(tree) == (0, "made a1\n", "")
    assert sorted(os.listdir(tree / "out")) == ["ABOUT", "balisecheck", "build.log"]


@pytest.mark.parametrize("command, why, wanted", [
    ("echo a refused proof; exit 1", "the lines above are the end of out/build.log", "built"),
    ('read -r build <"$ROOM/build"; kill -TERM "$build"; sleep 1', "interrupted", "built"),
    ("echo // >>crates/etcs_low/src/lib.rt", "a source changed meanwhile: run it again", None)])
def test_build_that_fails(tree, command, why, wanted):
    """What was built before still answers. If a source has changed it is still there."""
    sh(tree, "answers out built; cp -r out ../before")
    status, last = build(tree, command)
    assert status == 3 and last.startswith(f"balisecheck: not built: {why}")
    assert decode(tree)[1] == (f"{wanted} a1\n" if wanted else "")
    assert sh(tree, "diff -r out ../before || true") == "Only in out: build.log\n"
