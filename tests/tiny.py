"""A tiny tree with our scripts, for tests that start, store and judge. Shell scripts stand in for the program."""
import os
import subprocess

from runner import TOP, run

SCRIPTS = ("balisecheck", "scripts/build", "scripts/release.sh", "dist/sources", "dist/hand-over", "tests/dist",
           "tests/steps.sh")
NUMBERED = ("man/balisecheck.1", "man/balisecheck_table.1", "crates/balisecheck/src/help.rt",
            "crates/balisecheck_table/src/help.rt", "companion/src/balisekit/__init__.py", "examples/ci/job.yml")
CRATES = "# crates\netcs_low:\netcs_high: etcs_low\ntrials_low: etcs_low\nbalisecheck: etcs_high\n"
EMPTY = [f"crates/{crate}/{name}" for crate in ("etcs_low", "etcs_high", "trials_low", "balisecheck")
          for name in ("src/lib.rt", "specs/Lib.antt", "proofs/Lib.antt", "out/log")]
FILES = {**dict.fromkeys(EMPTY, ""), **dict.fromkeys(NUMBERED, '.TH X 1 "not 1.219" "balisecheck 1.2.9" ""\n'),
         "crates.txt": CRATES, "HANDLES": "none\n", "VERSION": "1.2.9\n", ".gitignore": "out/\n",
         "CHANGELOG.md": "# Changelog\n\n## Unreleased\n- more\n\n## 1.2.9 - 2026-01-01\n",
         "dist/RELEASES": "# heads\n"}
# What commands in the tree can call: `program FOLDER SCRIPT [LINE]` writes a program and its ABOUT with this line,
# `answers FOLDER WORDS` one that writes the words before each line, `built WORDS` one to be stored, with its library.
SHELL = r"""
    set -e
    stored=dist/x86_64-linux
    sum() { sha256sum <$1 | head -c 64; }
    about() { printf '%s\n' "sources $(dist/sources)" "program $(sum $1/balisecheck)" ${2:+"$2"} >$1/ABOUT; }
    program() {
        mkdir -p $1
        printf '#!/bin/sh\n%s\n' "$2" >$1/balisecheck
        chmod +x $1/balisecheck
        about $1 "$3"
    }
    answers() { program $1 "while read -r line; do echo $2 \$line; done"; }
    built() {
        program out "echo balisecheck $(cat VERSION) >&2 # $1 GLIBC_2.34"
        cp out/balisecheck out/balisecheck_table
        about out "balisecheck_table $(sum out/balisecheck_table)"
        echo $1 >out/libbalisecheck.a
        echo $1 GLIBC_2.4 GLIBC_2.34 >out/libbalisecheck.so.0
        printf '%s\n' "sources $(dist/sources)" "archive $(sum out/libbalisecheck.a)" \
            "library $(sum out/libbalisecheck.so.0)" >out/LIBRARY
        targets $1
    }
    targets() {
        echo "sources $(dist/sources)" >out/TARGETS
        for it in aarch64-linux/{balisecheck,libbalisecheck.{a,so.0}} browser/balisecheck.html wasm64/{balisecheck.{d.mts,mjs},package.json} \
            x86_64-windows/balisecheck.{dll,exe,lib}; do
            mkdir -p out/targets/${it%/*}
            echo $1 $it >out/targets/$it
            echo "$it $(sum out/targets/$it)" >>out/TARGETS
        done
    }
    save() { git add -A; git commit -q -m one; }
"""


def write(path, text):
    """Writes a file that can be executed."""
    path.parent.mkdir(parents=True, exist_ok=True)
    path.write_text(text, encoding="utf-8")
    path.chmod(0o755)


def made(tree):
    """Writes the tree. It has neither a stored program nor one that was built."""
    for name, text in {**FILES, **{name: (TOP / name).read_text("utf-8") for name in SCRIPTS}}.items():
        write(tree / name, text)
    return tree


def attempt(tree, command):
    """Status and output of a shell command in the tree. Stand-ins in the folder `tools` come first."""
    who = {f"GIT_{role}_{key}": "one" for role in ("AUTHOR", "COMMITTER") for key in ("NAME", "EMAIL")}
    known = {**os.environ, **who, "PATH": f"{tree.parent}/tools:{os.environ['PATH']}", "BALISECHECK": ""}
    return run(("-c", SHELL + command), path="bash", cwd=tree, env=known, stderr=subprocess.STDOUT, timeout=None)[:2]


def sh(tree, command):
    """The output of a shell command in the tree that succeeds."""
    status, output = attempt(tree, command)
    assert status == 0, output
    return output
