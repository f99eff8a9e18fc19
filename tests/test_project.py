"""The list of crates, the hook for commits, steps of tests, and the form of texts."""
import os
import re
import sys

import pytest

from runner import TOP, crate_uses, run

USES = {name: {*used} & {*crate_uses()} for name, used in crate_uses().items()}
TELEGRAM = "a1007f802000ffffffffffffffffffffffffffffffffffffffffc0"


def all_uses(names):
    """These crates and those that they use, also by way of others."""
    return names.union(*(all_uses(USES[name]) for name in names))


def test_crates():
    """architecture.md lists each crate, and draws it above those that it uses."""
    page = (TOP / "docs/contributing/architecture.md").read_text("utf-8")
    direct = {name: used - set().union(*(all_uses(USES[it]) for it in used)) for name, used in USES.items()}
    assert {*re.findall(r"(?m)^\| (\w+) \|", page.split("\n## ")[1])} == {"Crate", *USES}
    picture = page.split("```text\n")[1].split("```")[0].splitlines()
    height = {name: index for index, row in enumerate(picture) for name in row.split()}
    assert {*height} == {name for name in USES if not name.startswith("trials_")}
    assert all(height[name] < height[used] for name in height for used in direct[name])


@pytest.mark.parametrize("words, wanted", [
    (["a sound.csv"], 0), (["found.csv", "a sound.csv"], 1), (["found.csv", "refused.csv", "a sound.csv"], 2),
    (["--by-position", "--", "a sound.csv"], 0), (["--by-position", "a sound.csv"], 2), (["missing.csv"], 2), (["accepted.csv", "accepted.accepted.csv"], 0)])
def test_hook(words, wanted, tmp_path):
    """The hook has these keys, and ends with the greatest status of its tables. An accepted finding is none."""
    hook = dict(re.findall(r"(?m)^(?:- |  )(\w+): (.+)$", (TOP / ".pre-commit-hooks.yaml").read_text("utf-8")))
    assert " ".join(hook) == "id name description entry args language files require_serial"

    def status(command, *words):
        return run(words, path=TOP / command, cwd=tmp_path).status

    for name, others in (("a sound", []), ("found", [TELEGRAM]), ("accepted", [TELEGRAM]), ("refused", ["a1"])):
        rows = [f"{group},{text}\n" for group, text in zip("AB", [TELEGRAM, *others])]
        (tmp_path / f"{name}.csv").write_text("group,telegram\n" + "".join(rows), "utf-8")
    accepted = tmp_path / "accepted.accepted.csv"
    if accepted.name in words:
        assert status("balisekit", "check", "accepted.csv", "--propose", accepted) == 1
        accepted.write_text(re.sub(r",{5}(\w{64})", r",a test,A. Tester,2026-11-28,,\1", accepted.read_text("utf-8")))
    assert status(hook["entry"], *words) == wanted and re.search(hook["files"], words[-1])


@pytest.mark.parametrize("command, wanted", [
    ("echo 2 passed, 0 failed", "2 passed, 0 failed"), ("echo 2 passed, 3 failed; exit 1", "2 passed, 3 failed"),
    ("echo 1 passed, 2 errors; exit 1", "1 passed, 2 failed"), ("echo done", "0 passed, 1 failed"),
    ("echo 2 passed, 0 failed; exit 1", "2 passed, 1 failed"), ("echo 0 passed, 0 failed", "0 passed, 1 failed")])
def test_step(command, wanted):
    """A step of the tests or of the gate also fails by its status, without a count and without a test."""
    script = f". tests/steps.sh\nstep it sh -c '{command}'\ncount it\ntotal"
    ran = run(("-uc", script), path="bash", cwd=TOP)
    assert (ran.stdout.splitlines()[-1], ran.status) == (wanted, int("0 failed" not in wanted))


def test_texts():
    """Each text that is committed is UTF-8, with line ends of Linux, also at its end, and no blanks before them."""
    listed = run(("grep", "-Ilz", ""), path="git", cwd=TOP)
    if listed.status:
        pytest.skip("the form of all texts (git)")
    for name in listed.stdout.split("\0")[:-1]:
        text = (TOP / name).read_bytes().decode("utf-8")
        assert "\r" not in text and (text[-1:] in ("", "\n") or name.endswith((".svg", "report.html"))), name
        assert name.endswith(".edits") or not re.search(r"(?m)[ \t]$", text), name


def test_folders():
    """Each script that changes its folder, or calls one of dist/ that does, unsets CDPATH: by it cd leads to a folder of
    that name elsewhere. The tests hand none to the commands that they run."""
    listed = run(("grep", "-IlzE", "^#!.*sh$|^# shellcheck shell=", "--", ":!dist"), path="git", cwd=TOP)
    if listed.status:
        pytest.skip("the folders of all scripts (git)")
    scripts = {name: (TOP / name).read_text("utf-8") for name in listed.stdout.split("\0")[:-1]}
    moving = {name for name, text in scripts.items() if re.search(r"(?m)^[^#\n]*\bcd [^ ]", text)}
    calls = re.compile(r"(?m)^[^#\n]*\bdist/(?:sources|hand-over|keep-libraries|pack/)")
    moving |= {name for name, text in scripts.items() if name.startswith(("scripts/", "tests/")) and calls.search(text)}
    assert {"examples/parallel.sh", "scripts/install.sh"} <= moving
    assert not [name for name in moving if not re.search("(?m)^unset CDPATH$", scripts[name])]
    asks = "import conftest, os; print(os.environ.get('CDPATH'))"
    said = run(("-c", asks), path=sys.executable, cwd=TOP / "tests", env={**os.environ, "CDPATH": "/tmp"})
    assert (said.status, said.stdout) == (0, "None\n")
