"""What .ci/run makes of its steps, in a folder where a stand-in takes the place of each and of the toolchain."""
import shutil

import pytest

from runner import TOP, run

STEPS = ["bin/rt", "tests/refused.py", "tests/dist", "tests/all", "tests/elsewhere"]
# A step that counts its tests. `rt` also says which options it knows, and keeps those that it was called with.
PASSES = "#!/bin/sh\n[ \"$1\" != help ] || exec echo --anew\n[ \"$1\" != ci ] || echo \"$@\" >called\n"
COUNTED = PASSES + "echo '2 passed, 0 failed'\n"


@pytest.fixture(name="gate")
def a_gate(tmp_path):
    """Runs .ci/run in a folder where each of these steps is replaced by a text."""
    def gate(*words, **replaced):
        others = ["dist/sources", "dist/hand-over", "dist/keep-libraries", "scripts/library", "scripts/targets"]
        texts = dict.fromkeys([*STEPS, *others], COUNTED)
        texts.update({"tests/packages.sh": "install() { :; }\npackages= browser= systems=\n", **replaced})
        for name, text in texts.items():
            path = tmp_path / name
            path.parent.mkdir(exist_ok=True)
            path.write_text(text, "utf-8")
            path.chmod(0o755)
        for name in (".ci/run", "tests/steps.sh"):
            (tmp_path / name).parent.mkdir(exist_ok=True)
            shutil.copy(TOP / name, tmp_path / name)
        return run(words, path=tmp_path / ".ci/run", limits=f"PATH='{tmp_path}/bin':$PATH")
    return gate


@pytest.mark.parametrize("words", [(), ("--anew",)], ids=["kept", "anew"])
def test_all_steps_pass(gate, tmp_path, words):
    """Their counts are added, and `rt ci` gets the option."""
    answer = gate(*words)
    assert answer.status == 0 and answer.stdout.endswith("\n10 passed, 0 failed\n")
    assert (tmp_path / "called").read_text("utf-8") == " ".join(["ci", *words]) + "\n"


@pytest.mark.parametrize("text", [PASSES + "echo '2 passed, 1 failed'\nexit 1\n", PASSES + "exit 1\n", PASSES,
                                  COUNTED + "exit 1\n"], ids=["failure", "no count", "nothing", "wrong status"])
@pytest.mark.parametrize("step", STEPS)
def test_a_step_fails(gate, step, text):
    """Whatever else passes, the gate does not."""
    answer = gate(**{step: text})
    assert answer.status == 1 and answer.stdout.endswith(" passed, 1 failed\n")


def test_another_option(gate):
    """It is refused before anything runs."""
    assert gate("--all") == (2, "usage: .ci/run [--anew]\n", "")
