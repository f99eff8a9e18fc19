"""Tests of the tools that judge wrong code: tests/edits, tests/refused.py and tests/plants."""
import runpy
import shutil

import pytest

import refused
from runner import TOP, crate_uses
from tiny import made, sh, write

EDITS, PLANTS = (runpy.run_path(str(TOP / "tests" / it)) for it in ("edits", "plants"))
LOG, STALE = "out/layers/tiny-1", EDITS["STALE"]


# ---- tests/edits


def test_edits_of_the_crates():
    """Each crate with code has edits, each with a name of its own, in one layer, which has no function twice."""
    for crate in (it for it in crate_uses() if not it.startswith("trials_") and it != "etcs_form"):
        edits = [*EDITS["edits_of"](crate)]
        layers = EDITS["layers_of"](edits)
        assert edits and len({it.name for it in edits}) == len(edits)
        assert sorted(it for layer in layers for it in layer) == sorted(edits)
        for functions in ([it for edit in layer for it in edit.refuses] for layer in layers):
            assert len({*functions}) == len(functions)


OPEN = "no proof: expected answers in ./proofs/next/Answers.antt; `search` did not prove `returns`"
WAITS = "not proved; it calls `low::next`, which is not proved"
GONE = "\n./proofs/next/Answers.antt:5:13: error: `returns`: record `R` has no field `n`"
OTHER = "\n./proofs/next/Answers.antt:5:13: error: `returns`: as printed, the two types differ"


def printed(state, more=""):
    """What a check printed that has this state of a function."""
    return f"""rt: a line{more}
fn tiny::next: {state}
fn tiny::fn::halves::map: proved where its callers give what it asks
fn low::next: proved
logic=not-proved functions=2
rt: another line
"""


def judged(monkeypatch, names, *outputs):
    """What tests/edits finds of edits of these functions, if the checks print this."""
    left = [*outputs]
    monkeypatch.setitem(EDITS["main"].__globals__, "check", lambda *_: (left.pop(0), 1))
    return EDITS["judge"]("tiny-1", [EDITS["Edit"]("tiny", it, "crates.txt", [], [it]) for it in names])


@pytest.mark.parametrize("outputs, why", [
    ([printed(OPEN)], ""), ([printed(WAITS, OTHER)], ""), ([printed("proved")], "next is proved"),
    ([printed(WAITS), printed(WAITS)], "next is only waiting for what it calls"),
    ([printed(WAITS, GONE)], f"next is {STALE}"),
    ([printed("no proof: the limit was met")], "next is reported in an unknown form: no proof: the limit was met"),
    ([printed(OPEN).partition("logic=")[0]], "next is not reported"),
    ([printed(OPEN, "\nsrc/lib.rt:1:1: error: it is odd")], "next is not reported"),
    ([printed(OPEN, "\nrt: the kept work of low cannot be used: remove it")], "next is not reported")])
def test_edit_by_a_check(monkeypatch, outputs, why):
    """An edit passes only if the check came to its end and refused the function for a goal."""
    assert judged(monkeypatch, ["next"], *outputs) == [(f"next, {LOG}", why)]


def test_edits_of_a_layer(monkeypatch):
    """An edit whose function waits is judged again by itself. An edit has to name each function that is refused."""
    first = printed(WAITS, f"\nfn tiny::sum: {OPEN}\nfn tiny::twice: no proof")
    assert judged(monkeypatch, ["sum", "next"], first, printed(OPEN)) == [
        (LOG, f"no edit names twice, which is {STALE}"), (f"sum, {LOG}", ""), (f"next, {LOG}-again", "")]


LEMMA = "\n./proofs/Sums.antt:3:1: error: `halves`: as printed, the two types differ"
FOLLOWS = "\n./proofs/{}.antt:5:1: error: 1 declaration that depends on `halves`, which was rejected, was not checked"


@pytest.mark.parametrize("more, why", [
    (LEMMA, ""), (LEMMA + FOLLOWS.format("Sums") + FOLLOWS.format("next/Answers"), ""),
    (LEMMA.replace("as printed, the two types differ", "`n` is not in scope"), f"Sums::halves is {STALE}"),
    (LEMMA.replace("`halves`: ", ""), "Sums::halves is not reported"),
    (FOLLOWS.format("next/Answers"), "Sums::halves is not reported")])
def test_edit_of_a_definition(monkeypatch, more, why):
    """An edit passes if the prover refuses the lemma that it names. What rests on that lemma waits for it."""
    state = "not proved" if "next/" in more else "proved"
    assert judged(monkeypatch, ["Sums::halves"], printed(state, more)) == [(f"Sums::halves, {LOG}", why)]


def test_lemmas_of_a_layer(monkeypatch):
    """An edit has to name each lemma that is refused. One whose lemma has no error is judged again by itself."""
    sums = printed("proved", LEMMA)
    assert judged(monkeypatch, ["Sums::halves", "Sums::sum"], sums, sums.replace("halves`", "sum`")) == [
        (f"Sums::halves, {LOG}", ""), (f"Sums::sum, {LOG}-again", "")]
    assert judged(monkeypatch, ["next"], printed(OPEN, LEMMA)) == [
        (LOG, f"no edit names Sums::halves, which is {EDITS['REFUSED']}"), (f"next, {LOG}", "")]


def test_edits_of_definitions(monkeypatch, tmp_path):
    """The edits in edits/specs are those of definitions."""
    write(tmp_path / "crates/tiny/edits/specs/in/Sums.edits", "name: half\nold: 2\nnew: 3\nrefuses: Sums::halves\n")
    write(tmp_path / "crates/tiny/specs/in/Sums.antt", "half n = n / 2\n")
    monkeypatch.setitem(EDITS["main"].__globals__, "TOP", tmp_path)
    edit, = EDITS["edits_of"]("tiny")
    assert edit == ("tiny", "tiny/half", "crates/tiny/specs/in/Sums.antt", [("2", "3")], ["Sums::halves"])


# The proof of `next` names a step that the edit removes. This kit prints GONE, after 13 s; only others are asked.
RT, KIT = shutil.which("rt"), "rattle-kit-13f logic dac8208d650f15bf"
SOURCE = """#![tactic(auto)]
ghost use Rattle.std.specs.Prelude.{◌≡◌, ◌+◌};
pub fn sum(a: u8, b: u8) -> u32 ensures { result ≡ a + b } { a as u32 + b as u32 }
pub fn next(n: u8) -> u32 ensures { result ≡ n + n } { sum(n, n) }
"""
PROOF = "use Rattle.tiny.proofs.next.Goals as goal\n\npub returns : goal.returns\nreturns c = c.sum.ensures\n"
EDIT = "name: stale\nold: sum(n, n)\nnew: n as u32 + n as u32\nrefuses: next\n"
TREE = {"crates.txt": "tiny:\n", "crates/tiny/src/lib.rt": SOURCE, "crates/tiny/edits/lib.edits": EDIT,
        "crates/tiny/proofs/next/Answers.antt": PROOF, "tools/rt": f"""#!/bin/sh
[ $# != 1 ] || exit 0  # (the crate without the edit is not checked)
[ "$({RT} version)" = "{KIT}" ] || exec {RT} "$@"
[ "$*" = "check --jobs 1" ] && grep "n as u32 + n" src/lib.rt && ls proofs/next && echo '{printed("not proved", GONE)}'
exit 1
"""}


@pytest.mark.skipif(not RT, reason="tests of edits (toolchain)")
def test_stale_edit(monkeypatch, tmp_path):
    """An edit fails if the prover refuses only a proof file that names what is gone."""
    for path, text in TREE.items():
        write(tmp_path / path, text)
    monkeypatch.setenv("PATH", f"{tmp_path}/tools", prepend=":")
    monkeypatch.setitem(EDITS["main"].__globals__, "TOP", tmp_path)
    found = EDITS["judge_all"]([*EDITS["edits_of"]("tiny")])
    assert found == [(f"tiny/stale, {LOG}", f"next is {STALE}")]


def test_libraries_of_a_copy(monkeypatch, tmp_path):
    """A copy of the crates has the libraries that are built here, and nothing else that `rt` made."""
    names = "src/lib.rt", "out/rlib/stamp", "out/rlib/tiny.rlib/format"
    for path in (*names, "out/incremental/one", "edits/lib.edits"):
        write(tmp_path / "here/crates/tiny" / path, path)
    write(tmp_path / "here/crates.txt", "tiny:\n")
    monkeypatch.setitem(EDITS["copy_crates"].__globals__, "TOP", tmp_path / "here")
    (tmp_path / "copy").mkdir()
    EDITS["copy_crates"](tmp_path / "copy")
    made_of = {it for it in (tmp_path / "copy/crates").rglob("*") if it.is_file()}
    assert made_of == {tmp_path / "copy/crates/tiny" / it for it in names}
    assert all(it.read_text("utf-8") == it.relative_to(tmp_path / "copy/crates/tiny").as_posix() for it in made_of)


@pytest.mark.skipif(not shutil.which("git"), reason="tests of edits (git)")
def test_judged_crates(monkeypatch, capsys, tmp_path):
    """The crates are named if all edits passed and crates/ is committed."""
    tree = made(tmp_path / "a tree")
    sh(tree, "git init -q; save")
    edit = EDITS["Edit"]("etcs_low", "etcs_low/one", "", [], [])
    for name, it in {"TOP": tree, "edits_of": lambda _: [edit], "judge_all": lambda _: [("one", "")]}.items():
        monkeypatch.setitem(EDITS["main"].__globals__, name, it)
    crates = f"== crates {sh(tree, 'git rev-parse HEAD:crates')}"
    for words, change, wanted in ("--all", ":", crates), ("etcs_low", ":", ""), ("--all", "touch crates/new", ""):
        sh(tree, change)
        with pytest.raises(SystemExit, match="False"):
            EDITS["main"](words)
        assert capsys.readouterr().out == f"{wanted}the edits: 1 passed, 0 failed\n"


# ---- tests/refused.py

GOAL = "refused, as it must be: note: src/lib.rt:7:1: it is not proved that what the function ensures holds"
ERROR = "refused, as it must be: ./proofs/twice/Answers.antt:5:13: error: "


@pytest.mark.parametrize("said, is_refused", [
    ([GOAL], True), ([f"{ERROR}as printed, the two types differ"], True), ([], False), ([GOAL, GOAL], False),
    ([GOAL.replace(":", " (only by a limit of the prover):", 1)], False),
    ([f"{ERROR}`sums` (nearest: .sum)"], False), ([f"{ERROR}`twice` was not admitted"], False),
    ([GOAL.replace("it is not proved", "`n` is large")], False), ([f"{ERROR}it is odd".replace("twice/", "")], False)])
def test_refused(tmp_path, capsys, said, is_refused):
    """The log needs one line on each edit of the crates, with a refusal for a contract."""
    names = [f"{it.parts[-3]}/{it.name}" for it in TOP.glob("crates/*/must-fail/*.edit")]
    lines = [(names[0], it) for it in said] + [(it, GOAL) for it in names[1:]]
    (tmp_path / "log").write_text("".join("rt: must-fail {}: {}\n".format(*it) for it in lines), encoding="utf-8")
    with pytest.raises(SystemExit, match=str(not is_refused)):
        refused.main(tmp_path / "log")
    last = f"the edits: {len(names) - (not is_refused)} passed, {int(not is_refused)} failed\n"
    assert capsys.readouterr().out.endswith(last)


# ---- tests/plants

PLANTED = """rt: checking the crate as it stands
proves      src/item.rt:12 Item::write: { Err(Error::Memory) }
refused     src/item.rt:12 Item::write: { Ok(()) }  (returns)
not-judged  src/item.rt:40 read: { self::read(bits, at) }  (the unchanged call did not prove)
no-ensures  src/limits.rt:7 limits::far()
plants crate=tiny planted-in=4 untested=0 no-ensures=1 proves=1 same=0 refused=1 elsewhere=0 not-judged=1 not-run=0
"""
KEPT = """not-judged src/item.rt read: { self::read(bits, at) }  # the call needs a proof by hand
proves src/item.rt Item::write: { Err(Error::Memory) }
"""


def test_plants(monkeypatch, tmp_path, capsys):
    """A new row fails, and one that is gone is shown. Reasons are kept. A run that did not try every plant fails."""
    monkeypatch.setitem(PLANTS["judge"].__globals__, "TOP", tmp_path)
    write(tmp_path / "tools/rt", "#!/bin/sh\ncat ../../output\n")
    monkeypatch.setenv("PATH", f"{tmp_path}/tools", prepend=":")
    write(tmp_path / "crates/tiny/plants.txt", f"{KEPT}proves src/other.rt gone: {{ 0 }}\n")
    write(tmp_path / "output", PLANTED)
    new = "no-ensures src/limits.rt limits::far()\n"
    assert PLANTS["judge"]("tiny") == (3, 1)
    assert capsys.readouterr().out == f"tiny: + {new}tiny: - proves src/other.rt gone: {{ 0 }}\n"
    assert (tmp_path / "out/plants/tiny.txt").read_text(encoding="utf-8") == new + KEPT
    for wrong in ("not-run=0", "not-run=1"), ("proves=1", "proves=2"), ("rt: ", "note: the crate is not proved\nrt: "):
        write(tmp_path / "output", PLANTED.replace(*wrong))
        assert PLANTS["judge"]("tiny") == (2, 2)
