"""`balisekit check` from outside: its answers, its statuses, and that it never gives a yes for a part."""
from __future__ import annotations

import gc
import hashlib
import html
import json
import os
import subprocess
import weakref
from importlib.util import find_spec
from pathlib import Path
from typing import Callable, Iterator, List, Union

import line_table
import pytest
from conftest import Run, without_program
from telegrams import ALONE, FAULTY, FIRST, MESSAGE, OTHER, SECOND, SPARE, account

from balisekit.engine.grammar import Refusal
from balisekit.engine.program import Program, Record
from balisekit.present import explanations as explain
from balisekit.present.formats.document import LACKING
from balisekit.rules import checking
from balisekit.rules.accepted import RULES
from balisekit.tables.reader import read

Write = Callable[..., Path]
TOP = Path(__file__).resolve().parents[2]
HEADING = "group,name,km,aspect,telegram"
SOUND = [HEADING, f"Signal A,A1,13.850,,{FIRST}", f"Signal A,A2,13.853,,{SECOND}", f"Signal B,B1,15,,{OTHER}"]
ASPECTS = "aspects found: 1 in {} groups"
YES = 'program: "yes: groups 2, messages 0"'
STARTED = [str(TOP / "balisekit")]
"""The start script, as a process of its own."""


def test_yes(run: Run, table: Write) -> None:
    path = table(*SOUND)
    assert run("check", "--only", "F", path) == (
        0,
        [f"{path}: 3 telegrams of 2 groups", ASPECTS.format(2), account(3), YES],
        [],
    )


def test_findings(run: Run, table: Write) -> None:
    status, out, _ = run("check", "--only", "F", table(*SOUND, f"Signal C,C1,16,,{OTHER}"))
    assert status == 1 and out[1:] == [
        "at worst a wrong position of the train:",
        "row 5  Signal C  km 16.000: the identity 1/3 (NID_C/NID_BG) is also that of Signal B (km 15.000), row 4",
        "    program: F14 group 2: identity used before",
        "1 finding: F14 1; 2 of 3 groups without finding",
        ASPECTS.format(3),
        account(4),
        'program: "no: findings 1"',
    ]


def test_refused(run: Run, table: Write) -> None:
    status, out, _ = run("check", "--only", "F", table(HEADING, f"A,A1,13.850,green,{FAULTY}", f"B,,,,{ALONE}"))
    assert status == 2 and out[1:] == [
        'row 2  A  km 13.850  aspect "green"  balise "A1" (first of its group): Q_DIR of packet 21 (second packet) is '
        "3, which is spare",
        "    program: spare at 127 end 129",
        "left out: row 2  A  km 13.850: refused: row 2",
        ASPECTS.format(2),
        "account: 2 telegrams in the file; 1 judged, 1 refused, 0 not judged; rows 2 to 3",
        "INCOMPLETE: 1 of 2 telegrams refused, 1 of 2 groups left out",
    ]


def test_all_refused_and_nothing_is_checked(run: Run, table: Write, tmp_path: Path) -> None:
    status, out, _ = run("check", table(HEADING, f"A,,,,{SPARE}"), "--json", tmp_path / "out.json")
    answer = json.loads((tmp_path / "out.json").read_text())
    assert status == 2 == answer["status"] and answer["rest"] is None and "verdict" not in answer
    assert not any("yes:" in line for line in out)


def test_a_yes_of_the_rest_is_none(run: Run, table: Write, tmp_path: Path) -> None:
    status, out, _ = run("check", table(*SOUND, f"Signal C,,,,{SPARE}"), "--json", tmp_path / "out.json")
    assert status == 2 and out[-1].startswith("INCOMPLETE: ") and not any("yes:" in line for line in out)
    assert json.loads((tmp_path / "out.json").read_text())["rest"] == "yes: groups 2, messages 0"


def test_messages(run: Run, table: Write) -> None:
    path = table(*SOUND)
    radio = table(f"{MESSAGE};to train 7", f"{MESSAGE[:-2]};cut", "0400c0", MESSAGE[1:], name="messages.txt")
    status, out, _ = run("check", path, "--messages", radio)
    assert status == 2 and out[1:3] == [
        "message of line 2  cut: L_MESSAGE is 18, but the message has 17 bytes",
        "    program: length at 8 end 18",
    ]
    assert "message of line 3: NID_MESSAGE is 4: only 3 and 136 are read" in out
    odd = "it has 35 digits, an odd number: a digit is missing, or one too many; a message 3 begins with 03"
    assert f"message of line 4: {odd}" in out
    said = "no packet 21 (gradient profile) and no packet 27 (international static speed profile) with packet 15 ("
    said += "movement authority of levels 2 and 3)"
    expected = "expected if the profiles were sent before"
    assert f"message of line 1  to train 7  nominal: {said}; {expected}" in out
    assert out[-1] == (
        "INCOMPLETE: 0 of 3 telegrams refused, 3 of 4 messages refused, 0 of 2 groups left out; "
        "findings in the rest: 2"
    )


def test_by_position(run: Run, table: Write) -> None:
    path = table(HEADING, f"A,,,,{SECOND}", f"A,,,,{FIRST}")
    assert run("check", "--only", "F", path)[0] == 1
    status, out, _ = run("check", "--only", "F", path, "--by-position")
    assert (status, out[1:]) == (
        0,
        [
            "note: --by-position orders balises by N_PIG, which hides a wrong N_PIG",
            "aspects found: 1 in 1 group",
            account(2),
            'program: "yes: groups 1, messages 0"',
        ],
    )


def test_at_most_three_groups_with_one_number_of_aspects_are_named(run: Run, table: Write) -> None:
    for count, names in ((3, " (A, B, C)"), (4, "")):
        rows = [f"{name},x,{ALONE}" for name in "ABCD"[:count]]
        path = table("group,aspect,telegram", *rows, f"E,x,{ALONE}", f"E,y,{ALONE}")
        assert run("check", "--only", "F", path)[1][-3] == f"aspects found: 2 in 1 group (E), 1 in {count}{names}"


def test_aspects_are_counted(run: Run, table: Write, tmp_path: Path) -> None:
    path = table(
        "group,aspect,telegram",
        f"A,x,{ALONE}",
        f"A,y,{ALONE}",
        f"B,,{OTHER}",
        f"C,x,{ALONE}",
        f"C,y,{ALONE}",
        f"D,x,{SPARE}",
        f"D,y,{SPARE}",
        f"D,z,{SPARE}",
    )
    _, out, _ = run("check", "--only", "F", path, "--json", tmp_path / "out.json")
    assert out[-3] == "aspects found: 3 in 1 group (D), 2 in 2 (A, C), 1 in 1 (B)"
    assert json.loads((tmp_path / "out.json").read_text())["counts"]["aspects"] == [
        {"aspects": 3, "groups": 1},
        {"aspects": 2, "groups": 2},
        {"aspects": 1, "groups": 1},
    ]


def lines_of(kinds: str) -> List[str]:
    """A table of groups of these kinds: their names have the letters of their aspects."""
    rows = [f"{name},{aspect},{ALONE}" for name in kinds.split() for aspect in name.split(":")[1] or "*"]
    return ["group,aspect,telegram", *rows]


@pytest.mark.parametrize(
    "kinds, said",
    [
        ("A:ryg B:yg", ['look: B:yg has 2 aspects, 1 other group has 3: it lacks "r"']),
        ("A:ryg B:r C:ryg D:", ['look: B:r has 1 aspect, 2 other groups have 3: it lacks "g", "y"']),
        (
            "A:ryg B:ryg C:ryg D:ryg E:rg F:rg G:rg",
            [f'look: {name}:rg has 2 aspects, 4 other groups have 3: it lacks "y"' for name in "EFG"],
        ),
        ("A:ryg B:ryg C:ryg D:ryg E:rg F:rg G:rg H:rg", []),
        ("A:ryg B:ryg C:ryx D:rgx E:rx", []),
        (
            "A:rygw B:rygw C:rg D:rg E:rg F:rg G:xy H:xy I:rgw",
            ['look: I:rgw has 3 aspects, 2 other groups have 4: it lacks "y"'],
        ),
        ("A: B:ryg C:x D:", []),
        ("A:ryg B:ryx", []),
    ],
)
def test_fewer_aspects_than_others(run: Run, table: Write, tmp_path: Path, kinds: str, said: List[str]) -> None:
    """A remark before the count, and no more: verdict and status are as without it."""
    _, out, _ = run("check", "--only", "F", table(*lines_of(kinds)), "--json", tmp_path / "out.json")
    assert [line for line in out if line.startswith("look: ")] == said == out[-3 - len(said) : -3]
    assert json.loads((tmp_path / "out.json").read_text())["counts"]["look"] == said
    assert out[-1].startswith("program: ")


def test_a_remark_on_aspects_changes_no_yes(run: Run, table: Write) -> None:
    status, out, _ = run(
        "check",
        table("group,aspect,telegram", *[f"A,{one},{ALONE}" for one in "xyz"], *[f"B,{one},{OTHER}" for one in "xy"]),
    )
    assert status == 0 and out[-5:] == [
        'look: B has 2 aspects, 1 other group has 3: it lacks "z"',
        "aspects found: 3 in 1 group (A), 2 in 1 (B)",
        "no kilometres: rules over the line are not applied",
        account(5),
        'program: "yes: groups 2, messages 0"',
    ]


@pytest.mark.parametrize(
    "rows, said",
    [
        (["A1,13.850", "A2,13.950"], []),
        (["A1,", "A2,13.950"], []),
        (["A1,13.850", "A2,13.9501"], ['row 2 "A1" (km 13.850) and row 3 "A2" (km 13.9501) are 100.1 m apart by km']),
        (["A1,18.850", "A2,13.850"], ['row 2 "A1" (km 18.850) and row 3 "A2" (km 13.850) are 5000 m apart by km']),
        ([",-1", ",1"], ["row 2 (km -1.000) and row 3 (km 1.000) are 2000 m apart by km"]),
    ],
)
def test_balises_far_apart(run: Run, table: Write, tmp_path: Path, rows: List[str], said: List[str]) -> None:
    """A remark, on the cover of a report as well: verdict and status are as without it."""
    lines = [f"A,{row},{one},{text}" for one in "xy" for row, text in zip(rows, (FIRST, SECOND))]
    path = table(HEADING, *lines)
    status, out, _ = run("check", "--only", "F", path, "--json", tmp_path / "out.json")
    looks = [f"look: A: {one}" for one in said]
    yes = [account(4), 'program: "yes: groups 1, messages 0"']
    assert status == 0 and out[1:] == [*looks, "aspects found: 2 in 1 group", *yes]
    assert json.loads((tmp_path / "out.json").read_text())["counts"]["look"] == looks
    if find_spec("jinja2"):
        assert run("report", "--only", "F", path, "--html", tmp_path / "out.html")[0] == 0
        page = html.unescape((tmp_path / "out.html").read_text("utf-8"))
        assert [line for line in page.splitlines() if "look: " in line] == [f"<p><bdi>{one}</bdi></p>" for one in looks]


@pytest.mark.parametrize(
    "telegram, said, program",
    [
        ("0" * 86, "it is coded (341 bits in 86 digits): export user bits", "wrong size"),
        ("0" * 256, "it is coded (1023 bits in 256 digits): export user bits", "wrong size"),
        ("0" * 50, "it has 50 digits, 4 short of 54: a short telegram has 54, a long one 208", "wrong size"),
        (ALONE[:-1], "it has 53 digits, 1 short of 54: a short telegram has 54, a long one 208", "not hexadecimal"),
        ("0" * 201, "it has 201 digits, 7 short of 208: a short telegram has 54, a long one 208", "not hexadecimal"),
        ("0" * 210, "it has 210 digits, 2 more than 208: a short telegram has 54, a long one 208", "wrong size"),
        ("O" + ALONE[1:], 'character 1 is "O", no hexadecimal digit', "not hexadecimal"),
        ("\u0430" + ALONE[1:], 'character 1 is "\u0430" (U+0430), no hexadecimal digit', "not hexadecimal"),
        (ALONE[:-1] + "1", "the last 6 bits are not all 0: the text has to end with zeros", "pad bits set"),
        ("90" + ALONE[2:], "M_VERSION is 16 (1.0): only 32 (2.0) and 33 (2.1) are read", "version at 1 end 8"),
        ("a180" + ALONE[4:], "Q_MEDIA is 1: it is for a loop, not for a balise", "loop at 8 end 9"),
        ("2" + ALONE[1:], "Q_UPDOWN is 0: it goes from train to track", "down-link at 0 end 1"),
        (SPARE, "M_DUP is 3, which is spare", "spare at 15 end 17"),
        (
            "a1007f802000c5501bc0001fe0".ljust(52, "f") + "c0",
            "L_PACKET of packet 21 (first packet) is 55, but its fields have 54 bits",
            "length at 60 end 104",
        ),
        (
            "a1007f802000cb200b".ljust(54, "0"),
            "L_PACKET of packet 44 (first packet) is 22, less than the 23 bits of its head",
            "length at 60 end 73",
        ),
        (
            "a1007f802000cb2050".ljust(54, "0"),
            "no packet 255 after packet 44: the packets end at bit 210",
            "no end at 210 end 210",
        ),
        (
            "a1007f802000cb205080".ljust(54, "0"),
            "body of packet 44 (first packet) needs 138 bits, and 137 are left",
            "short at 73 end 210",
        ),
    ],
)
def test_refusals_in_sentences(run: Run, table: Write, telegram: str, said: str, program: str) -> None:
    status, out, _ = run("check", table("group,telegram", f"A,{telegram}"))
    assert (
        status == 2
        and out[1].startswith(f"row 2  A  balise (first of its group): {said}")
        and out[2] == f"    program: {program}"
    )


def test_a_cell_of_100000_characters(run: Run, table: Write) -> None:
    """As a telegram it is the program's to refuse; of a heading that is passed over the beginning is shown."""
    path = table(f"group,telegram,{'x' * 100_000}", f"A,{'a' * 100_000},x")
    status, out, _ = run("check", path)
    assert status == 2 and out[1] == f"columns passed over: {'x' * 1000}"
    assert out[2:4] == [
        "row 2  A  balise (first of its group): it has 100000 digits, 99792 more than 208: a short telegram has 54, "
        "a long one 208",
        "    program: wrong size",
    ]


@pytest.mark.parametrize(
    "name, shown",
    [
        ("<script>alert(1)</script>", "<script>alert(1)</script>"),
        ("a & 'b'", "a & 'b'"),
        ("=1+1", "=1+1"),
        ("a\x1b[2Jb", "a\\x1b[2Jb"),
        ("a\u202eb", "a\\u202eb"),
        ("\ufeffx", "\\ufeffx"),
    ],
)
def test_names_are_safe_to_show(run: Run, table: Write, name: str, shown: str) -> None:
    path = table("group,name,aspect,track,km,telegram", f"{name},{name},{name},{name},1,{SPARE}")
    where = f'row 2  {shown}  km 1.000  track {shown}  aspect "{shown}"  balise "{shown}" (first of its group)'
    words = f"{where}: M_DUP is 3, which is spare"
    for command in (["check"], ["show"], ["links"], ["draw", "--group", name]):
        _, out, err = run(command[0], path, *command[1:])
        assert any(words in line for line in [*out, *err]), command
        assert not {"\x1b", "\u202e", "\ufeff"} & set("".join([*out, *err]))


def test_json_has_all_of_the_answer(run: Run, program: Program, table: Write, tmp_path: Path) -> None:
    path = table(*SOUND, f"Signal C,C1,16,,{SPARE}", f"Signal D,,,,{OTHER}")
    run("check", path, "--messages", table(f"{MESSAGE};x", name="messages.txt"), "--json", tmp_path / "out.json")
    answer = json.loads((tmp_path / "out.json").read_text())
    assert [(one["row"], one["form"]["nid_bg"]) for one in answer["telegrams"]] == [(2, 1), (3, 1), (4, 3), (6, 3)]
    assert answer["read_messages"][0]["form"]["t_train"] == 100
    assert [(one["row"], one["line"], one["first_row_of_run"]) for one in answer["refused"]] == [
        (5, "refused: line 4: spare at 15 end 17", 2)
    ]
    assert answer["left_out"] == [{"group": "Signal C", "rows": [5], "why": "refused: row 5"}]
    assert [one["line"] for one in answer["findings"]] == [
        "F14 group 2: identity used before",
        "F10 message 0 nominal: no gradient",
        "F12 message 0 nominal: no speed profile",
    ]
    assert answer["findings"][0]["earlier_group"] == "Signal B" and answer["rest"] == "no: findings 3"
    assert answer["table"]["sha256"] == hashlib.sha256(path.read_bytes()).hexdigest()
    assert answer["program"]["sha256"] == hashlib.sha256(Path(program.path).read_bytes()).hexdigest()


def test_json_needs_each_telegram_decoded_once(
    run: Run, table: Write, tmp_path: Path, monkeypatch: pytest.MonkeyPatch
) -> None:
    decoded: List[str] = []
    decode = Program.decode

    def counted(self: Program, lines: List[str]) -> Iterator[Union[Record, Refusal]]:
        decoded.extend(lines)
        return decode(self, lines)

    monkeypatch.setattr(Program, "decode", counted)
    assert run("check", "--only", "F", table(*SOUND), "--json", tmp_path / "out.json")[0] == 0
    assert decoded == [FIRST, SECOND, OTHER]


def test_an_answer_is_freed_without_a_search_for_cycles(table: Write, program: Program) -> None:
    """`main` searches for none."""
    gc.disable()
    try:
        checked = checking.check(program, read(str(table(*SOUND, f"Signal C,C1,16,,{OTHER}"))))
        read_table = weakref.ref(checked.table)
        del checked
        assert read_table() is None
    finally:
        gc.enable()


def test_document(run: Run, table: Write, tmp_path: Path, program: Program) -> None:
    run(
        "check",
        table("group,aspect,telegram", f"A,x,{ALONE}", f"A,y,{ALONE}", f"B,,{OTHER}"),
        "--document",
        tmp_path / "line.json",
    )
    document = json.loads((tmp_path / "line.json").read_text())
    assert document == {
        "groups": [{"aspects": [{"balises": [ALONE]}, {"balises": [ALONE]}]}, {"balises": [OTHER]}],
        "messages": [],
    }


def test_a_document_without_refused_telegrams(run: Run, table: Write, tmp_path: Path) -> None:
    """A line before the account warns that a yes for it is not a yes for the table."""
    target = tmp_path / "line.json"
    status, out, _ = run("check", table("group,telegram", f"A,{ALONE}", f"B,{OTHER[:-1]}1"), "--document", target)
    assert status == 2 and json.loads(target.read_text())["groups"] == [{"balises": [ALONE]}]
    assert out[-3] == LACKING and out[-1].startswith("INCOMPLETE: ")
    for path in (table("group,telegram", f"A,{ALONE}"), table("group,telegram", f"A,{ALONE}", f"B,{ALONE}")):
        assert LACKING not in run("check", path, "--document", target, "--force")[1]


def test_explain_of_a_rule(run: Run, tmp_path: Path, monkeypatch: pytest.MonkeyPatch) -> None:
    """Its whole page is written, unless a file has its name, or an option is given that a page does not use."""
    monkeypatch.chdir(tmp_path)
    for name in ["F1", "F16", *RULES]:
        status, out, _ = run("check", "--explain", name)
        assert status == 0 and out[0].startswith(f"{name}: ") and sum(each.startswith(name) for each in out) == 1
    status, out, _ = run("check", "--explain", "E9")
    heads = [*explain.WHOLE]
    assert [head for line in out for head in heads if line.startswith(f"    {head}.")] == heads
    assert run("check", "--explain", "E999")[0] == run("check", "E9")[0] == 2
    unused = ["--json=j", "--messages=m", "--only=F", "--tolerance=3", "--skip-column=old", "--by-position", "--force"]
    for word in unused:
        said = f"balisekit: {word.partition('=')[0]} is not used with the page of a rule"
        assert run("check", "--explain", "E9", word) == (2, [], [said])
    assert run("check", "--explain", "E9", "--debug") == (0, out, [])


def test_explain_of_a_table_with_the_name_of_a_rule(
    run: Run, table: Write, tmp_path: Path, monkeypatch: pytest.MonkeyPatch
) -> None:
    """Its findings would get no line and no status if it was taken for the rule."""
    monkeypatch.chdir(tmp_path)
    table("group,telegram", f"A,{SPARE}", name="e9")
    said = "e9 is a file and the name of a rule: write ./e9 for the file, or ask for the page in another folder"
    assert run("check", "e9", "--explain") == (2, [], [f"balisekit: {said}"])
    assert run("check", "./e9", "--explain")[1][-1] == run("check", "e9")[1][-1]
    assert run("check", "E9", "--explain")[0] == 0


def test_explain_is_what_the_document_says(run: Run, table: Write) -> None:
    known = explain.explanations()
    parts = {"name", *explain.KEYS}
    assert sorted(known) == list(range(1, 17))
    assert all(set(page) == parts and all(page.values()) for page in known.values())
    _, out, _ = run("check", table(*SOUND, f"C,,,,{OTHER}"), "--explain")
    assert "F14: identity used before" in out and any("How to correct it. Give one" in line for line in out)


def test_after_too_many_refused(run: Run, table: Write, monkeypatch: pytest.MonkeyPatch) -> None:
    monkeypatch.setattr(checking, "GREATEST_REFUSED", 3)
    rows = [f"G{place},{SPARE}" for place in range(5)]
    status, out, _ = run("check", table("group,telegram", *rows))
    assert status == 2
    assert out[-1] == "INCOMPLETE: 3 of 5 telegrams refused, 5 of 5 groups left out, 2 rows not looked at"
    assert run("check", table("group,telegram", *rows), "--all")[1][-1].startswith("INCOMPLETE: 5 of 5 telegrams")


def test_after_too_many_refused_messages(
    run: Run, table: Write, monkeypatch: pytest.MonkeyPatch, tmp_path: Path
) -> None:
    monkeypatch.setattr(checking, "GREATEST_REFUSED", 3)
    path = table(*SOUND)
    radio = table(MESSAGE, *["0304"] * 3, MESSAGE, "0304", name="messages.txt")
    status, out, _ = run("check", path, "--messages", radio, "--json", tmp_path / "out.json")
    assert status == 2 and "and 2 messages not looked at: --all continues" in out
    assert out[-1] == (
        "INCOMPLETE: 0 of 3 telegrams refused, 3 of 6 messages refused, 0 of 2 groups left out, "
        "2 messages not looked at; findings in the rest: 2"
    )
    assert json.loads((tmp_path / "out.json").read_text())["counts"]["messages_not_looked_at"] == 2
    assert "4 of 6 messages refused" in run("check", path, "--messages", radio, "--all")[1][-1]
    status, out, _ = run("show", "--messages", radio)
    assert status == 2 and "and 2 messages not looked at: --all continues" in out
    assert "not looked at" not in "".join(run("show", "--messages", radio, "--all")[1])


@pytest.mark.parametrize("target", ["folder", "none/file", "device"])
def test_targets_that_cannot_be_written(run: Run, table: Write, tmp_path: Path, target: str) -> None:
    (tmp_path / "folder").mkdir()
    path = Path("/dev/full") if target == "device" else tmp_path / target
    status, out, err = run("check", table(*SOUND), "--json", path)
    assert (status, out, len(err)) == (3, [], 1) and err[0].startswith(f"balisekit: {path}: ")


def test_a_target_that_is_named_twice(run: Run, table: Write, tmp_path: Path) -> None:
    """Wrong words: one answer would be lost."""
    path, out = table(*SOUND), tmp_path / "out"
    for one, two in (("--document", "--json"), ("--propose", "--junit")):
        status, _, err = run("check", path, one, out, two, f"{tmp_path}/./out")
        assert (status, len(err)) == (2, 1) and err[0].endswith("out: it is named twice")
    for words in (["check", path, "--json", "-", "--junit", "-"], ["diff", path, path, "--json", "-", "--html", "-"]):
        assert run(*words) == (2, [], ["balisekit: standard output is named twice"])
    assert not out.exists()


def test_nothing_half_written(run: Run, table: Write, tmp_path: Path) -> None:
    run("check", table("group,telegram", ",00"), "--json", tmp_path / "out.json")
    run("check", table(*SOUND), "--program", "/bin/false", "--document", tmp_path / "line.json")
    assert sorted(path.name for path in tmp_path.iterdir()) == ["table.csv"]


@pytest.mark.parametrize(
    "path, said",
    [
        ("/bin/false", "/bin/false is not the program that this version knows"),
        ("/none", "there is no program /none"),
        ("/tmp", "there is no program /tmp"),
        ("/etc/passwd", "there is no program /etc/passwd"),
    ],
)
def test_no_program(run: Run, table: Write, path: str, said: str) -> None:
    assert run("check", table(*SOUND), "--program", path) == (3, [], [f"balisekit: {said}"])


def test_a_killed_program(run: Run, table: Write, tmp_path: Path) -> None:
    stand = tmp_path / "stand"
    usage = "refused: usage is balisecheck check, decode [--radio] or encode [--radio]"
    stand.write_text(
        "#!/bin/sh\ncase $1 in\ncheck) echo 'yes: groups 0, messages 0' ;;\n"
        f"--version) echo '{usage}'; exit 2 ;;\n*) kill -9 $$ ;;\nesac\n"
    )
    stand.chmod(0o755)
    status, out, err = run("check", table(*SOUND), "--program", stand, "--json", tmp_path / "out.json")
    assert (status, out) == (3, []) and err == [f"balisekit: no answer of {stand}: decode: killed by signal 9"]
    assert not (tmp_path / "out.json").exists()


def test_columns_that_are_passed_over_are_listed(run: Run, table: Write) -> None:
    _, out, _ = run("check", table("group,telegram,Remark,a\x1bb", f"A,{ALONE},x,y"))
    assert out[1] == "columns passed over: Remark, a\\x1bb"


def test_a_heading_that_may_be_mistyped(run: Run, table: Write, tmp_path: Path) -> None:
    """It is passed over, and the known heading is suggested, unless the table has that one too."""
    path = table("group,telegram,Aspct,nominl,ballise,KMs,trak,names,Remark,Telegrams", f"A,{ALONE},a,b,c,d,e,f,g,h")
    said = (
        'columns passed over: Aspct (did you mean "aspect"?), nominl (did you mean "nominal"?), ballise (did you '
        'mean "balise"?), KMs (did you mean "km"?), trak (did you mean "track"?), names (did you mean "name"?), '
        "Remark, Telegrams"
    )
    assert run("check", path, "--json", tmp_path / "out.json")[1][1] == said
    assert json.loads((tmp_path / "out.json").read_text())["table"]["passed_over"][:2] == ["Aspct", "nominl"]
    pytest.importorskip("jinja2")
    run("report", path, "--html", tmp_path / "r.html")
    assert said in html.unescape((tmp_path / "r.html").read_text())


def test_a_heading_that_is_skipped_was_not_mistyped(run: Run, table: Write) -> None:
    """Nothing is suggested in place of it. Another heading that is passed over still gets its suggestion."""
    path = table("group,telegram,km,nominl", f"A,{ALONE},1.000,rising")
    out = run("check", path, "--skip-column", "KM")[1]
    assert 'columns passed over: km, nominl (did you mean "nominal"?)' in out


def test_a_traceback_is_for_debug_alone(run: Run, table: Write, monkeypatch: pytest.MonkeyPatch) -> None:
    path = table("group,telegram", ",00")
    status, out, err = run("check", path, "--debug")  # (the status stays: 1 would be that of findings)
    assert (status, out, err[0]) == (2, [], "Traceback (most recent call last):")
    assert err[-1] == f"balisekit: {path}: row 2, column group: no group; fill merged cells"

    def wrong(*_: object) -> None:
        raise RuntimeError("wrong")

    monkeypatch.setattr(checking, "check", wrong)
    status, out, err = run("check", table(*SOUND))
    assert (status, out, err) == (
        3,
        [],
        ["balisekit: an error of balisekit itself, RuntimeError: wrong; --debug shows " "where it comes from"],
    )


def test_wrong_words(run: Run) -> None:
    assert run("check")[0] == run("nothing")[0] == 2 and run("--help")[0] == 0


def test_example(run: Run, monkeypatch: pytest.MonkeyPatch, program: Program) -> None:
    monkeypatch.chdir(TOP)
    status, out, _ = run("check", "examples/table/line.csv")
    stored = (TOP / "examples/table/line.txt").read_text("utf-8").splitlines()
    assert status == 2 and out == [stored[0], *stored[3:]] and without_program(stored[1]) == "balisecheck"
    assert line_table.table(program) == line_table.LINE.read_text("utf-8")


def test_start_script(table: Write, tmp_path: Path) -> None:
    link = tmp_path / "link"
    os.symlink(TOP / "balisekit", link)
    words: List[str] = [str(link), "check", str(table(*SOUND))]
    done = subprocess.run(words, cwd=tmp_path, stdout=subprocess.PIPE, check=False)
    assert (done.returncode, done.stdout.decode().splitlines()[-1]) == (0, YES)


FULL = "balisekit: standard output or a temporary file: No space left on device\n"
CLOSED = "balisekit: standard output was closed\n"


@pytest.mark.parametrize(
    "words, streams, unbuffered, status, said",
    [
        ("check table.csv", ">/dev/full", "", 3, FULL),
        ("show table.csv", ">/dev/full", "1", 3, FULL),
        ("check table.csv", ">&-", "", 3, CLOSED),
        ("check table.csv --json -", "2>/dev/full", "1", 3, ""),
        ("check none", "2>/dev/full", "", 2, ""),
        ("check none", "2>&-", "", 2, ""),
    ],
)
def test_streams_that_take_nothing(
    words: str, streams: str, unbuffered: str, status: int, said: str, table: Write, tmp_path: Path
) -> None:
    """One line, if a stream can take it, and in no other stream. The status is never that of a yes or a finding."""
    table(*SOUND)
    done = subprocess.run(
        ["sh", "-c", f'exec "$@" {streams}', "sh", *STARTED, *words.split()],
        cwd=tmp_path,
        text=True,
        env={**os.environ, "PYTHONUNBUFFERED": unbuffered},
        capture_output=True,
        check=False,
    )
    assert (done.returncode, done.stderr) == (status, said) and "balisekit: " not in done.stdout


def test_a_reader_that_has_gone(table: Write) -> None:
    path = str(table(*SOUND))
    for words in (["check", path], ["--help"]):
        reads, writes = os.pipe()
        os.close(reads)
        with open(writes, "wb") as out:
            done = subprocess.run(
                [*STARTED, *words],
                stdout=out,
                stderr=subprocess.PIPE,
                text=True,
                check=False,
                env={**os.environ, "PYTHONUNBUFFERED": ""},
            )
        assert (done.returncode, done.stderr) == (3, CLOSED)


def test_exchanged_telegrams_are_one_entry(run: Run, table: Write, tmp_path: Path) -> None:
    """The two balises of a group with three aspects, and of one without aspects. No line of the program is left out."""
    rows = [
        f"Signal B,{name},15,{aspect},{text}"
        for aspect in ("red", "yellow", "green")
        for name, text in (("B2", SECOND), ("B1", FIRST))
    ]
    path = table(HEADING, f"Signal A,A1,14,,{SECOND}", f"Signal A,A2,14,,{FIRST}", *rows)
    run("check", path, "--json", tmp_path / "out.json")
    answer = json.loads((tmp_path / "out.json").read_text("utf-8"))
    out = run("check", path)[1]
    said = "their telegrams or their rows look exchanged: N_PIG is 1 and 0 instead of 0 and 1"
    assert [line for line in out if line.endswith(said)] == [
        f'rows 2 to 3  Signal A  km 14.000  balises "A1" (N_PIG 1), "A2" (N_PIG 0): {said}',
        f'rows 4 to 9  Signal B  km 15.000  every aspect  balises "B2" (N_PIG 1), "B1" (N_PIG 0): {said}',
    ]
    quoted = [line[len("    program: ") :] for line in out if line.startswith("    program: ")]
    assert sorted(quoted) == sorted(one["line"] for one in answer["findings"]) and len(quoted) > 16
    entry = answer["entries"][1]
    assert (entry["rule"], entry["rules"], entry["rows"]) == ("F1", ["F1", "F4"], [4, 5, 6, 7, 8, 9])
    assert entry["values"] == {"N_PIG": "1, 0", "wanted_N_PIG": "0, 1"} and len(entry["program"]) == 12


def _said(out: List[str], rule: str) -> List[str]:
    """The words above each line of the program about this rule."""
    return [line for line, below in zip(out, out[1:]) if below.startswith(f"    program: {rule} ")]


def test_what_differs_is_told(run: Run, table: Write, tmp_path: Path) -> None:
    """F1, F2 and F3 with the numbers of the program's JSON, in words and for other tools."""
    for name, rule, wanted in (
        (
            "position-wrong",
            "F1",
            "balise (N_PIG 0): N_PIG is 0 instead of 1: the table has the balise as the second of its group",
        ),
        ("total-wrong", "F2", "balise (N_PIG 0): N_TOTAL + 1 says 1 balise, and the table has 2"),
        ("identity-differs", "F3", "balise (N_PIG 1): NID_BG is 2, and 1 in balise (N_PIG 0), row 2"),
    ):
        document = json.loads((TOP / "examples" / "check" / f"{name}.json").read_text())
        path = table("group,telegram", *[f"A,{text}" for text in document["groups"][0]["balises"]])
        _, out, _ = run("check", path, "--force", "--json", tmp_path / "out.json")
        (one,) = json.loads((tmp_path / "out.json").read_text("utf-8"))["findings"]
        assert _said(out, rule) == [one["words"]] and one["words"].endswith(f"  A  {wanted}")
        assert wanted.endswith(f": {one['differs']}") and one["line"].endswith(one["name"])


def test_each_value_that_differs_is_told(run: Run, table: Write, program: Program) -> None:
    """Against balise 0 of the first aspect, with the names of values."""
    form = json.loads((TOP / "examples" / "header-only.json").read_text())
    other = {**form, "m_version": 32, "nid_c": 7, "q_link": 1 - form["q_link"]}
    texts = [one.line for one in program.encode([form, other])]
    out = run("check", table("group,aspect,telegram", f"A,red,{texts[0]}", f"A,green,{texts[1]}"))[1]
    flags = ("linked", "unlinked") if other["q_link"] else ("unlinked", "linked")
    (said,) = _said(out, "F3")
    assert said.endswith(
        f'M_VERSION is 32 (2.0), and 33 (2.1); NID_C is 7, and {form["nid_c"]}; Q_LINK is {other["q_link"]} '
        f'({flags[0]}), and {form["q_link"]} ({flags[1]}) in balise (N_PIG 0) of aspect "red", row 2'
    )


def test_the_rows_of_an_aspect_and_no_others(run: Run, table: Write, program: Program) -> None:
    """Rows of other aspects can be between the fixed balise and the switched one."""
    forms = [
        line_table.telegram(1, 0, 1, 255),
        line_table.telegram(1, 1, 1, 1),
        line_table.telegram(1, 1, 1, 2, line_table.authority(100, 100)),
    ]
    fixed, red, green = [one.line for one in program.encode(forms)]
    rows = [f"A,{aspect},{text}" for aspect, text in (("*", fixed), ("red", red), ("green", green))]
    for order, wanted in (((0, 1, 2), "rows 2 and 4"), ((0, 2, 1), "rows 2 to 3")):
        out = run("check", table("group,aspect,telegram", *[rows[place] for place in order]))[1]
        (said,) = _said(out, "F10")
        assert said.startswith(
            f'{wanted}  A  aspect "green"  nominal: no packet 21 (gradient profile) and no packet 27 ('
        )


def test_a_missing_balise_renumbers_the_others(run: Run, table: Write) -> None:
    """The number in the table is given in addition to the program's, and the position that no telegram has."""
    out = run("check", table("group,name,balise,telegram", f"A,A2,2,{SECOND}"))[1]
    assert _said(out, "F1") == [
        'row 2  A  balise "A2" (N_PIG 1, number 2 in the table): N_PIG is 1 instead of 0: the table has the balise as '
        "the first of its group"
    ]
    assert _said(out, "F2") == [
        'row 2  A  balise "A2" (N_PIG 1, number 2 in the table): N_TOTAL + 1 says 2 balises, and the table has 1: none '
        "has N_PIG 0"
    ]
    out = run("check", table("group,balise,telegram", f"A,0,{FIRST}", f"A,1,{SECOND}", f"A,2,{SECOND}"))[1]
    assert "in the table)" not in "".join(out)


def test_what_is_not_whole_counts_its_findings(run: Run, table: Write) -> None:
    """The last line does not quote a yes for the rest."""
    rows = ["group,telegram", f"A,{SPARE}", f"B,{OTHER}"]
    wanted = "INCOMPLETE: 1 of {} telegrams refused, 1 of {} groups left out"
    assert run("check", table(*rows))[1][-1] == wanted.format(2, 2)
    assert run("check", table(*rows, f"C,{OTHER}"))[1][-1] == wanted.format(3, 3) + "; findings in the rest: 1"
