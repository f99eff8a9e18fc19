"""`diff`: what differs between two releases, and that nothing else does."""
from __future__ import annotations

import copy
import hashlib
import json
import random
import re
import shutil
import subprocess
from pathlib import Path
from typing import Any, Callable, Dict, List

import link_tables
import pytest
from cases_of_program import TOP, accepted
from conftest import Run
from telegrams import ALONE, FAULTY, FIRST, MESSAGE, OTHER, SECOND

from balisekit.engine.program import Program, Text
from balisekit.etcs.differences import ADDED, REMOVED, align, differences
from balisekit.io import csv_writing

Write = Callable[..., Path]
Form = Any
LINE = TOP / "examples" / "table" / "line.csv"
LINKS = TOP / "examples" / "links"
NONE = (
    "groups added 0, removed 0; telegrams and messages added 0, removed 0, changed 0, in fill or case alone 0; "
    "findings new 0, gone 0"
)


def header(identity: int, position: int, total: int, *packets: Form) -> Form:
    """A telegram that `encode` reads."""
    return link_tables.telegram(identity, position, total, 1, *packets)


def texts(program: Program, forms: List[Form]) -> List[str]:
    """The digits of these telegrams."""
    return [one.line if isinstance(one, Text) else "" for one in program.encode(forms)]


@pytest.fixture(scope="module")
def rows(program: Program) -> List[List[str]]:
    """The rows of 412 groups of two balises."""
    forms = [
        header(number, place, 1, link_tables.linking(1, link_tables.link(1000, number + 1, 1)))
        for number in range(412)
        for place in (0, 1)
    ]
    return [[f"G{place // 2}", text] for place, text in enumerate(texts(program, forms))]


def written(table: Write, rows: List[List[str]], name: str) -> Path:
    """A table of these rows."""
    return table(content=csv_writing.text(["group", "telegram"], rows).encode(), name=name)


def test_two_of_824(run: Run, table: Write, rows: List[List[str]], program: Program) -> None:
    """Two entries with their fields. Groups can be in any order."""
    changed = [list(row) for row in rows]
    for place, distance in ((10, 1010), (501, 990)):
        number = place // 2
        form = header(number, place % 2, 1, link_tables.linking(1, link_tables.link(distance, number + 1, 1)))
        changed[place][1] = texts(program, [form])[0]
    groups = [changed[place : place + 2] for place in range(0, len(changed), 2)]
    random.Random(1).shuffle(groups)
    status, out, _ = run(
        "diff", written(table, rows, "old.csv"), written(table, [row for group in groups for row in group], "new.csv")
    )
    entries = [line for line in out if line.startswith("changed: ")]
    assert status == 1 and len(entries) == 2
    fields = {line.strip() for line in out if line.startswith("    ")}
    assert fields == {
        "packet 5 (linking, nominal), first in the telegram  link 0  D_LINK 1000 m [1000] -> 1010 m [1010]",
        "packet 5 (linking, nominal), first in the telegram  link 0  D_LINK 1000 m [1000] -> 990 m [990]",
    }
    first = "changed: G5  (group 5 of country or region 352)  position 0  rows 12 and "
    assert any(one.startswith(first) for one in entries)
    same = sorted(row[1] for place, row in enumerate(rows) if place not in (10, 501))
    digest = hashlib.sha256("".join(f"{one}\n" for one in same).encode()).hexdigest()
    assert f"unchanged: 822, SHA-256 {digest}" in out


def test_nothing_differs(run: Run) -> None:
    status, out, _ = run("diff", LINKS / "line.csv", LINKS / "line.csv")
    assert status == 0 and out[-1] == NONE and out[-2].startswith("unchanged: 6, SHA-256 ")
    assert not any("yes" in line for line in out)


def test_the_checksum_of_what_is_unchanged(run: Run, table: Write) -> None:
    """A known value, whatever the order of rows, the names and the case; and what has changed has no part in it."""
    known = "unchanged: 3, SHA-256 00a934565634729121c447381cbb6299" "40aaf3a9d9d9fb3b73e15622b8ff3d7a"
    lines = ["group,telegram", f"A,{ALONE}", f"B,{OTHER.upper()}"]
    old, radio = table(*lines, name="old.csv"), table(f"{MESSAGE.upper()};one", name="m.txt")
    beside = ("--old-messages", radio, "--new-messages", radio)
    status, out, _ = run("diff", old, old, *beside)
    assert (status, out[-2]) == (0, known)
    other = table("telegram,km,group", f"{OTHER.upper()},7,Q", f"{ALONE},5,P", name="other.csv")
    assert run("diff", old, other, *beside)[1][-2] == run("diff", other, old, *beside)[1][-2] == known
    more = table(*lines, f"C,{FIRST}", f"C,{SECOND}", name="more.csv")
    assert run("diff", old, more, *beside)[1][-2] == run("diff", more, old, *beside)[1][-2] == known
    texts_of_it = sorted(one.lower().encode() + b"\n" for one in (ALONE, OTHER, MESSAGE))
    by_tool = subprocess.run(["sha256sum"], input=b"".join(texts_of_it), stdout=subprocess.PIPE, check=True).stdout
    assert known.endswith(by_tool.decode().split()[0])
    nothing = table("group,telegram", f"C,{FIRST}", f"C,{SECOND}", name="nothing.csv")
    assert run("diff", old, nothing)[1][-2] == f"unchanged: 0, SHA-256 {hashlib.sha256().hexdigest()}"


def test_a_document_is_as_its_table(run: Run, tmp_path: Path) -> None:
    """The document that `check` has written, with its aspects by their indices."""
    run("check", LINE, "--document", tmp_path / "line.json")
    status, out, _ = run("diff", LINE, tmp_path / "line.json")
    lacks = "the content of what was refused is not compared, names of aspects and messages are not compared"
    assert status == 2 and out[-1] == f"INCOMPLETE: {lacks}; " + NONE.replace("removed 0;", "removed 1;", 1)
    run("check", LINKS / "line.csv", "--document", tmp_path / "links.json")
    for old, new in (("line.csv", "links.json"), ("links.json", "line.csv"), ("links.json", "links.json")):
        paths = [tmp_path / name if name == "links.json" else LINKS / name for name in (old, new)]
        status, out, _ = run("diff", *paths)
        assert status == 0 and not any(line.startswith("note: ") for line in out)  # (it has no names)


def test_fill_and_case(run: Run, table: Write) -> None:
    old = table("group,telegram", f"A,{ALONE}", f"B,{OTHER}", name="old.csv")
    fill = ALONE[:-2] + "00"
    status, out, _ = run("diff", old, table("group,telegram", f"A,{fill}", f"B,{OTHER.upper()}", name="new.csv"))
    assert [line for line in out if line.startswith("changed")] == [
        "changed in fill or case alone: A  (group 1 of country or region 1)  position 0  rows 2 and 2",
        "changed in fill or case alone: B  (group 3 of country or region 1)  position 0  rows 3 and 3",
    ]
    assert status == 1 and "changed 0, in fill or case alone 2" in out[-1]


def test_another_kilometre_is_noted(run: Run, table: Write) -> None:
    """Of a group that of the first balise with another one. It is no difference."""
    old, new = (
        table("group,km,telegram", f"A,10.000,{FIRST}", f"A,{km},{SECOND}", name=f"{km}.csv")
        for km in ("10.003", "10.004")
    )
    status, out, _ = run("diff", old, new)
    assert status == 0 and [line for line in out if line.startswith("note: ")] == [
        "note: A  (group 1 of country or region 1): km 10.003 -> 10.004"
    ]


@pytest.mark.parametrize(
    "changes, notes",
    [
        ({"A,A1": "A,A2", "A,A2": "A,A1"}, [", row 2: balise A1 -> A2"]),
        ({"A,A2": "A,"}, [", row 3: balise A2 -> none"]),
        ({"rising": "falling"}, [": nominal rising -> falling"]),
        ({"10.003,Up": "10.004,Down", "10.000,Up": "10.000,Down"}, [": km 10.003 -> 10.004", ": track Up -> Down"]),
    ],
)
def test_cells_beside_telegrams_are_noted(run: Run, table: Write, changes: Dict[str, str], notes: List[str]) -> None:
    """Of each column the first one that differs, in any aspect and balise. They are no difference."""
    lines = [
        "group,name,aspect,km,track,nominal,telegram",
        f"A,A1,red,10.000,Up,rising,{FIRST}",
        f"A,A2,red,10.003,Up,rising,{SECOND}",
        f"A,A1,green,10.000,Up,rising,{FIRST}",
        f"A,A2,green,10.003,Up,rising,{SECOND}",
    ]
    changed = [next((line.replace(*one) for one in changes.items() if one[0] in line), line) for line in lines]
    old, new = table(*lines, name="old.csv"), table(*changed, name="new.csv")
    status, out, _ = run("diff", old, new)
    group = "A  (group 1 of country or region 1)"
    assert status == 0 and [line for line in out if line.startswith("note: ")] == [f"note: {group}{it}" for it in notes]


def test_what_is_refused_is_not_compared(run: Run, table: Write) -> None:
    old = table("group,telegram", f"A,{ALONE}", f"A,{FAULTY}", name="old.csv")
    status, out, _ = run("diff", old, old)
    assert status == 2 and out[-1] == "INCOMPLETE: the content of what was refused is not compared; " + NONE
    assert [one.split(":")[0] for one in out if one.startswith("refused")] == ["refused in old", "refused in new"]


def test_groups_telegrams_and_aspects(run: Run, table: Write, program: Program) -> None:
    a, b, c, d = texts(program, [header(1, 0, 1), header(1, 1, 1), header(2, 0, 0), header(3, 0, 0)])
    old = table("group,aspect,telegram", f"A,*,{a}", f"A,red,{b}", f"B,,{c}", name="old.csv")
    new = table("group,aspect,telegram", f"A1,*,{a}", f"A1,red,{b}", f"A1,green,{b}", f"C,,{d}", name="new.csv")
    status, out, _ = run("diff", old, new)
    assert status == 1 and out[3:-1] == [
        "note: A1  (group 1 of country or region 352): name A -> A1",
        "group removed: B  (group 2 of country or region 352)",
        "group added: C  (group 3 of country or region 352)",
        'added: A1  (group 1 of country or region 352)  aspect "green"  position 1  row 4',
        *[line for line in out if line.startswith(("finding", "    program", "unchanged: 2, "))],
    ]
    assert "groups added 1, removed 1; telegrams and messages added 1, removed 0, changed 0" in out[-1]
    assert "removed 1, changed 0" in run("diff", new, old)[1][-1]


def test_a_fixed_telegram_that_is_written_out(run: Run, table: Write, program: Program) -> None:
    a, b = texts(program, [header(1, 0, 1), header(1, 1, 1)])
    old = table("group,aspect,telegram", f"A,*,{a}", f"A,red,{b}", f"A,green,{b}", name="old.csv")
    new = table("group,aspect,telegram", f"A,red,{a}", f"A,red,{b}", f"A,green,{a}", f"A,green,{b}", name="new.csv")
    assert run("diff", old, new)[0] == run("diff", new, old)[0] == 0


def test_a_position_that_was_wrong(run: Run, table: Write, program: Program) -> None:
    a, b = texts(program, [header(1, 0, 1), header(1, 1, 1)])
    old = table("group,telegram", f"A,{a}", f"A,{a}", name="old.csv")
    status, out, _ = run("diff", old, table("group,telegram", f"A,{a}", f"A,{b}", name="new.csv"))
    assert status == 1 and "    N_PIG first of the group [0] -> second of the group [1]" in out
    said = "N_PIG is 0 instead of 1: the table has the balise as the second of its group"
    assert f"finding gone: row 3  A  balise (N_PIG 0): {said}" in out
    assert "    program: F1 group 0 balise 1: position wrong" in out


def test_findings_keep_their_packet(run: Run, table: Write, program: Program) -> None:
    """A packet that is put in before moves the finding's number, and no finding is new or gone for that."""
    cover = {"nid_packet": 0, "nid_vbcmk": 3}
    level = link_tables.items()[5][4]["packets"][0]
    old, new = texts(program, [header(1, 0, 0, cover), header(1, 0, 0, level, cover)])
    status, out, _ = run(
        "diff", table("group,telegram", f"A,{old}", name="old.csv"), table("group,telegram", f"A,{new}", name="new.csv")
    )
    assert status == 1 and out[-1].endswith("findings new 0, gone 0")
    assert any(
        "packet 41 (level transition order), first in the telegram  added: NID_PACKET level transition order [41]"
        in one
        for one in out
    )


def test_messages(run: Run, table: Write) -> None:
    line = table("group,telegram", f"A,{ALONE}", name="line.csv")
    other = MESSAGE.replace("0480000019", "048000001a", 1)
    old = table(f"{MESSAGE};one", f"{MESSAGE};two", name="old.txt")
    new = table(f"{MESSAGE};three", f"{other};one", name="new.txt")
    status, out, _ = run("diff", line, line, "--old-messages", old, "--new-messages", new)
    assert status == 1 and [one for one in out if one.startswith(("added", "removed", "changed"))] == [
        "removed: message of line 2  two",
        "added: message of line 1  three",
        "changed: message of line 2  one  rows 1 and 2",
    ]
    assert any(one.startswith("    T_TRAIN 1.00 s [100] -> ") for one in out)


def test_json(run: Run, tmp_path: Path) -> None:
    status, _, _ = run("diff", LINKS / "line.csv", LINKS / "group-passed-over.csv", "--json", tmp_path / "out.json")
    answer = json.loads((tmp_path / "out.json").read_text("utf-8"))
    assert status == answer["status"] == 1 and answer["unchanged"]["count"] == 5
    assert [one["kind"] for one in answer["changed"][0]["changes"]] == ["removed", "changed"]


def changes(old: List[Form], new: List[Form]) -> List[str]:
    """What differs between two lists of packets."""
    return list(map(str, differences({"packets": old}, {"packets": new})))


def test_a_list_that_grew_shows_its_new_item() -> None:
    link, linking = link_tables.link, link_tables.linking
    old = [linking(1, link(1450, 3, 1), link(1600, 4, 1), link(900, 5, 1))]
    new = [linking(1, link(1450, 3, 1), link(1200, 9, 0), link(400, 4, 1), link(900, 5, 1))]
    said = changes(old, new)
    assert len(said) == 2
    assert said[0].startswith(
        "packet 5 (linking, nominal), first in the telegram  link 1  added: D_LINK 1200 m [1200]  NID_BG 9"
    )
    assert said[1] == "packet 5 (linking, nominal), first in the telegram  link 2  D_LINK 1600 m [1600] -> 400 m [400]"
    said = changes(new, old)
    assert len(said) == 2
    assert said[0].startswith(
        "packet 5 (linking, nominal), first in the telegram  link 1 of the old release  removed: D_LINK 1200 m"
    )


def test_units_and_scales() -> None:
    old = link_tables.linking(1, link_tables.link(100, 3, 1))
    assert changes([old], [{**old, "q_scale": 2}]) == [
        "packet 5 (linking, nominal), first in the telegram  Q_SCALE 1 m [1] -> 10 m [2]",
        "packet 5 (linking, nominal), first in the telegram  link 0  D_LINK 100 m [100] -> 1000 m [100]",
    ]


def test_parts_that_come_and_go() -> None:
    packet = link_tables.authority()[0]
    more = {**packet, "overlap": {"d_startol": 300, "t_ol": 60, "d_ol": 200, "v_releaseol": 126}}
    assert changes([packet], [more]) == [
        "packet 12 (movement authority of level 1, nominal), first in the telegram  overlap  added: "
        "D_STARTOL 300 m [300]  T_OL 60 s [60]  D_OL 200 m [200]  V_RELEASEOL calculated on board [126]"
    ]
    assert "overlap  removed: " in changes([more], [packet])[0]
    link = link_tables.linking(1, {**link_tables.link(1, 2, 1), "nid_c": 7})
    assert changes([link], [link_tables.linking(1, link_tables.link(1, 2, 1))]) == [
        "packet 5 (linking, nominal), first in the telegram  link 0  NID_C 7 -> none"
    ]


def test_packets_are_paired_by_number_direction_and_order() -> None:
    one, two, three = ({"nid_packet": 68, "q_dir": 1, "l_packet": 31, "body": body} for body in ("00", "7f", "55"))
    said = changes([one, two, three], [two, three])
    assert [change.split("  ")[0] for change in said] == [
        "packet 68 (track condition, balisekit's own layout), first in the telegram of the old release"
    ]
    cover = {"nid_packet": 0, "nid_vbcmk": 1}
    assert changes([one, cover], [cover, one]) == ["the packets stand in another order"]
    assert changes([one], [{**one, "q_dir": 2}]) == [
        "packet 68 (track condition, both directions, balisekit's own layout), first in the telegram  "
        "Q_DIR nominal [1] -> both directions [2]"
    ]


def test_cases_of_the_program_differ_from_others_alone() -> None:
    """No form differs from itself, and each one differs from the next one unless they are equal."""
    forms = [json.loads(case.answer) for case in accepted()[:300]]
    for one, other in zip(forms, forms[1:]):
        assert differences(one, copy.deepcopy(one)) == []
        assert bool(differences(one, other)) == (one != other)


@pytest.mark.uncovered
def test_alignment_keeps_both_lists() -> None:
    hypothesis = pytest.importorskip("hypothesis")
    st = hypothesis.strategies
    items = st.lists(
        st.fixed_dictionaries({"a": st.integers(0, 3), "b": st.integers(0, 3), "c": st.integers(0, 9)}), max_size=7
    )

    def tried(old: List[Form], new: List[Form], at: int) -> None:
        pairs = align(old, new)
        assert [one for one, _ in pairs if one is not None] == list(range(len(old)))
        assert [other for _, other in pairs if other is not None] == list(range(len(new)))
        grown = [*old[:at], {"a": 9, "b": 9, "c": 9}, *old[at:]]
        assert [pair for pair in align(old, grown) if pair[0] is None] == [(None, min(at, len(old)))]
        assert [pair for pair in align(grown, old) if pair[1] is None] == [(min(at, len(old)), None)]

    hypothesis.given(items, items, st.integers(0, 7))(tried)()
    assert {ADDED, REMOVED} == {"added", "removed"}


@pytest.mark.parametrize(
    "content, why",
    [
        (b"{", "it is no document that can be read: "),
        (b"{}", "/groups is no list: it is no document of a line"),
        (b'{"groups": [], "messages": [], "x": 1}', "it has the keys groups, messages, x"),
        (b'{"groups": [{"balises": []}], "messages": []}', "/groups/0: each aspect has equally many balises"),
        (
            b'{"groups": [{"balises": ["a", 1]}], "messages": []}',
            "/groups/0/balises/1 is no text of hexadecimal digits",
        ),
        (b'{"groups": [7], "messages": []}', "/groups/0/balises is no list"),
        (
            b'{"groups": [{"aspects": [{"balises": ["a"]}, {"balises": ["a", "b"]}]}], "messages": []}',
            "/groups/0: each aspect has equally many balises",
        ),
        (b'{"groups": [], "messages": {}}', "/messages is no list"),
        (b"[" * 100_000, "row 1: "),
        (b'{"a":' * 100_000, "it is no document that can be read: "),
        (b"\xff\xfe\0\0", "it is UTF-32"),
        (b"", "the table is empty: it needs a row with the headings group and telegram"),
    ],
    ids=lambda value: repr(value)[:60],  # (a program is started with the name of the test in its environment)
)
def test_bad_input(run: Run, table: Write, content: bytes, why: str) -> None:
    bad = table(content=content or b"\n", name="bad")
    for words in ((bad, LINKS / "line.csv"), (LINKS / "line.csv", bad)):
        status, out, err = run("diff", *words)
        assert (status, out, len(err)) == (2, [], 1) and err[0].startswith(f"balisekit: {bad}: {why}"), err


def test_files_that_cannot_be_read_or_written(run: Run, tmp_path: Path) -> None:
    line = LINKS / "line.csv"
    assert run("diff", line)[0] == run("diff", line, tmp_path)[0] == run("diff", tmp_path / "none", line)[0] == 2
    assert run("diff", line, line, "--html", tmp_path)[0] == 3
    assert run("diff", line, line, "--html", "-", "--json", "-")[0] == 2
    assert run("diff", line, line, "--program", "/bin/false", "--html", tmp_path / "x.html")[0] == 3
    run("check", line, "--document", tmp_path / "line.json")
    assert run("diff", tmp_path / "line.json", line, "--old-messages", line)[0] == 2
    assert sorted(path.name for path in tmp_path.iterdir()) == ["line.json"]


def test_the_page(run: Run, table: Write, tmp_path: Path) -> None:
    """It has all that was said, needs no network, and makes no tag of a name; a browser has nothing to say of it."""
    pytest.importorskip("jinja2")
    name = "<script>alert(1)</script>&\"'\u202e"
    text = (LINKS / "distance-differs.csv").read_text("utf-8")
    rows = [line.split(",") for line in text.splitlines()]
    named = csv_writing.text(rows[0], [[name if row[0] == "A" else row[0], *row[1:]] for row in rows[1:]])
    new, page = table(content=named.encode(), name="new.csv"), tmp_path / "diff.html"
    status, out, _ = run("diff", LINKS / "line.csv", new, "--html", page)
    said = page.read_text("utf-8")
    assert status == 1 and "<script" not in said and "\u202e" not in said and "&lt;script&gt;" in said
    assert "<tr><td>packet 5 (linking, nominal), first in the telegram  link 0</td><td>D_LINK</td>" in said
    assert "1010 m [1010]" in said and out[-1] in said and "not proved" in said
    assert not re.search(r"https?://|<img|<link", said)
    if shutil.which("chromium") is None:
        pytest.skip("tests of balisekit in a browser (chromium)")
    done = subprocess.run(
        [
            "chromium",
            "--headless",
            "--no-sandbox",
            "--disable-gpu",
            "--disable-dev-shm-usage",
            f"--user-data-dir={tmp_path / 'profile'}",
            "--host-resolver-rules=MAP * ~NOTFOUND",
            "--enable-logging=stderr",
            "--dump-dom",
            page.as_uri(),
        ],
        capture_output=True,
        text=True,
        timeout=300,
        check=True,
    )
    assert "CONSOLE" not in done.stderr and "Differences between two releases" in done.stdout
