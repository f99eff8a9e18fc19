"""Hostile inputs of `show` and `diff`: what they state of places, and what they call equal."""
from __future__ import annotations

import io
import json
import re
from pathlib import Path
from typing import Any, Callable, Dict, Iterator, List, Tuple

import link_tables
import pytest
from conftest import Run
from telegrams import ALONE, FAULTY, FIRST, MESSAGE, OTHER, SECOND, SPARE

from balisekit.engine.program import Program, Report, Text

Form = Any
Write = Callable[..., Path]
GRADIENTS: Form = {
    "nid_packet": 21,
    "q_dir": 1,
    "q_scale": 1,
    "elements": [{"d_gradient": 0, "q_gdir": 1, "g_a": 5}, {"d_gradient": 1000, "q_gdir": 0, "g_a": 255}],
}
BOTH_WAYS = {**GRADIENTS, "q_dir": 2}
INFILL: Form = {"nid_packet": 136, "q_dir": 1, "l_packet": 38, "body": "00ca"}
OWN = "reaches 1000 m, km 11.000"
ELSEWHERE = "infill: counted from the group of packet 136; reaches 1000 m"
UNREAD = "counted from this group, or from the group of a packet 136 in a telegram that is not read; reaches 1000 m"


def packets(position: int, counter: int, *forms: Form) -> Form:
    """A long telegram of a group of two balises."""
    return {**link_tables.telegram(1, position, 1, 1, *forms, size=830), "m_mcount": counter}


def duplicate(position: int, *forms: Form) -> Form:
    """One of two balises that are duplicates of each other."""
    return {**packets(position, 255, *forms), "m_dup": position + 1}


def written(program: Program, table: Write, rows: List[Tuple[str, Any]]) -> Path:
    """A table of a group at km 10.000, whose kilometres rise. A text stands for itself."""
    texts = iter(
        [
            one.line
            for one in program.encode([form for _, form in rows if not isinstance(form, str)])
            if isinstance(one, Text)
        ]
    )
    lines = []
    for row, form in rows:
        position = row.split(",")[1]
        text = form if isinstance(form, str) else next(texts)
        lines.append(f"G,{row},10.00{position},{text}")
    return table("group,aspect,balise,km,telegram", *lines)


RED, GREEN = ("red,0", packets(0, 1)), ("green,0", packets(0, 2, INFILL))
PLACES: List[Tuple[str, List[Tuple[str, Any]], List[str]]] = [
    (
        "a row of every aspect, behind a packet 136 in one of them",
        [RED, GREEN, ("*,1", packets(1, 255, GRADIENTS))],
        [
            f'aspect "red": {OWN}; aspect "green": {ELSEWHERE}',
            'aspect "red": from 0 m, km 10.000; aspect "green": from 0 m',
        ],
    ),
    (
        "the same in the other order of rows",
        [GREEN, RED, ("*,1", packets(1, 255, GRADIENTS))],
        [
            f'aspect "green": {ELSEWHERE}; aspect "red": {OWN}',
            'aspect "green": from 0 m; aspect "red": from 0 m, km 10.000',
        ],
    ),
    (
        "behind a packet 136 in every aspect",
        [("red,0", packets(0, 1, INFILL)), GREEN, ("*,1", packets(1, 255, GRADIENTS))],
        [ELSEWHERE, "from 0 m"],
    ),
    (
        "a packet in both directions, behind a packet 136 in nominal direction",
        [("*,0", packets(0, 255, INFILL)), ("*,1", packets(1, 255, BOTH_WAYS))],
        [f"nominal: {ELSEWHERE}; reverse: reaches 1000 m, km 9.000", "nominal: from 0 m; reverse: from 0 m, km 10.000"],
    ),
    (
        "aspect and direction",
        [RED, GREEN, ("*,1", packets(1, 255, BOTH_WAYS))],
        [
            'aspect "red": reaches 1000 m, km 11.000 (nominal), km 9.000 (reverse); '
            f'aspect "green" nominal: {ELSEWHERE}; aspect "green" reverse: reaches 1000 m, km 9.000'
        ],
    ),
    (
        "a refused telegram is passed first, which may have a packet 136",
        [("red,0", FAULTY), GREEN, ("*,1", packets(1, 255, GRADIENTS))],
        [f'aspect "red": {UNREAD}; aspect "green": {ELSEWHERE}', "from 0 m"],
    ),
    (
        "duplicates that both have packet 136 before their gradients",
        [("*,0", duplicate(0, INFILL, GRADIENTS)), ("*,1", duplicate(1, INFILL, GRADIENTS))],
        [f"{ELSEWHERE} (twice)"],
    ),
    (
        "duplicates that both have packet 136 behind their gradients",
        [("*,0", duplicate(0, GRADIENTS, INFILL)), ("*,1", duplicate(1, GRADIENTS, INFILL))],
        [f"{OWN} (twice)"],
    ),
    (
        "a refused telegram that is passed behind it",
        [("*,0", packets(0, 255, GRADIENTS)), ("red,1", FAULTY)],
        [OWN, "from 0 m, km 10.000"],
    ),
]


@pytest.mark.parametrize("rows, wanted", [case[1:] for case in PLACES], ids=[case[0] for case in PLACES])
def test_places(run: Run, table: Write, program: Program, rows: List[Tuple[str, Any]], wanted: List[str]) -> None:
    """`show` and `report` state from where distances count, in each aspect and direction."""
    path = written(program, table, rows)
    _, out, _ = run("show", path)
    shown = re.sub(r"\s+", " ", " ".join(out))
    assert all(is_noted(note, shown) for note in wanted), shown
    pytest.importorskip("jinja2")
    _, out, _ = run("report", path, "--html", "-")
    page = re.sub(r"\s+", " ", " ".join(out)).replace("&#34;", '"')
    assert all(is_noted(note, page) for note in wanted)


def is_noted(note: str, text: str) -> bool:
    """Whether a text has this note, or has it twice."""
    return text.count(f" = {note.removesuffix(' (twice)')}") == 1 + note.endswith(" (twice)")


def test_places_of_standard_input(run: Run, monkeypatch: pytest.MonkeyPatch, program: Program) -> None:
    """What follows a packet 136 in its own telegram counts from another group."""
    telegram = next(iter(program.encode([packets(0, 1, GRADIENTS, INFILL, GRADIENTS)])))
    standard_input(monkeypatch, telegram.line.encode())
    status, out, _ = run("show")
    assert status == 0 and sum("= infill: counted from the group of packet 136" in line for line in out) == 1


def standard_input(monkeypatch: pytest.MonkeyPatch, content: bytes) -> None:
    """Puts this content on standard input."""
    monkeypatch.setattr("sys.stdin", io.TextIOWrapper(io.BytesIO(content)))


def document(group: Any, messages: Any = ()) -> Form:
    """A document of a group."""
    return {"groups": [group], "messages": list(messages)}


BROKEN: List[Tuple[Any, str]] = [
    (
        {"balises": [OTHER], "aspects": [{"balises": [ALONE]}]},
        "/groups/0 has the keys balises, aspects, and aspects has",
    ),
    ({"balises": [ALONE], "x": 1}, "/groups/0 has the keys balises, x, and balises has to be the only key"),
    ({"aspects": [{"balises": [ALONE], "x": 1}]}, "/groups/0/aspects/0 has the keys balises, x, and balises has"),
    ({"aspects": []}, "/groups/0: each aspect has equally many balises, one to 8"),
    ({"balises": [ALONE] * 9}, "/groups/0: each aspect has equally many balises, one to 8"),
    ({"balises": ["zz"], "x": 1}, "/groups/0 has the keys balises, x, and balises has to be the only key"),
]
"""Groups of a document that the program refuses."""
TWICE = Path(__file__).with_name("keys_twice.txt")
"""Documents that have a key twice, with this key."""
ENCODED = "or with a byte order mark: save it as UTF-8 without one"
DOCUMENTS: List[Tuple[bytes, str]] = [
    *((json.dumps(document(group)).encode(), why) for group, why in BROKEN),
    (json.dumps({**document({"balises": [ALONE]}), "x": 1}).encode(), "it has the keys groups, messages, x"),
    *(
        (json.dumps(document({"balises": [ALONE]})).encode(encoding), f"it is a document in {name} {ENCODED}")
        for encoding, name in (
            ("utf-16", "utf-16"),
            ("utf-16-le", "utf-16"),
            ("utf-16-be", "utf-16"),
            ("utf-8-sig", "utf-8"),
        )
    ),
    (b'{"groups":[{"balises":["\xff"]}],"messages":[]}', f"it is a document in windows-1252 {ENCODED}"),
    (b'{"groups":[{"balises":["\\ud800"]}],"messages":[]}', "program: refused: not JSON"),
    (b'{"groups":[],"messages":[]}\x0b', "it is no document that can be read"),
    (b'{"groups":[],"messages":[],"messages":[]}\x0b', "an object has the key messages twice"),
    (b'{"groups":[],"messages":["\t"]}', "it is no document that can be read"),
    (b'{"groups":[],"messages":["\x7f", NaN]}', "/messages/1 is no text of hexadecimal digits"),
]


@pytest.mark.parametrize("content, why", DOCUMENTS)
def test_documents_that_the_program_refuses(run: Run, table: Write, content: bytes, why: str) -> None:
    """They are no release that could be equal to another one."""
    bad, good = table(content=content, name="bad.json"), table("group,telegram", f"A,{ALONE}", name="good.csv")
    for words in ((bad, good), (good, bad), (bad, bad)):
        status, out, err = run("diff", *words)
        assert (status, out, len(err)) == (2, [], 1) and err[0].startswith(f"balisekit: {bad}: {why}"), err


@pytest.mark.parametrize("line", TWICE.read_text("utf-8").splitlines()[1:])
def test_a_key_twice(line: str, run: Run, table: Write, program: Program) -> None:
    """The program takes the last value, and another reader might see another railway line: balisekit refuses it."""
    key, _, text = line.replace("ALONE", ALONE).replace("OTHER", OTHER).partition(" ")
    bad, good = table(content=text.encode(), name="bad.json"), table("group,telegram", f"A,{ALONE}", name="good.csv")
    assert isinstance(program.check(text.encode()), Report)
    for words in ((bad, good), (good, bad), (bad, bad)):
        status, out, err = run("diff", *words)
        why = f"an object has the key {key} twice: the program takes the last value, others the first"
        assert (status, out, err) == (2, [], [f"balisekit: {bad}: {why}"])


@pytest.mark.uncovered
def test_equal_documents_are_those_of_the_program(run: Run, table: Write, program: Program) -> None:
    """No document that the program refuses is equal to itself."""
    hypothesis = pytest.importorskip("hypothesis")
    st = hypothesis.strategies
    texts = st.sampled_from([ALONE, OTHER, ALONE.upper(), f" {ALONE}", "", "zz", 7, None])
    balises = st.fixed_dictionaries(
        {"balises": st.lists(texts, max_size=3)}, optional={"x": st.none(), "aspects": st.none()}
    )
    groups = st.one_of(balises, st.fixed_dictionaries({"aspects": st.lists(balises, max_size=2)}))
    documents = st.fixed_dictionaries(
        {
            "groups": st.lists(groups, max_size=2),
            "messages": st.lists(st.sampled_from([MESSAGE, "03", "", 1]), max_size=1),
        }
    )

    def tried(form: Form) -> None:
        path = table(content=json.dumps(form).encode(), name="tried.json")
        status, _, _ = run("diff", path, path)
        assert (status == 0) == isinstance(program.check(form), Report), form

    hypothesis.settings(max_examples=60)(hypothesis.given(documents)(tried))()


@pytest.mark.parametrize("text", [f"0x{ALONE}", f" {ALONE}", f"'{ALONE}'", f"{ALONE}h"])
def test_texts_of_a_document_are_not_cleaned(run: Run, table: Write, text: str) -> None:
    """What is cleaned in a cell is refused in a document, by `diff` as by the program."""
    old = table(content=json.dumps(document({"balises": [text]})).encode(), name="old.json")
    new = table(content=json.dumps(document({"balises": [ALONE]})).encode(), name="new.json")
    status, out, _ = run("diff", old, new)
    assert status == 2 and "    program: not hexadecimal" in out and out[-1].startswith("INCOMPLETE: ")


def of_aspects(counters: Dict[str, int], *telegrams: Form) -> List[Tuple[str, Form]]:
    """Rows of a single balise in these aspects."""
    return [
        (name, {**link_tables.telegram(1, 0, 0, 1, *telegrams), "m_mcount": counter})
        for name, counter in counters.items()
    ]


def rows_of(program: Program, rows: List[Tuple[str, str, Form]]) -> List[str]:
    """The lines of a table."""
    texts = program.encode([form for _, _, form in rows])
    return [f"{group},{aspect},{text.line}" for (group, aspect, _), text in zip(rows, texts)]


ORDERS: Dict[str, List[Tuple[str, str, Form]]] = {
    "counters of aspects (F16)": [("S", name, form) for name, form in of_aspects({"a": 1, "b": 2, "c": 1})],
    "an identity in the first aspect (F3)": [
        ("S", "a", {**link_tables.telegram(1, 0, 0, 1), "m_mcount": 1, "m_version": 32}),
        ("S", "b", {**link_tables.telegram(1, 0, 0, 1), "m_mcount": 2}),
        ("S", "c", {**link_tables.telegram(1, 0, 0, 1), "m_mcount": 3}),
    ],
    "duplicate flags of aspects (F15)": [
        ("S", "a", {**link_tables.telegram(1, 0, 0, 1), "m_mcount": 1, "m_dup": 1}),
        ("S", "b", {**link_tables.telegram(1, 0, 0, 1), "m_mcount": 2}),
        ("S", "c", {**link_tables.telegram(1, 0, 0, 1), "m_mcount": 3}),
    ],
    "two groups of one identity (F14)": [
        ("S", "", link_tables.telegram(1, 0, 0, 1)),
        ("T", "", link_tables.telegram(1, 0, 0, 1, GRADIENTS)),
    ],
}


@pytest.mark.parametrize("name", ORDERS)
def test_another_order_of_rows_is_no_difference(run: Run, table: Write, program: Program, name: str) -> None:
    """Findings are compared by what they are about, not by which of two comes first."""
    lines = rows_of(program, ORDERS[name])
    old = table("group,aspect,telegram", *lines, name="old.csv")
    new = table("group,aspect,telegram", *reversed(lines), name="new.csv")
    assert run("check", old)[0] == run("check", new)[0] == 1
    for words in ((old, new), (new, old)):
        status, out, _ = run("diff", *words)
        assert status == 0 and out[-1].endswith("findings new 0, gone 0"), out


def test_findings_in_another_order(run: Run, table: Write, program: Program) -> None:
    """What is new is found, and its line counts in the order of the old release."""
    lines = rows_of(program, [("S", name, form) for name, form in of_aspects({"a": 1, "b": 2, "c": 1, "d": 2})])
    old = table("group,aspect,telegram", *lines[:3], name="old.csv")
    new = table("group,aspect,telegram", *reversed(lines), name="new.csv")
    status, out, _ = run("diff", old, new)
    assert status == 1 and [line for line in out if line.startswith(("finding", "    program"))] == [
        'finding new: row 2  S  aspect "d"  balise (N_PIG 0): M_MCOUNT 2 is also that of aspect "b", row 4',
        "    program: F16 group 0 aspect 3 balise 0: aspects not told apart",
    ]
    assert any(line.startswith("note: ") and "in the order of the old release" in line for line in out)


NOTES = ("columns passed over: kilometer", 'note: groups "A" and "a" differ only in case or blanks')


def test_notes_on_the_tables_of_diff(run: Run, table: Write, tmp_path: Path) -> None:
    """A kilometre that is passed over is not compared. The notes of both tables are in text, JSON and HTML."""
    rows = [f"A,1.0,{ALONE}", f"a,2.0,{OTHER}"]
    old, new = table("group,kilometer,telegram", *rows, name="old.csv"), table("group,km,telegram", *rows)
    options = ("--json", tmp_path / "d.json", "--html", tmp_path / "d.html")
    status, out, _ = run("diff", old, new, *options)
    expected = [f"in old: {NOTES[0]}", f"in old: {NOTES[1]}", f"in new: {NOTES[1]}"]
    assert status == 0 and [line for line in out if line.startswith("in ")] == expected
    answer = json.loads((tmp_path / "d.json").read_text("utf-8"))
    assert (answer["old"]["notes"], answer["new"]["notes"]) == (list(NOTES), [NOTES[1]])
    assert f"<p>In old: <bdi>{NOTES[0]}</bdi></p>" in (tmp_path / "d.html").read_text("utf-8")


@pytest.mark.parametrize("words", [("show",), ("show", "--group", "A"), ("draw", "--group", "A", "--svg", "g.svg")])
def test_notes_on_the_table_of_show_and_draw(
    run: Run, table: Write, tmp_path: Path, monkeypatch: pytest.MonkeyPatch, words: Tuple[str, ...]
) -> None:
    monkeypatch.chdir(tmp_path)
    path = table("group,kilometer,telegram", f"A,1.0,{ALONE}", f"a,2.0,{OTHER}")
    assert set(NOTES) <= set(run(words[0], path, *words[1:])[1])


def test_show_by_position(run: Run, table: Write) -> None:
    """`show` orders balises as `check` does."""
    path = table("group,name,telegram", f"S,X,{SECOND}", f"S,Y,{FIRST}")
    _, out, _ = run("show", path, "--by-position")
    assert [line for line in out if line.startswith("row ")] == [
        'row 2  S  balise "X" (N_PIG 1)',
        'row 3  S  balise "Y" (N_PIG 0)',
    ]
    assert "note: --by-position orders balises by N_PIG, which hides a wrong N_PIG" in out
    assert [line for line in run("show", path)[1] if line.startswith("row ")] == [
        'row 2  S  balise "X" (N_PIG 1)',
        'row 3  S  balise "Y" (N_PIG 0)',
    ]


def incomplete(words: str) -> Tuple[str, str]:
    """The last lines of standard output and of standard error."""
    return f"INCOMPLETE: {words}", f"balisekit: INCOMPLETE: {words}"


REFUSED = [
    (["t.csv"], [f"A,{ALONE}", f"B,{SPARE}"], "", "1 of 2 telegrams refused"),
    (["t.csv", "--messages", "m.txt"], [f"A,{ALONE}"], f"{MESSAGE}\n0304\n", "1 of 2 messages refused"),
    (
        ["t.csv", "--messages", "m.txt"],
        [f"A,{SPARE}", f"B,{FAULTY}"],
        "0304\n",
        "2 of 2 telegrams refused, 1 of 1 messages refused",
    ),
    (["--messages", "m.txt"], [], "0304\n", "1 of 1 messages refused"),
    ([], [], f"{ALONE}\n{SPARE}\n", "1 of 2 telegrams refused"),
]


@pytest.mark.parametrize("words, rows, text, why", REFUSED)
@pytest.mark.parametrize("bits", [False, True])
def test_show_says_last_that_something_was_refused(
    run: Run,
    table: Write,
    monkeypatch: pytest.MonkeyPatch,
    words: List[str],
    rows: List[str],
    text: str,
    why: str,
    bits: bool,
) -> None:
    """In a last line, and on standard error."""
    folder = table("group,telegram", *rows, name="t.csv").parent
    monkeypatch.chdir(folder)
    table(content=text.encode() or b"\n", name="m.txt")
    standard_input(monkeypatch, text.encode())
    status, out, err = run("show", *words, *(["--bits"] if bits else []))
    assert (status, out[-1], err) == (2, *incomplete(why)[:1], [incomplete(why)[1]])


@pytest.mark.parametrize("content", [b"", b"\n", b" \r\n\t\n", b"\xef\xbb\xbf", b"\xff\xfe", b"\xff"[:0]])
def test_empty_standard_input(run: Run, monkeypatch: pytest.MonkeyPatch, content: bytes) -> None:
    """It is no answer that all is well."""
    standard_input(monkeypatch, content)
    why = "balisekit: standard input has no telegram: write one per line, or name a TABLE or --messages"
    assert run("show") == (2, [], [why])


class Endless(io.RawIOBase):
    """Standard input that counts what is read of it."""

    def __init__(self, line: bytes, lines: int) -> None:
        super().__init__()
        self.pieces: Iterator[bytes] = iter([line] * lines)
        self.read_lines = 0

    def readable(self) -> bool:
        return True

    def readinto(self, room: Any) -> int:
        piece = next(self.pieces, b"")
        self.read_lines += bool(piece)
        room[: len(piece)] = piece
        return len(piece)


def test_standard_input_is_read_as_a_stream(monkeypatch: pytest.MonkeyPatch, run: Run) -> None:
    """The first telegram is shown before the last one is read."""
    stream = Endless(f"{ALONE}\n".encode(), 50)
    monkeypatch.setattr("sys.stdin", io.TextIOWrapper(io.BufferedReader(stream, 64)))
    seen: List[int] = []
    monkeypatch.setattr("builtins.print", lambda *words, **_: seen.append(stream.read_lines))
    run("show")
    assert stream.read_lines == 50 and seen[0] < 10


def test_a_line_without_an_end(monkeypatch: pytest.MonkeyPatch, run: Run) -> None:
    """It is refused before it is read whole."""
    stream = Endless(b"0" * 64, 1 << 20)
    monkeypatch.setattr("sys.stdin", io.TextIOWrapper(io.BufferedReader(stream, 64)))
    status, _, err = run("show")
    assert (status, err) == (2, ["balisekit: standard input: line 1: it has more than 100,000 characters"])
    assert stream.read_lines < 5000


def test_a_document_and_a_table_are_paired_by_order(run: Run, table: Write, program: Program, tmp_path: Path) -> None:
    """Names that were exchanged in the table are no difference: a note says what is not compared, with status 2."""
    rows = rows_of(program, [("S", name, form) for name, form in of_aspects({"red": 1, "green": 2})])
    old, said = table("group,aspect,telegram", *rows, name="old.csv"), table(content=f"{MESSAGE}; radio\n".encode())
    named = [row.replace(",red,", ",x,").replace(",green,", ",red,").replace(",x,", ",green,") for row in rows]
    new = table("group,aspect,telegram", *named, name="new.csv")
    run("check", old, "--messages", said, "--document", tmp_path / "old.json")
    assert run("diff", old, new)[0] == 1
    note = (
        "a document has no names, so aspects and messages are paired by their order: names that were exchanged or "
        "given anew are not compared"
    )
    outputs = ("--json", tmp_path / "d.json", "--html", tmp_path / "d.html", "--force")
    for words in (
        (tmp_path / "old.json", new, "--new-messages", said),
        (new, tmp_path / "old.json", "--old-messages", said),
    ):
        status, out, _ = run("diff", *words, *outputs)
        assert status == 2 and f"note: {note}" in out and out[-1].endswith("findings new 0, gone 0"), out
        assert out[-1].startswith("INCOMPLETE: names of aspects and messages are not compared; groups added 0, ")
        assert note in json.loads((tmp_path / "d.json").read_text("utf-8"))["notes"]
        assert note in (tmp_path / "d.html").read_text("utf-8")
