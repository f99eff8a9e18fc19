"""Equal parts of telegrams of one balise are in a report once. With its links, each telegram is that of `show`."""
from __future__ import annotations

import csv
import re
from pathlib import Path
from typing import Any, Dict, List, Tuple

import pytest
from conftest import Run
from line_table import HEADING, LINE, authority, gradients, linking, speeds, telegram
from test_report_page import report

from balisekit.engine.program import Program, Text

pytestmark = pytest.mark.uncovered
TELEGRAM = re.compile(r"<details id=r(\d+)[^>]*>(?:(?!</details>).)*?</pre><pre>(.*?)</pre></details>", re.DOTALL)
EVERYTHING = re.compile(r"everything as in <a href=#r(\d+)>row \1</a>\n")
HEADER = re.compile(r"header\tas in <a href=#r(\d+)>row \1</a>(?:, but (.*)|, M_MCOUNT \d+ too)\n")
PACKET = re.compile(
    r"  packet (\d+, \d+\w\w)\t(NID_PACKET [^:\n]*): as (?:in|the (\d+)\w\w packet of) <a href=#r(\d+)>row \4</a>"
    r"(?:, but\n(.*))?\n",
    re.DOTALL,
)


def texts_of(page: str) -> Dict[int, str]:
    """The telegrams of a page in words, by their rows, with their tags."""
    return {int(row): text for row, text in TELEGRAM.findall(page)}


def parts_of(text: str) -> List[str]:
    """The header and the packets of a telegram in words."""
    return re.split(r"^(?=  packet )", text, flags=re.M)


def followed(texts: Dict[int, str]) -> Dict[int, str]:
    """The same telegrams, with each link replaced by what it leads to. No link leads to a later row."""
    whole: Dict[int, str] = {}
    for row, text in texts.items():
        same = EVERYTHING.fullmatch(text)
        parts = [] if same else parts_of(re.sub("</?mark[^>]*>", "", text))
        whole[row] = whole[int(same[1])] if same else "".join(part_at(part, whole) for part in parts)
    return whole


def part_at(part: str, whole: Dict[int, str]) -> str:
    """A header or packet, with its link replaced by what it leads to."""
    header, packet = HEADER.fullmatch(part), PACKET.fullmatch(part)
    if header:
        text = parts_of(whole[int(header[1])])[0]
        for other in (header[2] or "").split(" and ") if header[2] else ():
            text, count = re.subn(f"(?<=[\t ]){other.split()[0]} .*?(?=  |\n)", other, text)
            assert count == 1
        return text
    if packet:
        text = parts_of(whole[int(packet[4])])[int(packet[3] or packet[1].split()[1][:-2])]
        assert text.partition("\t")[2].startswith(packet[2])
        text = f"  packet {packet[1]}\t{text.partition(chr(9))[2]}"
        return changed(text, packet[5].split("\n")) if packet[5] else text
    assert "<a" not in part, part
    return part


def changed(text: str, lines: List[str]) -> str:
    """A packet with these values instead of its own, each in its line. Lines that it lacks come after its own."""
    found = [re.sub("\n\t", "  ", line) for line in re.split("\n(?!\t)", text[:-1])]
    for label, _, values in (line.partition("\t") for line in lines):
        place = next((at for at, line in enumerate(found) if line.partition("\t")[0] == label), len(found))
        place = 0 if not label else place
        if place == len(found):
            found.append(f"{label}\t{values}")
            continue
        for value in re.split("  (?!.*  = )(?=[A-Z=])|  (?=[A-Z])", values):
            name = value.split(" ")[0]
            found[place], count = re.subn(
                f"(?<=[\t ]){re.escape(name)} {'.*' if name == '=' else '.*?'}(?=  |$)",
                lambda _: value,
                found[place],
                count=1,
            )
            assert count == 1, (value, found[place])
    return "\n".join(found) + "\n"


def in_one_line(text: str) -> str:
    """A text whose lines are not broken: where they are depends on how long their values are."""
    return re.sub(r"\s+", " ", text)


def write(path: Path, program: Program, rows: List[Tuple[str, str, Any]]) -> Path:
    """A table of one group: aspect, balise and telegram of each row."""
    with open(path, "w", encoding="utf-8", newline="") as file:
        table = csv.writer(file)
        table.writerow(HEADING)
        for (aspect, balise, _), text in zip(rows, program.encode([row[2] for row in rows])):
            assert isinstance(text, Text)
            table.writerow(["Signal A", f"A{balise}", "12.300", aspect, balise, text.line])
    return path


def switched(counter: int, *packets: Any, identity: int = 101) -> Any:
    """A telegram of the switched balise."""
    return telegram(identity, 1, 1, counter, *packets)


@pytest.fixture
def alike(tmp_path: Path, program: Program) -> Path:
    """A signal with the same links and profiles in three aspects; two more have the telegrams of the first two.

    Another one has three other values in its header, and the last one the counter of the first aspect.
    """
    profiles, links = (gradients(12300, 3200), speeds(12300, 3200)), linking(0)
    yellow, green = (switched(speed // 80, *links, authority(1550, speed), *profiles) for speed in (120, 160))
    return write(
        tmp_path / "alike.csv",
        program,
        [
            ("*", "0", telegram(101, 0, 1, 255, *links)),
            ("yellow", "1", yellow),
            ("green", "1", green),
            ("slow", "1", switched(3, authority(1550, 40), *profiles, *links, identity=102)),
            ("fast", "1", green),
            ("late", "1", yellow),
            ("odd", "1", {**switched(4, *links, identity=103), "m_version": 32}),
            ("copied", "1", switched(1, *links)),
        ],
    )


def test_what_is_alike_is_said_once(run: Run, alike: Path) -> None:
    """Of one balise: packets of several lines, wherever they are, the header but its counter, and whole telegrams."""
    texts = texts_of(report(run, alike, "--only", "F"))
    assert not any("<a" in texts[row] for row in (2, 3)), "the other balise has the same links"
    header, packet = parts_of(texts[8])
    assert "<a" not in header and "M_MCOUNT 4  NID_C 352  NID_BG 103" in header and PACKET.fullmatch(packet)
    lines = [line for row in (4, 5, 6, 7, 9) for line in texts[row].split("\n")]
    links = [re.sub("</?a[^>]*>", "", line) for line in lines if "<a" in line]
    assert links == [
        "header\tas in row 3, but M_MCOUNT 2",
        "  packet 5, 1st\tNID_PACKET linking [5]: as in row 3",
        "  packet 12, 2nd\tNID_PACKET movement authority of level 1 [12]: as in row 3, but",
        "  packet 21, 3rd\tNID_PACKET gradient profile [21]: as in row 3",
        "  packet 27, 4th\tNID_PACKET international static speed profile [27]: as in row 3",
        "header\tas in row 3, but M_MCOUNT 3 and NID_BG 102",
        "  packet 12, 1st\tNID_PACKET movement authority of level 1 [12]: as the 2nd packet of row 3, but",
        "  packet 21, 2nd\tNID_PACKET gradient profile [21]: as the 3rd packet of row 3",
        "  packet 27, 3rd\tNID_PACKET international static speed profile [27]: as the 4th packet of row 3",
        "  packet 5, 4th\tNID_PACKET linking [5]: as the 1st packet of row 3",
        "everything as in row 4",
        "everything as in row 3",
        "header\tas in row 3, M_MCOUNT 1 too",
        "  packet 5, 1st\tNID_PACKET linking [5]: as in row 3",
    ]


@pytest.mark.parametrize("words", [("--only", "F"), ("--full",)], ids=["folded", "full"])
def test_links_lead_to_what_show_says(words: Tuple[str, ...], run: Run, alike: Path) -> None:
    """Each telegram with what its links lead to has the words of `show`, and in the same order."""
    for path, rows in ((alike, 8), (LINE, 33)):
        copy = path if path is alike else alike.with_name("line.csv")
        copy.write_bytes(path.read_bytes())
        texts = texts_of(report(run, copy, *words))
        shown = in_one_line("\n".join(run("show", copy)[1]))
        assert len(texts) == rows and sum("<a" in text for text in texts.values()) >= 3
        begin = 0
        for text in followed(texts).values():
            begin = shown.index(in_one_line(text).strip(), begin)


def test_a_packet_that_an_entry_is_about_is_written_out(run: Run, tmp_path: Path, program: Program) -> None:
    """It is marked in each telegram that has it, and the same telegram is not put in one line."""
    short = (authority(1550, 120), gradients(12300, 1600), speeds(12300, 3200))
    rows = [(aspect, "1", switched(place, *short)) for place, aspect in enumerate(("yellow", "green", "white"), 1)]
    rows.insert(0, ("*", "0", telegram(101, 0, 1, 255)))
    texts = texts_of(report(run, write(tmp_path / "short.csv", program, rows), "--only", "F", status=1))
    for row in (3, 4, 5):
        (marked,) = re.findall(f"<mark id=r{row}p1>(.*?)</mark>", texts[row], re.DOTALL)
        assert "gradient profile [21]" in marked and "element 1" in marked and "<a" not in marked
    assert [text.count("<a") for text in texts.values()] == [0, 0, 3, 3]
    assert (
        "  packet 27, 3rd\tNID_PACKET international static speed profile [27]: as in <a href=#r3>row 3</a>\n"
        in texts[5]
    )
