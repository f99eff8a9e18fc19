"""The sentence on each finding, compared with the program's JSON: values, places, and what is missing."""
from __future__ import annotations

import json
import re
from collections import Counter
from decimal import Decimal
from pathlib import Path
from random import Random
from typing import Any, Callable, Dict, Iterator, List, NamedTuple, Sequence, Tuple

import line_table
import pytest
import random_lines
from telegrams import ALONE

from balisekit.engine import grammar
from balisekit.engine.grammar import NAMES, Finding
from balisekit.engine.program import Program
from balisekit.present import headings
from balisekit.rules import checking
from balisekit.rules.checking import Checked, Place
from balisekit.rules.entries import entries
from balisekit.rules.families import apply
from balisekit.rules.rule import Options
from balisekit.rules.statements import statement
from balisekit.rules.statements.scene import Aspects, Balise, Scene
from balisekit.tables import messages as messages_file, reader

TOP = Path(__file__).resolve().parents[2]
SEEDS = 30
DIRECTED = (8, 10, 11, 12, 13)
ORDINALS = ("first", "second", "third", "fourth", "fifth", "sixth")
Form = Any
EXAMPLES = {
    "position-wrong": "balise (N_PIG 0): N_PIG is 0 instead of 1: the table has the balise as the second of its group",
    "total-wrong": "balise (N_PIG 0): N_TOTAL + 1 says 1 balise, and the table has 2",
    "identity-differs": "balise (N_PIG 1): NID_BG is 2, and 1 in balise (N_PIG 0), row 2",
    "mark-points-outside": "balise (N_PIG 0): M_DUP is 1 (duplicate of the next balise), and the balise is the only "
    "one of its group",
    "mark-not-answered": "balise (N_PIG 0): M_DUP is 1 (duplicate of the next balise), and 0 (no duplicate) in balise "
    "(N_PIG 1), row 3",
    "counter-254": "balise (N_PIG 0): M_MCOUNT is 254 (fits no message of the group); default telegram: expected",
    "counters-differ": "balise (N_PIG 1): M_MCOUNT is 8, and 7 in balise (N_PIG 0), row 2",
    "duplicates-differ": "balise (N_PIG 0)  nominal: D_LEVELTR of packet 41 (level transition order), first in the "
    "telegram, is 950 m [950], and 947 m [947] in balise (N_PIG 1), row 3",
    "packet-not-modelled": "balise (N_PIG 0): packet 254 (default balise, loop or RIU information), first in the "
    "telegram, reaches beyond its message: not judged; default telegram: expected",
    "no-gradient": "nominal: no packet 21 (gradient profile) with packet 12 (movement authority of level 1, V_MAIN "
    "100 km/h) of balise (N_PIG 0)",
    "gradient-short": "balise (N_PIG 0)  nominal: packet 21 (gradient profile), second in the telegram, reaches 990 m, "
    "and the supervised location, the end of the authority of packet 12, is at 1000 m: 10 m missing, "
    "by the profile or by a length of the authority",
    "no-speed-profile": "nominal: no packet 27 (international static speed profile) with packet 12 (movement "
    "authority of level 1, V_MAIN 100 km/h) of balise (N_PIG 0)",
    "speed-profile-short": "balise (N_PIG 0)  nominal: packet 27 (international static speed profile), third in the "
    "telegram, reaches 1000 m, and the supervised location, the danger point (D_DP 50 m) of packet 12, is at 1050 m: "
    "50 m missing, by the profile or by a length of the authority",
    "identity-used-before": "the identity 1/1 (NID_C/NID_BG) is also that of G0, row 2",
    "marks-differ": 'balise (N_PIG 0): M_DUP is 0 (no duplicate), and 1 (duplicate of the next balise) in aspect "0", '
    "row 2",
    "aspects-not-told-apart": 'balises (N_PIG 0), (N_PIG 1): M_MCOUNT 7 is also that of aspect "0", rows 2 to 3',
}
"""The sentence on the first finding of each example of docs/findings.md."""


def check(program: Program, path: Path, *lines: str) -> Checked:
    """The answer of the program to a table of these lines."""
    path.write_text("\n".join(lines) + "\n", "utf-8")
    return checking.check(program, reader.read(str(path), None, False))


@pytest.mark.parametrize("name", EXAMPLES)
def test_examples_of_the_document(program: Program, tmp_path: Path, name: str) -> None:
    """The line of each example of FINDINGS says what the page says."""
    document = json.loads((TOP / "examples" / "check" / f"{name}.json").read_text("utf-8"))
    rows = [
        f"G{number},{aspect if 'aspects' in group else ''},{text}"
        for number, group in enumerate(document["groups"])
        for aspect, balises in enumerate(group.get("aspects", [group]))
        for text in balises["balises"]
    ]
    first = entries(check(program, tmp_path / "t.csv", "group,aspect,telegram", *rows))[0]
    assert headings.words(first).endswith(f"  {EXAMPLES[name]}") or headings.words(first).endswith(
        f": {EXAMPLES[name]}"
    )


class Site(NamedTuple):
    """A finding with the telegrams of its group."""

    place: Place
    finding: Finding
    aspects: List[List[Form]]
    rows: Dict[int, Form]
    """All telegrams of the table, by their rows."""

    @property
    def aspect(self) -> List[Form]:
        return self.aspects[self.finding.aspect or 0]

    @property
    def own(self) -> Form:
        return self.aspect[self.finding.balise or 0]

    @property
    def values(self) -> Dict[str, str]:
        return dict(self.place.statement.values)

    @property
    def sentence(self) -> str:
        return str(self.place.statement)

    @property
    def other(self) -> Form:
        """The telegram of the only other row that is named."""
        (row,) = self.place.statement.others
        return self.rows[row]

    def held(self, direction: str) -> Iterator[Tuple[int, int, Form]]:
        """Balise, place and packet of what holds in a direction."""
        for balise, form in enumerate(self.aspect):
            for place, packet in enumerate(form["packets"]):
                if packet.get("q_dir", 2) in (2, {"nominal": 1, "reverse": 0}[direction]):
                    yield balise, place, packet

    def is_silent(self, balise: int) -> bool:
        flag, last = self.aspect[balise].get("m_dup", 0), balise == len(self.aspect) - 1
        return balise > 0 and flag == 2 if self.finding.direction == "nominal" else not last and flag == 1

    def said(self) -> List[Form]:
        """The packets of the direction in the order of passing, without those of silent balises."""
        told = [one for one in self.held(self.finding.direction or "") if not self.is_silent(one[0])]
        told.sort(key=lambda one: one[0] if self.finding.direction == "nominal" else -one[0])
        return [packet for _, _, packet in told]


def position(site: Site) -> None:
    place = site.finding.balise or 0
    assert site.values == {"N_PIG": str(site.own["n_pig"]), "wanted_N_PIG": str(place)} and site.own["n_pig"] != place


def total(site: Site) -> None:
    wanted, told = len(site.aspect) - 1, site.own["n_total"]
    assert site.values == {"N_TOTAL": str(told), "wanted_N_TOTAL": str(wanted)} and told != wanted
    lacks = {form for form in range(told + 1)} - {form["n_pig"] for form in site.aspect}
    assert set(map(int, re.findall("[0-9]", site.sentence.partition("none has N_PIG ")[2]))) == lacks


def header(site: Site) -> None:
    first = site.aspects[0][0]
    keys = [key for key in ("m_version", "nid_c", "nid_bg", "q_link") if site.own[key] != first[key]]
    both = [(key.upper(), str(site.own[key]), str(first[key])) for key in keys]
    assert keys and site.other == first
    assert site.values == {
        name: value for key, own, other in both for name, value in ((key, own), (f"other_{key}", other))
    }


def outside(site: Site) -> None:
    flag, place, last = site.own["m_dup"], site.finding.balise, len(site.aspect) - 1
    assert site.values == {"M_DUP": str(flag)} and (flag, place) in ((1, last), (2, 0))
    assert ("first" in site.sentence, "last" in site.sentence) == (flag == 2 and last > 0, flag == 1 and last > 0)


def unanswered(site: Site) -> None:
    place, flag = site.finding.balise or 0, site.own["m_dup"]
    other = site.aspect[place + {1: 1, 2: -1}[flag]]
    assert site.other == other and site.values == {"M_DUP": str(flag), "other_M_DUP": str(other["m_dup"])}
    assert other["m_dup"] != 3 - flag


def unfit(site: Site) -> None:
    assert site.own["m_mcount"] == 254 and site.values == {"M_MCOUNT": "254"}
    assert ("packet 254" in site.sentence) == (254 in [packet["nid_packet"] for packet in site.own["packets"]])


def counters(site: Site) -> None:
    first = next(form for form in site.aspect if form["m_mcount"] < 254)
    assert site.other == first and first["m_mcount"] != site.own["m_mcount"]
    assert site.values == {"M_MCOUNT": str(site.own["m_mcount"]), "other_M_MCOUNT": str(first["m_mcount"])}


KEYS = {"V_LOA": "end_speed", "T_LOA": "end_timeout", "NC_CDDIFF": "nc", "NC_DIFF": "nc"}


def leaves(form: Form) -> Iterator[Tuple[str, str]]:
    """Each value with its key."""
    for key, value in form.items():
        for item in value if isinstance(value, list) else [value]:
            yield from leaves(item) if isinstance(item, dict) else [(key, str(item))]


def duplicates(site: Site) -> None:
    place, direction = site.finding.balise or 0, site.finding.direction or ""
    own, other = ([packet for at, _, packet in site.held(direction) if at == place + step] for step in (0, 1))
    assert own != other and site.other == site.aspect[place + 1]
    if site.values:
        (name, mine), (_, yours) = site.values.items()
        number = int(re.findall(r"packet (\d+) \(", site.sentence)[0])
        for held, text in ((own, mine), (other, yours)):
            raw = text.rpartition("[")[2].rstrip("]")
            known = {leaf for packet in held if packet["nid_packet"] == number for leaf in leaves(packet)}
            assert (KEYS.get(name, name.lower()), raw) in known, site.sentence
        assert mine != yours and f"{name} of " in site.sentence and f" is {mine}, and {yours} in " in site.sentence
    elif "another order" in site.sentence:
        numbers = [", ".join(str(packet["nid_packet"]) for packet in held) or "none" for held in (own, other)]
        assert f": {numbers[0]}, and {numbers[1]} in " in site.sentence
    elif not site.sentence.startswith("the "):
        number, at = re.findall(r"^packet (\d+) \(.*\), (\w+) in the telegram", site.sentence)[0]
        holder, lacks = (other, own) if "missing here" in site.sentence else (own, other)
        packet = (site.other if holder is other else site.own)["packets"][ORDINALS.index(at)]
        assert packet["nid_packet"] == int(number) and packet in holder and packet not in lacks


def not_modelled(site: Site) -> None:
    packet = site.own["packets"][site.finding.packet or 0]
    assert packet["nid_packet"] in (0, 136, 254) and site.place.statement.packet == packet["nid_packet"]
    words = f"packet {packet['nid_packet']} ("
    assert site.sentence.startswith(words) and f", {ORDINALS[site.finding.packet or 0]} in the " in site.sentence


def missing(site: Site) -> None:
    number, direction = 21 if site.finding.rule == 10 else 27, site.finding.direction or ""
    told = site.said()
    assert {12, 15} & {packet["nid_packet"] for packet in told} and number not in [
        packet["nid_packet"] for packet in told
    ]
    authority = next(packet for packet in told if packet["nid_packet"] in (12, 15))
    assert f"with packet {authority['nid_packet']} (" in site.sentence
    there = [
        (at, packet)
        for at, form in enumerate(site.aspect)
        for packet in form["packets"]
        if packet["nid_packet"] == number
    ]
    holding = [at for at, _, packet in site.held(direction) if packet["nid_packet"] == number]
    named = [site.rows[row] for row in site.place.statement.others]
    if "which is silent in this direction" in site.sentence:
        assert holding and all(site.is_silent(at) for at in holding)
        assert not named or named == [site.aspect[holding[0]]]
    elif f"packet {number} holds only in" in site.sentence:
        assert there and not holding and all(packet["q_dir"] == int(direction == "reverse") for _, packet in there)
        assert f"only in {'reverse' if direction == 'nominal' else 'nominal'} direction" in site.sentence
    else:
        assert not there and not named


def places(packet: Form) -> int:
    """The supervised location of an authority, or the reach of a profile, in decimetres. 10**9 is an open one."""
    unit = (1, 10, 100)[packet["q_scale"]]
    if packet["nid_packet"] in (12, 15):
        beyond = packet["overlap"]["d_ol"] if "overlap" in packet else packet.get("danger_point", {"d_dp": 0})["d_dp"]
        return unit * int(sum(one["l_section"] for one in packet["sections"]) + packet["l_endsection"] + beyond)
    far = 0
    for element in packet["elements"]:
        far += element.get("d_gradient", element.get("d_static", 0))
        if element.get("g_a") == 255 or element.get("v_static") == 127:
            return unit * far
    return 10**9


def short(site: Site) -> None:
    packet = site.own["packets"][site.finding.packet or 0]
    assert packet["nid_packet"] == {11: 21, 13: 27}[site.finding.rule]
    reach = places(packet)
    limit = max(places(one) for one in site.said() if one["nid_packet"] in (12, 15))
    values = {name: Decimal(site.values[f"{name}_m"]) * 10 for name in ("reach", "supervised_location", "missing")}
    assert list(values.values()) == [Decimal(one) for one in (reach, limit, limit - reach)] and reach < limit
    infill = any(one["nid_packet"] == 136 for one in site.said())
    assert infill or "from the group of packet 136" not in site.sentence
    group = site.place.group
    start = group.aspects[0].rows[0].km if group else None
    for name, place in (("reach", reach), ("supervised_location", limit)):
        km = site.values.get(f"{name}_km")
        if km is not None and start is not None:
            along = 1 if site.finding.direction == "nominal" else -1
            assert Decimal(km) == start + along * Decimal(place) / 10000 and f"(km {km})" in site.sentence


def identity(site: Site) -> None:
    first, earlier = site.aspects[0][0], site.rows[site.place.statement.others[0]]
    assert site.values == {"NID_C": str(first["nid_c"]), "NID_BG": str(first["nid_bg"])}
    assert (earlier["nid_c"], earlier["nid_bg"]) == (first["nid_c"], first["nid_bg"])
    assert site.place.earlier and {row.number for row in site.place.earlier.rows()} == set(site.place.statement.others)


def marks(site: Site) -> None:
    first = site.aspects[0][site.finding.balise or 0]
    assert site.other == first and first["m_dup"] != site.own["m_dup"]
    assert site.values == {"M_DUP": str(site.own["m_dup"]), "other_M_DUP": str(first["m_dup"])}


def apart(site: Site) -> None:
    place, aspect = site.finding.balise or 0, site.finding.aspect
    balises = [forms[place] for forms in site.aspects]
    if aspect is not None:
        assert site.values == {"M_MCOUNT": str(site.own["m_mcount"])} and site.own["m_mcount"] < 254
        assert site.other["m_mcount"] == site.own["m_mcount"]
        return
    first = str(balises[0]["m_mcount"])
    if "in every aspect" in site.sentence:
        assert {form["m_mcount"] for form in balises} in ({254}, {255})
        assert ("telegrams differ" in site.sentence) == (balises[0]["m_mcount"] == 255)
    else:
        assert site.values == {"M_MCOUNT": first, "other_M_MCOUNT": str(site.other["m_mcount"])}
        assert (balises[0]["m_mcount"] < 254) != (site.other["m_mcount"] < 254) or site.other["m_mcount"] != int(first)
        assert site.other in balises


ORACLES: Dict[int, Callable[[Site], None]] = dict(
    enumerate(
        (position, total, header, outside, unanswered, unfit, counters, duplicates, not_modelled)
        + (missing, short, missing, short, identity, marks, apart),
        1,
    )
)


def sites(checked: Checked) -> Iterator[Site]:
    """Each finding with its telegrams, or its message."""
    forms = {row.number: record.form for row, record in checked.accepted.decoded()}
    for place in checked.findings:
        aspects = [[forms[row.number] for row in aspect.rows] for aspect in place.group.aspects] if place.group else []
        messages = [[one.form] for one in checked.accepted_messages if one.message is place.message]
        yield Site(place, place.finding, aspects or messages, forms)


def same_lines(checked: Checked) -> bool:
    """Whether the entries quote each line of the program once, and nothing else."""
    quoted = [line for entry in entries(checked) for line in entry.quoted]
    return sorted(quoted) == sorted(place.finding.line for place in checked.findings)


@pytest.mark.uncovered
def test_random_lines(program: Program, tmp_path: Path) -> None:
    """Each rule comes up often, with aspects and in reverse direction, and no sentence is false."""
    seen: Counter[Tuple[int, str]] = Counter()
    for seed in range(SEEDS):
        checked = check(program, tmp_path / "t.csv", *random_lines.table(program, seed))
        for site in sites(checked):
            finding = site.finding
            assert site.sentence != finding.name, (seed, finding.line)
            ORACLES[finding.rule](site)
            seen.update({(finding.rule, "any"), (finding.rule, finding.direction or "none")})
            seen[finding.rule, "aspects"] += finding.aspect is not None
        assert same_lines(checked)
        assert all(sentence.startswith("row") for sentence in map(headings.words, entries(checked)))
    for rule in NAMES:
        assert seen[rule, "any"] >= 3 and (rule == 14 or seen[rule, "aspects"]), rule
        assert rule not in DIRECTED or seen[rule, "reverse"] and seen[rule, "nominal"], rule


@pytest.mark.uncovered
def test_random_messages(program: Program, tmp_path: Path) -> None:
    """The same of messages 3: they name no row and no balise."""
    random = Random(1)
    seen: Counter[int] = Counter()
    texts = program.encode([random_lines.message(random) for _ in range(150)], radio=True)
    (tmp_path / "m.txt").write_text("".join(f"{text.line}\n" for text in texts), "utf-8")
    (tmp_path / "t.csv").write_text(f"group,telegram\nA,{ALONE}\n", "utf-8")
    table = reader.read(str(tmp_path / "t.csv"), None, False)
    checked = checking.check(program, table, messages_file.read(str(tmp_path / "m.txt")))
    for site in sites(checked):
        ORACLES[site.finding.rule](site)
        assert " of balise" not in site.sentence and "telegram" not in site.sentence, site.sentence
        seen[site.finding.rule] += 1
    assert same_lines(checked) and set(seen) == {9, 10, 11, 12, 13} and min(seen.values()) > 3
    assert all(words.startswith("message of line ") for words in map(headings.words, entries(checked)))


def of_pair(program: Program, path: Path, these: List[Form], those: List[Form]) -> str:
    """The sentence on the first F8 of a pair of duplicates with these packets."""
    forms = [
        {**line_table.telegram(1, place, 1, 255, *packets), "m_dup": place + 1}
        for place, packets in enumerate((these, those))
    ]
    texts = [text.line for text in program.encode(forms)]
    checked = check(program, path, "group,name,telegram", f"A,A1,{texts[0]}", f"A,A2,{texts[1]}")
    return next(str(place.statement) for place in checked.findings if place.finding.rule == 8)


def test_what_duplicates_lack(program: Program, tmp_path: Path) -> None:
    """A packet or element that only one has, and an order: the words never say that something lacks what it has."""
    path, where = tmp_path / "t.csv", 'balise "A2" (N_PIG 1)'
    long, short_one = (line_table.speeds(12300, reach) for reach in (5000, 1000))
    level: Form = {
        "nid_packet": 41,
        "q_dir": 1,
        "q_scale": 1,
        "d_leveltr": 5,
        "transitions": [{"m_leveltr": 2, "l_ackleveltr": 0}],
    }
    assert of_pair(program, path, [level, long], [level]) == (
        f"packet 27 (international static speed profile), second in the telegram, is missing in {where}, row 3"
    )
    assert of_pair(program, path, [level], [long, level]) == (
        f"packet 27 (international static speed profile), first in the telegram of {where}, row 3, is missing here"
    )
    order = f"the packets stand in another order: 41, 27, and 27, 41 in {where}, row 3"
    assert of_pair(program, path, [level, long], [long, level]) == order
    assert of_pair(program, path, [long, short_one], [short_one, long]) == order.replace("41", "27")
    assert of_pair(program, path, [level, level], [level]) == f"the packets are 41, 41, and 41 in {where}, row 3"
    more: Form = {**level, "transitions": [*level["transitions"], {"m_leveltr": 3, "l_ackleveltr": 0}]}
    third = "M_LEVELTR level 2 [3]  L_ACKLEVELTR 0 m [0]"
    words = "packet 41 (level transition order), first in the telegram"
    assert (
        of_pair(program, path, [more], [level])
        == f"the second choice of {words}, is missing in {where}, row 3: {third}"
    )
    said = f"the second choice of packet 41 of {where}, row 3, is missing here: {third}"
    assert of_pair(program, path, [level], [more]) == said


def test_a_finding_that_the_json_does_not_show() -> None:
    """If a program reports what its JSON does not show, the finding has only its name."""
    form: Form = {"n_pig": 0, "m_dup": 1, "packets": []}
    for line in ("F8 group 0 balise 0 nominal: packets of duplicates differ", "F10 group 0 nominal: no gradient"):
        finding = grammar.finding(line)
        assert finding and str(statement(Scene(finding, Aspects([[Balise(None, form)]])))) == finding.name


Items = List[line_table.Item]


def of(items: Items, group: str, aspect: str) -> Form:
    """The telegram of the switched balise of a signal in an aspect."""
    return next(item[5] for item in items if (item[0], item[3]) == (f"Signal {group}", aspect))


def pair(speeds: Sequence[int], counters: Sequence[int] = (255, 255)) -> Items:
    """A pair of duplicates with these speeds."""
    forms: List[Form] = [
        {**line_table.telegram(900, place, 1, counter, line_table.speeds(12300, 1000)), "m_dup": place + 1}
        for place, counter in enumerate(counters)
    ]
    for form, speed in zip(forms, speeds):
        form["packets"][0]["elements"][0]["v_static"] = speed
    return [("Pair", f"P{place}", f"30.00{place}", "", str(place), form) for place, form in enumerate(forms)]


def counter_copied(items: Items) -> None:
    of(items, "A", "green")["m_mcount"] = 2


def counter_of_pair(items: Items) -> None:
    items += pair((20, 20), (4, 5))


def speed_of_pair(items: Items) -> None:
    items += pair((20, 21))


def overlap_longer(items: Items) -> None:
    of(items, "B", "yellow")["packets"][0]["overlap"]["d_ol"] += 100


def identity_twice(items: Items) -> None:
    for item in items:
        item[5]["nid_bg"] = {108: 101}.get(item[5]["nid_bg"], item[5]["nid_bg"])


def exchanged(items: Items) -> None:
    rows = [place for place, item in enumerate(items) if item[0] == "Signal G"]
    for place in rows:
        group, name, km, aspect, balise, form = items[place]
        items[place] = (group, name, km, aspect, str(1 - int(balise)), form)


def wrong_direction(items: Items) -> None:
    of(items, "B", "yellow")["packets"][2]["q_dir"] = 0


def pasted(items: Items) -> None:
    place = next(place for place, item in enumerate(items) if (item[0], item[3]) == ("Signal G", "yellow"))
    items[place] = (*items[place][:5], of(items, "H", "yellow"))


Mistake = Callable[[Items], None]
MISTAKES: Dict[Mistake, Tuple[str, str]] = {
    counter_copied: ("F16", 'M_MCOUNT 2 is also that of aspect "yellow", row 4'),
    counter_of_pair: ("F7", 'M_MCOUNT is 5, and 4 in balise "P0" (N_PIG 0), row 36'),
    speed_of_pair: (
        "F8",
        "V_STATIC of the first element of packet 27 (international static speed profile), first in the telegram, is "
        '100 km/h [20], and 105 km/h [21] in balise "P1" (N_PIG 1), row 37',
    ),
    overlap_longer: (
        "F11",
        "packet 21 (gradient profile), second in the telegram, reaches 1650 m (km 15.500), and the supervised "
        "location, the end of the overlap (D_OL 300 m) of packet 12, is at 1750 m (km 15.600): 100 m missing, "
        "by the profile or by a length of the authority",
    ),
    identity_twice: ("F14", "the identity 352/101 (NID_C/NID_BG) is also that of Signal A (km 12.300), rows 2 to 5"),
    exchanged: ("F1", "their telegrams or their rows look exchanged: N_PIG is 1 and 0 instead of 0 and 1"),
    wrong_direction: (
        "F12",
        "no packet 27 (international static speed profile) with packet 12 (movement authority of level 1, V_MAIN 120 "
        'km/h) of balise "B2" (N_PIG 1): packet 27 holds only in reverse direction (Q_DIR 0), row 8',
    ),
    pasted: (
        "F3",
        "the telegram has the identity 352/108 (NID_C/NID_BG), and the other 3 telegrams of the group have 352/107: it "
        "looks like one of Signal H (km 22.900); row 30 has the same telegram as row 34 (Signal H)",
    ),
}
BEFORE = "packet 5 (linking), first in the telegram, first link: "
TURNED = (
    "is passed in nominal direction, and by the order of its balises along the track it is passed in reverse direction"
)
WRONG_ORDER = "; F1 is found in Signal G: rows in a wrong order may be the cause"
LINKS: Dict[Mistake, Dict[str, str]] = {
    identity_twice: {
        "L1": f"{BEFORE}group 108 of country or region 352 is linked, and no group of the table has that identity; "
        "along the track D_LINK leads from Signal G (km 21.400) to km 22.900, where the table has Signal H (km 22.900) "
        "as group 101 of country or region 352, which F14 finds used twice"
    },
    exchanged: {
        "L2": f"{BEFORE}Signal H (km 22.900) is 1500 m from Signal G (km 21.403) by D_LINK, and 1497 m in rear of it "
        f"by the kilometres: they differ by 2997 m, and Q_LOCACC is 5 m{WRONG_ORDER}",
        "L3": f"{BEFORE}Q_LINKORIENTATION says that Signal H (km 22.900) {TURNED}{WRONG_ORDER}",
    },
}
"""By mistake, what rules over the line report on the last link to its group."""
ROWS: Dict[Mistake, Tuple[int, ...]] = {
    counter_copied: (5,),
    counter_of_pair: (37,),
    speed_of_pair: (36,),
    overlap_longer: (8,),
    identity_twice: (32, 33, 34, 35),
    wrong_direction: (6, 8),
    pasted: (30,),
}


@pytest.mark.uncovered
@pytest.mark.parametrize("mistake", MISTAKES)
def test_a_single_mistake(program: Program, tmp_path: Path, mistake: Mistake) -> None:
    """In the line of the examples: the entry names the rows and the values that differ."""
    items = list(line_table.items())
    before = table_of(program, tmp_path, items)
    mistake(items)
    checked = table_of(program, tmp_path, items)
    known = {entry.sentence for entry in entries(before)}
    new = [entry for entry in entries(checked) if entry.sentence not in known]
    rule, sentence = MISTAKES[mistake]
    assert (new[0].rule, new[0].sentence) == (rule, sentence)
    assert mistake not in ROWS or new[0].rows == ROWS[mistake]
    assert {entry.group for entry in new} == {new[0].group} and same_lines(checked)


@pytest.mark.parametrize("mistake", LINKS)
def test_links_name_the_finding_that_may_cause_them(program: Program, tmp_path: Path, mistake: Mistake) -> None:
    """A mistake in one group makes links to it wrong: these say which finding of the program may be their cause."""
    items = list(line_table.items())
    assert not apply(table_of(program, tmp_path, items), "L", Options()).parts[0].items
    mistake(items)
    (part,) = apply(table_of(program, tmp_path, items), "L", Options(), with_causes=False).parts
    assert {entry.rule: entry.sentence for entry in part.entries} == LINKS[mistake]


def test_a_copy_is_named_with_its_rows(program: Program, tmp_path: Path) -> None:
    """Of a pair with two identities either telegram may be the copy. Digits in either case are the same."""
    own, first, second = (
        program_text(program, line_table.telegram(identity, place, 1, 255))
        for identity, place in ((1, 0), (2, 0), (2, 1))
    )
    rows = [f"A,{own}", f"A,{second.upper()}", f"B,{first}", f"B,{second}"]
    (entry,) = entries(check(program, tmp_path / "t.csv", "group,telegram", *rows))
    assert entry.sentence == "NID_BG is 2, and 1 in balise (N_PIG 0), row 2; row 3 has the same telegram as row 5 (B)"
    assert (entry.rule, entry.rows, entry.other_rows) == ("F3", (3,), (2, 5))
    (entry,) = entries(check(program, tmp_path / "t.csv", "group,telegram", *rows[:2]))
    assert entry.sentence == "NID_BG is 2, and 1 in balise (N_PIG 0), row 2" and entry.other_rows == (2,)


def test_kilometres_of_a_message(program: Program, tmp_path: Path) -> None:
    """Its places count from the group of NID_LRBG, if the table has one group with that identity."""
    form: Form = {**random_lines.message(Random(1)), "nid_c": 352}
    authority = {**line_table.authority(800, 100), "nid_packet": 15}
    del authority["v_main"], authority["overlap"]
    form["packets"] = [line_table.gradients(0, 500), authority]
    (text,) = program.encode([form], radio=True)
    file, path = tmp_path / "m.txt", tmp_path / "t.csv"
    file.write_text(f"{text.line}\n")
    for identity, places, reach, end in (
        (1, ("10.000", "10.003"), " (km 10.500)", " (km 10.800)"),
        (1, ("10.003", "10.000"), " (km 9.503)", " (km 9.203)"),
        (1, ("", ""), "", ""),
        (2, ("10.000", "10.003"), "", ""),
    ):
        forms = [line_table.telegram(identity, place, 1, 255) for place in range(2)]
        rows = [f"A,{km},{program_text(program, form)}" for km, form in zip(places, forms)]
        path.write_text("\n".join(["group,km,telegram", *rows]) + "\n")
        checked = checking.check(program, reader.read(str(path), None, False), messages_file.read(str(file)))
        (said,) = [entry.sentence for entry in entries(checked) if entry.rule == "F11"]
        assert f"reaches 500 m{reach}, and the supervised location" in said
        assert f"is at 800 m{end}: 300 m missing, by the profile or by a length of the authority" in said


def test_an_authority_without_profiles_is_one_entry(program: Program, tmp_path: Path) -> None:
    """F10 and F12 of one authority, also in several aspects. They are apart if one profile is for reverse."""
    stop, reverse = line_table.authority(100, 0), {**line_table.gradients(0, 500), "q_dir": 0}
    forms = [
        line_table.telegram(1, 0, 0, counter, *packets)
        for counter, packets in ((1, [stop]), (2, [stop]), (3, [stop, reverse]))
    ]
    rows = [f"A,{aspect},{program_text(program, form)}" for aspect, form in zip(("red", "blue", "green"), forms)]
    both, gradient, speed = entries(check(program, tmp_path / "t.csv", "group,aspect,telegram", *rows))
    assert (both.rules, both.aspects, len(both.findings)) == (["F10", "F12"], ("red", "blue"), 4)
    assert [(entry.rules, entry.aspects) for entry in (gradient, speed)] == [
        (["F10"], ("green",)),
        (["F12"], ("green",)),
    ]
    profiles = "no packet 21 (gradient profile) and no packet 27 (international static speed profile) with packet 12 ("
    assert both.sentence.startswith(profiles) and gradient.sentence.endswith(
        ": packet 21 holds only in reverse direction (Q_DIR 0), row 4"
    )


def program_text(program: Program, form: Form) -> str:
    """The digits of a telegram."""
    (text,) = program.encode([form])
    return text.line


def table_of(program: Program, tmp_path: Path, items: Items) -> Checked:
    """The answer of the program to these rows."""
    texts = program.encode([item[5] for item in items])
    rows = [",".join([*item[:5], text.line]) for item, text in zip(items, texts)]
    return check(program, tmp_path / "t.csv", ",".join(line_table.HEADING), *rows)
