"""Lines of random telegrams in which every finding comes up: small groups whose values are often wrong."""
from __future__ import annotations

from random import Random
from typing import Any, Dict, List, Optional, Tuple

from balisekit.engine.program import Program, Text

Form = Dict[str, Any]


def elements(random: Random, distance: str, value: str, mark: int, more: Form) -> List[Form]:
    """From one to three elements, the last of which is mostly an end mark."""
    count = random.randint(1, 3)
    values = [random.choice((20, 21)) for _ in range(count - 1)] + [mark if random.random() < 0.9 else 20]
    return [{distance: random.choice((0, 10, 40)), value: one, **more} for one in values]


def packet(random: Random) -> Form:
    """A packet of those that the rules look at, or another one."""
    number = random.choice((12, 12, 15, 21, 21, 27, 27, 44, 136, 254, 0))
    head = {"nid_packet": number, "q_dir": random.choice((0, 1, 1, 2)), "q_scale": random.choice((0, 1, 1))}
    if number == 0:
        return {"nid_packet": 0, "nid_vbcmk": random.choice((1, 2))}
    if number in (44, 136, 254):
        length = random.choice((24, 32))
        return {"nid_packet": number, "q_dir": head["q_dir"], "l_packet": length, "body": "80" * ((length - 16) // 8)}
    if number == 21:
        return {**head, "elements": elements(random, "d_gradient", "g_a", 255, {"q_gdir": random.randint(0, 1)})}
    if number == 27:
        return {**head, "elements": elements(random, "d_static", "v_static", 127, {"q_front": 0, "differences": []})}
    body: Form = {"end_speed": 0, "end_timeout": 1023, "sections": [], "l_endsection": random.choice((10, 50))}
    if random.random() < 0.3:
        body["sections"] = [{"l_section": 30}]
    if random.random() < 0.3:
        body["danger_point"] = {"d_dp": 5, "v_releasedp": 126}
    if random.random() < 0.3:
        body["overlap"] = {"d_startol": 0, "t_ol": 60, "d_ol": random.choice((0, 20)), "v_releaseol": 126}
    return {**head, **({"v_main": random.choice((0, 24))} if number == 12 else {}), **body}


def telegram(random: Random, place: int, count: int, identity: int, counter: int) -> Form:
    """The telegram of a balise, in which each value of the header is sometimes wrong."""

    def usual(value: int, *others: int) -> int:
        return value if random.random() < 0.85 else random.choice(others)

    pair = 0 if count == 1 else (1, 2)[place] if place < 2 else 0
    return {
        "user_bits": 830,
        "m_version": usual(33, 32),
        "n_pig": usual(place, 0, 1, 2),
        "n_total": usual(count - 1, 0, 1, 2),
        "m_dup": usual(pair, 0, 1, 2),
        "m_mcount": usual(counter, 1, 2, 254, 255),
        "nid_c": usual(1, 2),
        "nid_bg": usual(identity, 1, 2, 3),
        "q_link": usual(1, 0),
        "packets": [],
    }


def group(random: Random, identity: int) -> List[List[Form]]:
    """The telegrams of each aspect of a group. Many balises have the packets of the one before them."""
    count, aspects = random.randint(1, 3), random.randint(1, 3)
    made: List[List[Form]] = []
    for counter in range(1, aspects + 1):
        balises: List[Form] = []
        for place in range(count):
            form = telegram(random, place, count, identity, random.choice((counter, counter, 255)))
            form["packets"] = [packet(random) for _ in range(random.randint(0, 3))]
            if balises and random.random() < 0.7:
                form["packets"] = [dict(one) for one in balises[-1]["packets"]]
                if form["packets"] and random.random() < 0.5:
                    form["packets"][random.randrange(len(form["packets"]))] = packet(random)
            balises.append(form)
        made.append(balises)
    if random.random() < 0.2:
        place = random.randrange(count)
        for balises in made[1:]:
            balises[place] = made[0][place]
    if count > 1 and random.random() < 0.2:
        for balises in made:
            balises[0], balises[1] = balises[1], balises[0]
    return made


def message(random: Random) -> Form:
    """A message 3."""
    authority: Optional[Form] = None
    while authority is None or authority["nid_packet"] != 15:
        authority = packet(random)
    packets = [authority, *(packet(random) for _ in range(random.randint(0, 3)))]
    return {"nid_message": 3, "t_train": 1, "m_ack": 0, "nid_c": 1, "nid_bg": 1, "packets": packets}


def table(program: Program, seed: int, groups: int = 6) -> List[str]:
    """The lines of a table of such groups. A third of them has kilometres."""
    random = Random(seed)
    rows: List[Tuple[str, Form]] = []
    for number in range(groups):
        made = group(random, number % 4)
        with_km = random.random() < 0.5
        for aspect, balises in zip(("red", "yellow", "green"), made):
            for place, form in enumerate(balises):
                km = f"{10 + number}.{place:03}" if with_km else ""
                name = f"B{place}" if with_km else ""
                rows.append((f"Signal {number},{name},{km},{aspect if len(made) > 1 else ''}", form))
    texts = list(program.encode([form for _, form in rows]))
    assert all(isinstance(text, Text) for text in texts), [text for text in texts if not isinstance(text, Text)][:1]
    return ["group,name,km,aspect,telegram", *(f"{cells},{text.line}" for (cells, _), text in zip(rows, texts))]
