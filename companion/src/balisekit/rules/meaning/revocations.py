"""Temporary speed restrictions that restrict nothing, and revocations that revoke nothing. For E22."""
from __future__ import annotations

from decimal import Decimal
from typing import Any, Dict, Iterator, List, Optional, Set, Tuple

from balisekit.rules.decoded import Decoded, Owner
from balisekit.rules.facts import counted, origin
from balisekit.rules.location import Location
from balisekit.rules.meaning.sent import Fault, kmh, located, remark, sent, speed
from balisekit.rules.passages import GroupData
from balisekit.rules.rule import Remark
from balisekit.rules.telegrams import SPEEDS, Packet
from balisekit.tables.names import rows_words

RESTRICTION, REVOCATION, NOT_REVOCABLE = 65, 66, 255
"""NID_PACKET of both packets, and the NID_TSR without an identity."""
PROFILES, FASTEST = 5, 120
"""The fewest packets 27 that show the speeds of a line, and the greatest V_STATIC that is a speed."""
Ways = Set[Optional[int]]
"""For trains of which ways along the kilometres packets are. None is a way that is not known."""


def without_effect(decoded: Decoded, most: int) -> Iterator[Remark]:
    """Packets 65 without a length, or with a speed above that of each profile. One above `most` is out of range."""
    greatest = _greatest(decoded)
    for owner, packet in sent(decoded, RESTRICTION):
        form: Any = packet.form
        faults: List[Fault] = []
        if form.get("l_tsr") == 0:
            faults.append(Fault("L_TSR is 0 m", {"l_tsr_m": Decimal()}, [("l_tsr", None)]))
        if greatest is not None and most >= form.get("v_tsr", 0) > greatest:
            words = f"V_TSR is {speed(form['v_tsr'])}, above each V_STATIC of the table, at most {speed(greatest)}"
            values = {"v_tsr_kmh": kmh(form["v_tsr"]), "v_static_kmh": kmh(greatest)}
            faults.append(Fault(words, values, [("v_tsr", None)]))
        if faults:
            yield remark("E22", located(owner, packet), faults)


def _greatest(decoded: Decoded) -> Optional[int]:
    """The greatest speed of the profiles of a table, those of train categories too, if there are enough of them."""
    profiles = [packet for _, packet in sent(decoded, SPEEDS)]
    elements = [each.element for packet in profiles for each in packet.stretches]
    speeds = [each["v_static"] for each in elements if each["v_static"] <= FASTEST]
    speeds += [one["v_diff"] for each in elements for one in each["differences"]]
    return max(speeds, default=None) if len(profiles) >= PROFILES else None


def without_restriction(decoded: Decoded) -> Iterator[Remark]:
    """Packets 66 that revoke nothing."""
    every = list(sent(decoded, RESTRICTION))
    ordered = [(owner, packet) for owner, packet in every if _number(packet) < NOT_REVOCABLE]
    endless = [each for each in every if each[1].form.get("nid_tsr") == NOT_REVOCABLE]
    ways: Dict[int, Ways] = {}
    for owner, packet in ordered:
        ways.setdefault(_number(packet), set()).update(_ways(owner, packet))
    facts = [counted(f"{origin(located(*each))} {_number(each[1])} {_ways(*each)}" for each in [*ordered, *endless])]
    revocations = [(owner, packet) for owner, packet in sent(decoded, REVOCATION) if "nid_tsr" in packet.form]
    revoked = {_number(packet) for _, packet in revocations}
    left = [located(*each) for each in ordered if _number(each[1]) not in revoked]
    for owner, packet in revocations:
        words = _fault(owner, packet, ordered, ways)
        lasting = [each for each in endless if _meet(_ways(*each), _ways(owner, packet))]
        if len(lasting) == 1 and (words == _no_packet(packet) or not words and not ordered):
            yield _lasting(*lasting[0], located(owner, packet), packet)._replace(facts=facts)
        elif words:
            rows = [where.row.number for where in left if where.row and len(left) == 1 and _number(packet) not in ways]
            words += f", and nothing revokes the one in {rows_words(rows)}" if rows else ""
            values = {"nid_tsr": Decimal(_number(packet))}
            made = remark("E22", located(owner, packet), [Fault(words, values, [("nid_tsr", None)])])
            yield made._replace(facts=facts, compared=left if rows else ())


def _lasting(owner: Owner, packet: Packet, revoking: Location, revocation: Packet) -> Remark:
    """A remark on a packet 65 that nothing can revoke, beside a packet 66 that revokes nothing."""
    where = f" in {rows_words([revoking.row.number])}" if revoking.row else ""
    words = (
        f"NID_TSR is {NOT_REVOCABLE}, which nothing can revoke, although the packet 66{where} revokes "
        f"{_number(revocation)}, which no packet 65 of the table has"
    )
    values = {"nid_tsr": Decimal(NOT_REVOCABLE), "revoked_nid_tsr": Decimal(_number(revocation))}
    made = remark("E22", located(owner, packet), [Fault(words, values, [("nid_tsr", None)])])
    return made._replace(compared=[revoking])


def _fault(owner: Owner, packet: Packet, ordered: List[Tuple[Owner, Packet]], ways: Dict[int, Ways]) -> str:
    """Why a packet 66 revokes nothing, or an empty text."""
    number = _number(packet)
    if number == NOT_REVOCABLE:
        return f"NID_TSR is {NOT_REVOCABLE}, and nothing can revoke a restriction with this number"
    is_own = [other for _, other in ordered if other.row is not None and other.row is packet.row]
    if any(_number(other) == number for other in is_own):
        return f"it revokes the restriction {number} of its own telegram"
    if not ordered:
        return ""
    known = ways.get(number, set())
    if not known:
        return _no_packet(packet)
    if _meet(known, _ways(owner, packet)):
        return ""
    return f"NID_TSR is {number}, and only packets 65 for trains of the other direction have it"


def _no_packet(packet: Packet) -> str:
    """That no packet 65 has the number of a packet 66."""
    return f"NID_TSR is {_number(packet)}, and no packet 65 of the table has it"


def _meet(one: Ways, other: Ways) -> bool:
    """Whether some trains may get both."""
    return None in one | other or bool(one & other)


def _number(packet: Packet) -> int:
    """NID_TSR."""
    form: Any = packet.form
    return int(form.get("nid_tsr", NOT_REVOCABLE))


def _ways(owner: Owner, packet: Packet) -> Ways:
    """For trains of which ways along the kilometres a packet is. Tracks have their ways of their own."""
    if not isinstance(owner, GroupData):
        return {owner.way}
    return {passage.way for passage in owner.passages if packet in passage.said} or {None}
