"""Random documents of railway lines for `check`: sound ones, and ones with faults that break F1 to F16.

All that is random comes from `records.numbers`, so its seed decides what comes out. A fault is put in blindly: it may
add findings of other rules, or none.
"""
import collections
import copy
import json
from dataclasses import dataclass

from documents import ANY_MESSAGE, BOTH, PROFILES, authority, balise_text, profile
from records import END_BITS, HEAD_BITS, OTHERS, USER_BITS, begun, message_text, numbers, packet

SHORT_BITS, TELEGRAM_HEAD_BITS = 210, 50
ROOM = USER_BITS - TELEGRAM_HEAD_BITS - END_BITS
LEVEL_1, LEVEL_2, GRADIENT, SPEED, LINKING, TRANSITION = 12, 15, 21, 27, 5, 41
UNMODELLED = (0, 136, 254)
RAW = [number for number in OTHERS if number not in UNMODELLED]
MOST_METRES = 3000


@dataclass
class Balise:
    """A balise: the numbers of its header by their keys, its packets, and whether its telegram is always a long one."""
    header: dict
    packets: list
    is_long: bool


# The places that send the same, one or a pair of duplicates each, and the balises of each aspect.
Group = collections.namedtuple("Group", "speakers aspects")
# Groups, and the packets of each message 3.
Document = collections.namedtuple("Document", "groups messages")


def size(packets):
    """How many bits these packets have."""
    return sum(it.bits for it in packets)


def profile_to(kind, direction, metres):
    """A profile that ends at this distance or later, in any scale that can express it, or an open one."""
    scale = numbers.choice((0, 1, 2) if metres % 10 == 0 else (0, 1))
    units, is_open = metres * 10 // 10 ** scale, numbers.random() < 0.1
    end = numbers.randint(0, units) if is_open else units + numbers.choice((0, numbers.randrange(1000)))
    return profile(kind, end, direction, scale, is_open)


def with_profiles(number, lacking=None, short=None):
    """An authority and the profiles that it needs, in any order, without `lacking`, and with another `short` one."""
    direction, metres = numbers.randrange(3), numbers.randrange(1, MOST_METRES)
    packets = [authority(number, metres, direction)]
    for kind in {*PROFILES} - {lacking}:
        parts = (0, 1) if direction == BOTH and numbers.random() < 0.3 else (direction,)
        packets += [profile_to(kind, part, metres) for part in parts]
    if short:
        packets.append(profile(short, max(0, metres - numbers.choice((1, 10, metres))), direction))
    numbers.shuffle(packets)
    return packets


def any_packets(kinds, room):
    """A packet of each of these kinds, unless it has no room."""
    return [it for it in (packet(kind, room) for kind in kinds) if it]


def harmless(kinds=(LINKING, TRANSITION)):
    """Up to three packets without an authority: raw ones, and ones of these kinds."""
    return any_packets([numbers.choice((numbers.choice(RAW), *kinds)) for _ in range(numbers.randrange(4))],
                       numbers.choice((90, 110, 150)))


def unmodelled():
    """A packet 0, 136 or 254."""
    return packet(numbers.choice(UNMODELLED), HEAD_BITS + numbers.randrange(40))


def unplanned(number):
    """An authority and other packets at random, which may or may not fit together."""
    others = (LINKING, LEVEL_1, LEVEL_2, GRADIENT, SPEED, TRANSITION)
    return any_packets([number, *numbers.sample(others, numbers.randrange(1, 4))], 200)


def within_room(make, *given, **more):
    """The first of what this makes that fits into a telegram."""
    while True:
        packets = make(*given, **more)
        if size(packets) <= ROOM:
            return packets


def speakers_of(count):
    """The places of `count` balises, some of them in pairs of duplicates."""
    places, speakers = list(range(count)), []
    while places:
        paired = len(places) > 1 and numbers.random() < 0.5
        speakers.append(tuple(places[:1 + paired]))
        places = places[1 + paired:]
    return speakers


def contents_of(speakers, is_authority_allowed):
    """The packets of each speaker; at most one of them has an authority, with its profiles beside it."""
    kinds, holder = (LINKING, TRANSITION), -1
    if is_authority_allowed and numbers.random() < 0.6:
        holder = numbers.randrange(len(speakers))
    elif numbers.random() < 0.5:
        kinds += (GRADIENT, SPEED)
    return [within_room(with_profiles, LEVEL_1) if place == holder else within_room(harmless, kinds)
            for place in range(len(speakers))]


def aspect_of(speakers, header, contents, counters, long):
    """The balises of an aspect, those at the places of `long` with long telegrams."""
    for places, packets, counter in zip(speakers, contents, counters):
        for mark, place in enumerate(places, len(places) > 1):
            own = {**header, "n_pig": place, "m_dup": mark, "m_mcount": counter}
            yield Balise(own, list(packets), place in long)


def sound_group(identity, aspects):
    """A group with `aspects` aspects. If several, each speaker sends the same in all, or has a counter for each."""
    count = numbers.choice((1, 1, 2, 2, 2, 3, 3, 4, 5, 8))
    speakers = speakers_of(count)
    header = {"m_version": numbers.choice((32, 33)), "n_total": count - 1, "q_link": numbers.randrange(2),
              "nid_c": identity >> 14, "nid_bg": identity & 0x3fff}
    long = {place for place in range(count) if numbers.random() < 0.3}
    fixed = [numbers.random() < 0.4 for _ in speakers]
    first, found = contents_of(speakers, True), []
    kept = {it.number for is_fixed, packets in zip(fixed, first) if is_fixed for it in packets}
    for counter in numbers.sample(range(254), aspects):
        # (no authority beside profiles that another aspect has too: they may be too short for it)
        own = contents_of(speakers, kept.isdisjoint(PROFILES)) if found and LEVEL_1 not in kept else first
        packets = [one if is_fixed else other for is_fixed, one, other in zip(fixed, first, own)]
        counters = [ANY_MESSAGE if is_fixed else counter for is_fixed in fixed]
        found.append(list(aspect_of(speakers, header, packets, counters, long)))
    return Group(speakers, found)


def sound_document(has_aspects):
    """Some groups, with several aspects or none, and some messages."""
    count = numbers.choice((1, 1, 1, 2, 2, 3, 4)) if numbers.random() < 0.995 else 1 + numbers.randrange(100)
    identities = numbers.sample(range(1 << 24), count)
    groups = [sound_group(it, numbers.choice((1, 2, 2, 3, 4)) if has_aspects else 1) for it in identities]
    if has_aspects and all(len(it.aspects) == 1 for it in groups):
        groups[0] = sound_group(identities[0], numbers.choice((2, 2, 3, 5)))
    messages = [[*within_room(with_profiles, LEVEL_2), *harmless()] for _ in range(numbers.choice((0, 0, 1, 2)))]
    return Document(groups, messages)


def some_group(document, least=1, aspects=1):
    """A group with at least `least` balises and `aspects` aspects, or any group."""
    those = [it for it in document.groups if len(it.aspects[0]) >= least and len(it.aspects) >= aspects]
    return numbers.choice(those or document.groups)


def header_differs(document):
    """Another number in a header, in most cases of a group of several balises. Two counters may differ."""
    aspect = numbers.choice(some_group(document, least=numbers.choice((1, 2, 2))).aspects)
    key, several = numbers.choice((("n_pig", range(8)), ("n_total", range(8)), ("m_dup", range(3)), ("m_dup", (1, 2)),
                                   ("m_mcount", range(255)), ("m_mcount", (254,)), ("nid_c", range(1024)),
                                   ("nid_bg", range(16384)), ("q_link", (0, 1)), ("m_version", (32, 33))))
    for _ in range(1 + (key == "m_mcount")):
        numbers.choice(aspect).header[key] = numbers.choice(several)


def position(document):
    """Two balises that change places."""
    aspect = numbers.choice(some_group(document, least=2).aspects)
    one, other = numbers.randrange(len(aspect)), numbers.randrange(len(aspect))
    aspect[one], aspect[other] = aspect[other], aspect[one]


def identity_used(document):
    """A group with the identity of another one."""
    one, other = some_group(document), some_group(document)
    if one is other:
        one = copy.deepcopy(other)
        document.groups.insert(numbers.randrange(len(document.groups) + 1), one)
    for balise in (it for aspect in one.aspects for it in aspect):
        balise.header.update({key: other.aspects[0][0].header[key] for key in ("nid_c", "nid_bg")})


def aspects_alike(document):
    """In a later aspect another duplicate flag, a counter or balises of an earlier one, or a longer telegram."""
    group = some_group(document, aspects=2)
    if len(group.aspects) < 2:
        return
    earlier, later = sorted(numbers.sample(range(len(group.aspects)), 2))
    way, one, other = numbers.randrange(5), numbers.choice(group.aspects[earlier]), numbers.choice(group.aspects[later])
    if way == 0:
        group.aspects[later] = copy.deepcopy(group.aspects[earlier])
    elif way == 1:
        other.is_long = not other.is_long
    else:
        other.header.update(({"m_mcount": one.header["m_mcount"]}, {"m_mcount": ANY_MESSAGE},
                             {"m_dup": numbers.randrange(3)})[way - 2])


def packets_differ(document):
    """A pair in which one balise has a packet less or more, or its packets in another order."""
    pairs = [(group, it) for group in document.groups for it in group.speakers if len(it) == 2]
    if not pairs:
        return
    group, places = numbers.choice(pairs)
    balise, way = numbers.choice(group.aspects)[numbers.choice(places)], numbers.random()
    if balise.packets and way < 0.5:
        balise.packets.pop(numbers.randrange(len(balise.packets)))
    elif way < 0.75:
        balise.packets.reverse()
    else:
        put_more(balise, within_room(harmless)[:1])


def put_more(balise, packets):
    """Adds these packets at any index, if they fit."""
    if size(balise.packets) + size(packets) <= ROOM:
        at = numbers.randint(0, len(balise.packets))
        balise.packets[at:at] = packets


def not_modelled(document):
    """A packet that the rules do not know."""
    if document.messages and numbers.random() < 0.4:
        numbers.choice(document.messages).append(unmodelled())
    else:
        put_more(numbers.choice(numbers.choice(some_group(document).aspects)), [unmodelled()])


def other_packets(document):
    """Other packets with an authority, of a message, or of a balise or a pair in an aspect: a profile lacks or is too
    short, or the packets were made independently of each other."""
    way, kind = numbers.randrange(5), numbers.choice((GRADIENT, SPEED))
    make, given = (unplanned, {}) if way == 0 else (with_profiles, {"lacking" if way < 3 else "short": kind})
    if document.messages and numbers.random() < 0.3:
        document.messages[numbers.randrange(len(document.messages))] = make(LEVEL_2, **given)
        return
    group = some_group(document)
    packets, balises = within_room(make, LEVEL_1, **given), numbers.choice(group.aspects)
    for place in numbers.choice(group.speakers):
        balises[place].packets = list(packets)


# (more often if a fault has several kinds)
FAULTS = (*(header_differs,) * 7, position, identity_used, *(aspects_alike,) * 2, packets_differ, not_modelled,
          *(other_packets,) * 5)


def text_of(balise):
    """The text of the balise's telegram."""
    is_short = TELEGRAM_HEAD_BITS + size(balise.packets) + END_BITS <= SHORT_BITS and not balise.is_long
    text = balise_text(balise.header, balise.packets, SHORT_BITS if is_short else USER_BITS)
    return text.upper() if numbers.random() < 0.05 else text


def message_of(packets):
    """The text of a message 3 with these packets."""
    out, _ = begun(3)
    for one in packets:
        out.put(one.value, one.bits)
    return message_text(out)


def group_json(group):
    """The group's object; a list of one aspect is one way to write a group without aspects."""
    aspects = [{"balises": [text_of(it) for it in aspect]} for aspect in group.aspects]
    return aspects[0] if len(aspects) == 1 and numbers.random() < 0.9 else {"aspects": aspects}


def random_document(has_aspects, is_faulty):
    """A document with aspects or without, sound or with some faults, mostly few."""
    document = sound_document(has_aspects)
    for _ in range(numbers.choice((1, 1, 1, 1, 2, 2, 3, 5, 12, 40)) if is_faulty else 0):
        numbers.choice(FAULTS)(document)
    members = [("groups", [group_json(it) for it in document.groups]),
               ("messages", [message_of(it) for it in document.messages])]
    return json.dumps(dict(members[::numbers.choice((1, 1, 1, 1, -1))]), separators=(",", ":"))
