#!/usr/bin/env python3
"""Writes the document of a line of COUNT sound groups, the same one each time: bench/documents.py COUNT [ASPECTS]

Each group is a pair of duplicates with the same packets: an authority (12) that gradients (21) and speeds (27) reach.
All identities differ. There are no messages. With more than one aspect, 254 at most, each has packets and a counter of
its own.
"""
import json
import sys

from records import LAYOUTS, USER_BITS, Writer, numbers, packet, telegram_text

GROUPS_OF_COUNTRY, LONGEST, NO_TIMEOUT, ANY_MESSAGE = 1 << 14, 8191, 1023, 255
BOTH, METRES = 2, 1  # Q_DIR, Q_SCALE
# Of a profile: the variables of a distance and of a number, and the number that is an end mark.
PROFILES = {21: ("D_GRADIENT", "G_A", 255), 27: ("D_STATIC", "V_STATIC", 127)}
USUAL = {"M_VERSION": 33, "N_PIG": 0, "N_TOTAL": 0, "M_DUP": 0, "M_MCOUNT": 255, "NID_C": 0, "NID_BG": 0, "Q_LINK": 1}


def authority(number, limit, q_dir=BOTH, q_scale=METRES):
    """An authority of one section that stops at the limit: packet 12 or 15."""
    parts = dict.fromkeys(("V_LOA", "N_ITER", "Q_SECTIONTIMER", "Q_ENDTIMER", "Q_DANGERPOINT", "Q_OVERLAP"), 0)
    return packet(number, LONGEST, Q_DIR=q_dir, Q_SCALE=q_scale, T_LOA=NO_TIMEOUT, L_ENDSECTION=limit, **parts)


def profile(number, limit, q_dir=BOTH, q_scale=METRES, is_open=False):
    """A profile of up to six elements: packet 21 or 27. The last one is an end mark at the limit, unless it is open."""
    distance, value, end = PROFILES[number]
    count = numbers.randrange(6)
    places = [0, *sorted(numbers.randint(0, limit) for _ in range(count)), limit]
    counts = iter([count] if number == 21 else [0, count, *[0] * count])
    values = [*(numbers.randrange(121) for _ in range(count)), 20 if is_open else end]
    given = {distance: (end - begin for begin, end in zip(places, places[1:])), value: iter(values), "N_ITER": counts}
    return packet(number, LONGEST, Q_DIR=q_dir, Q_SCALE=q_scale, **given)


def balise_text(header, packets, user_bits=USER_BITS):
    """The text of the telegram with these numbers in its header, and these packets."""
    out = Writer({**USUAL, **{key.upper(): number for key, number in header.items()}})
    out.object(LAYOUTS["header"], {}, {})
    for one in packets:
        out.put(one.value, one.bits)
    return telegram_text(out, user_bits)


def pair(place, counter=ANY_MESSAGE):
    """The texts of the two telegrams of the group at this place, with this M_MCOUNT."""
    limit = numbers.randrange(1 << 15)
    packets = [authority(12, limit), profile(21, limit), profile(27, limit)]
    country, number = divmod(place, GROUPS_OF_COUNTRY)
    header = {"n_total": 1, "m_mcount": counter, "nid_c": country, "nid_bg": number}
    return [balise_text({**header, "n_pig": position, "m_dup": position + 1}, packets) for position in (0, 1)]


def group(place, aspects):
    """The group at this place."""
    if aspects == 1:
        return {"balises": pair(place)}
    return {"aspects": [{"balises": pair(place, counter)} for counter in range(aspects)]}


def main():
    count, aspects = int(sys.argv[1]), int(sys.argv[2]) if len(sys.argv) > 2 else 1
    print('{"groups":[', end="")
    for place in range(count):
        print("," * (place > 0) + json.dumps(group(place, aspects), separators=(",", ":")), end="")
    print('],"messages":[]}')


if __name__ == "__main__":
    main()
