#!/usr/bin/env python3
"""Random telegrams and radio messages with their JSON, by the table of variables in docs/assurance/trace.csv.

    bench/records.py telegrams|messages COUNT FORMS

Telegrams have 830 bits. Messages have up to 120 bytes, and half of them are position reports. The texts go to standard
output, and the lines that `decode` must write go to the file FORMS; no bit is read back for them. The records depend
only on COUNT.
"""
import collections
import itertools
import json
import pathlib
import random
import sys

sys.dont_write_bytecode = True  # so that no folder for it is made beside the scripts
sys.path.append(str(pathlib.Path(__file__).resolve().parents[1] / "scripts"))

from variables.table import Row, layouts_of, read_rows  # noqa: E402  (the path comes first)

MOVEMENT, POSITION, AUTHORITY = 3, 136, 15
USER_BITS, HEAD_BITS, END_BITS = 830, 23, 8
LEAST, MOST = 40, 120  # bytes of a message
FORM = json.JSONEncoder(separators=(",", ":"), sort_keys=True)
numbers = random.Random(USER_BITS)
Packet = collections.namedtuple("Packet", "number value bits record")
LAYOUTS = layouts_of(read_rows())
KNOWN = [number for number in range(255) if f"packet {number}" in LAYOUTS]
OTHERS = [number for number in range(255) if number not in KNOWN]


def is_there(node, known):
    """Whether a variable or an object is present beside these numbers of other variables."""
    other, those = node.condition
    return not other or known.get(other) in those


class Writer:
    """Writes the variables of a layout, one after the other, as the number that all their bits are. Numbers are given
    by the names of variables, as a number or an iterator. All others are random; then lists have at most `most` items,
    and the end of a body is at most at bit `end`."""

    def __init__(self, given, most=31, end=0):
        self.given, self.most, self.end = given, most, end
        self.value, self.bits, self.after_length = 0, 0, None

    def put(self, value, bits):
        self.value, self.bits = self.value << bits | value, self.bits + bits
        return value

    def number(self, row):
        """The next number of a variable."""
        given = self.given.get(row.variable)
        if given is not None:
            return given if isinstance(given, int) else next(given)
        if row.variable == "N_ITER":
            return numbers.randint(0, self.most)
        spans, sums = row.sizes
        first, size = spans[0]
        if len(spans) > 1:  # (a special number is as likely as a usual one, or sometimes as all usual ones)
            first, size = numbers.choices(spans, cum_weights=sums if numbers.random() < 0.9 else None)[0]
        return first + int(numbers.random() * size)

    def object(self, nodes, record, known):
        """Writes an object. `known` has its numbers, on which others depend."""
        for node in nodes:
            if isinstance(node, Row):
                if not node.when or is_there(node, known):
                    self.variable(node, record, known)
            elif node.count:
                items = record[node.key] = []
                self.items(node, items, node.least)
                self.items(node, items, self.put(self.number(node.count), node.count.width))
            elif is_there(node, known):
                self.object(node.nodes, record.setdefault(node.key, {}), known)

    def items(self, part, items, number):
        """Writes `number` items of a list."""
        for _ in range(number):
            items.append({})
            self.object(part.nodes, items[-1], {})

    def variable(self, row, record, known):
        """Writes a variable, which is in the record too if it has keys: both parts of an identity have one."""
        if row.variable == "body":
            bits = numbers.choice((self.end - self.bits, numbers.randint(0, self.end - self.bits)))
            text = self.put(numbers.getrandbits(bits), bits) << -bits % 8
            record["body"] = f"{text:0{(bits + 7) // 8 * 2}x}" * bool(bits)
        elif row.variable in ("L_PACKET", "L_MESSAGE"):
            self.put(0, row.width)
            self.after_length = self.bits
        else:
            known[row.variable] = value = self.put(self.number(row), row.width)
            if row.keys:
                record.update(zip(row.keys, divmod(value, 1 << 14) if len(row.keys) > 1 else (value,)))


def packet(number, room, kind="packet", **given):
    """A packet of at most `room` bits, or None."""
    layout, most = LAYOUTS.get(f"{kind} {number}", LAYOUTS[f"{kind} other"]), numbers.choice((0, 1, 2, 4, 8, 31))
    while True:
        out, record = Writer({"NID_PACKET": number, **given}, most, room), {}
        out.object(layout, record, {})
        if out.bits <= room:
            break
        if most == 0:
            return None
        most //= 2
    if out.after_length:
        out.value |= out.bits << out.bits - out.after_length
    if "body" in record:
        record["l_packet"] = out.bits
    return Packet(number, out.value, out.bits, record)


def packets(out, end, kind, first):
    """Writes these packets up to bit `end`, as far as they fit, and others without a layout as long as one does."""
    others = [number for number in range(255) if f"{kind} {number}" not in LAYOUTS]
    for number in itertools.chain(first, iter(lambda: numbers.choice(others), None)):
        if end - out.bits < HEAD_BITS:
            return
        one = packet(number, end - out.bits, kind)
        if one:
            out.put(one.value, one.bits)
            yield one.record


def some_known():
    """Some numbers of packets with a layout, in any order."""
    return numbers.sample(KNOWN, numbers.randint(0, len(KNOWN)))


def telegram_text(out, user_bits=USER_BITS):
    """The text of the telegram: packet 255 follows, then ones, and zeros that make whole bytes."""
    fill = user_bits - out.bits
    out.put((1 << fill) - 1, fill)
    out.put(0, -user_bits % 8)
    return f"{out.value:0{out.bits // 4}x}"


def telegram():
    """The text of a telegram, and its record."""
    out, record = Writer({}), {"user_bits": USER_BITS}
    out.object(LAYOUTS["header"], record, {})
    record["packets"] = list(packets(out, USER_BITS - END_BITS, "packet", some_known()))
    return telegram_text(out), record


def message_text(out):
    """The text of the message: zeros make whole bytes, whose number is its length."""
    out.put(0, -out.bits % 8)
    return f"{out.value | out.bits // 8 << out.bits - out.after_length:0{out.bits // 4}x}"


def begun(kind):
    """A message of this kind up to its packets, and its record."""
    out, record = Writer({"NID_MESSAGE": kind}), {}
    out.object(LAYOUTS[f"message {kind}"], record, {})
    return out, record


def written(kind, end):
    """A message of this kind of at most `end` bits, without its length, and its record."""
    first = ("packet", [AUTHORITY, *some_known()]) if kind == MOVEMENT else ("train packet", [numbers.randint(0, 1)])
    out, record = begun(kind)
    record["packets"] = list(packets(out, end, *first))
    return out, record


def message(least=LEAST, most=MOST):
    """The text of a message of up to a number of bytes between these two, and its record."""
    out, record = written(numbers.choice((MOVEMENT, POSITION)), 8 * numbers.randint(least, most))
    return message_text(out), record


def main():
    kind, count, forms = sys.argv[1:]
    with open(forms, "w", encoding="utf-8") as file:
        for _ in range(int(count)):
            text, record = telegram() if kind == "telegrams" else message()
            print(text)
            file.write(FORM.encode(record) + "\n")


if __name__ == "__main__":
    main()
