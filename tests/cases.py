"""The cases of tests/cases as values. No answer comes from the program: each is in the files, or follows from the
numbers that were put into the fields.

    tests/cases.py    prints the cases of `decode`, one a line: name, input line and answer, with tabs between them
"""
import itertools
import json
import re
import shlex

from runner import EXAMPLES, answered, blocks, in_full, marked, respelled
import records

FORM, RADIO, SHORT, LONG = records.FORM, ["--radio"], 210, records.USER_BITS
# A telegram without packets, a radio message, and forms.
TELEGRAM, MESSAGE = in_full("a1007f802000..f c0"), "03048000001900080021e810901ff801f400"
ALONE, MOVEMENT, POSITION = ((EXAMPLES / f"{name}.json").read_text().strip() for name in (
    "header-only", "radio-movement-authority", "radio-position-report"))
HEAD = f"{int(TELEGRAM, 16):b}"[:50]
LISTS = "packet 5, three", "packet 21, three", "packet 27, two"  # packets with lists whose elements are of each kind


def telegram(bits, size):
    """The text of a telegram of this size with these packets."""
    return f"{int((HEAD + bits).ljust(size, '1') + '0' * (-size % 8), 2):x}"


def answer(size, forms):
    """The line of a telegram with packets of these forms."""
    return ALONE.replace("[]", f"[{','.join(forms)}]").replace(str(SHORT), str(size))


def refusal(why, start=0):
    """The line of a refusal, its places counted from a packet that begins at `start`."""
    return "refused: line 1: " + re.sub(r"\d+", lambda place: str(int(place[0]) + start), why)


def sizes(bits):
    """The sizes of telegrams that have room for these packets."""
    return [size for size in (SHORT, LONG) if len(HEAD + bits) + records.END_BITS <= size]


# ---- telegrams


def filler(width):
    """A packet 44 of this many bits."""
    return f"{44:08b}10{width:013b}".ljust(width, "0")


def pushed(bits, after):
    """A long telegram with these packets after a packet 44, so that this many bits follow them: the width of packet 44,
    and the text. Far from the end of the bits the fields of an element are read together."""
    width = LONG - after - len(bits) - len(HEAD)
    return width, telegram(filler(width) + bits, LONG)


def near_the_end(name, bits, form):
    """The packet with 8 to 104 bits after it."""
    for after in range(records.END_BITS, 105):
        width, text = pushed(bits, after)
        body = "00" * -(-(width - records.HEAD_BITS) // 8)
        before = f'{{"body":"{body}","l_packet":{width},"nid_packet":44,"q_dir":2}}'
        yield f"{name}, {after} bits after it", text, answer(LONG, [before, form])


def cut(name, fields):
    """The packet after a packet 44, up to the end of a telegram, which cuts it at each of its bits."""
    bits, ends = "".join(fields), [0, *itertools.accumulate(map(len, fields))]
    for width in range(len(bits)):
        size = SHORT if len(HEAD) + records.HEAD_BITS + width <= SHORT else LONG
        start = size - width
        last = start + max(end for end in ends if end <= width)
        why = f"short at {last} end {size}" if width >= 8 else f"no end at {start} end {start}"
        yield f"{name}, cut after {width} bits", telegram(filler(start - len(HEAD)) + bits[:width], size), refusal(why)


def refused(name, text, fields, ahead):
    """The packet with other digits in each field above a `not`: where telegrams have room, and at a long one's end."""
    for other in re.finditer(r"(?m)^ +not ([01]+): (.*)", text):
        field = len(re.findall(r"(?m)^ +[01]+ ", text[:other.start()])) - 1
        changed = ahead + "".join((*fields[:field], other[1], *fields[field + 1:]))
        for size in sizes(changed):
            why = refusal(other[2], len(HEAD + ahead))
            yield f"{name}, {size} bits, {field}: {other[1]}", telegram(changed, size), why
        width, text_at_end = pushed(changed, records.END_BITS)
        yield f"{name} at the end, {field}: {other[1]}", text_at_end, refusal(other[2], len(HEAD + ahead) + width)


def packets():
    """The packets of packets.txt: complete, with other digits in the field above each line `not`, and cut."""
    known = {}
    for name, *lines in blocks("packets.txt"):
        text, before = "\n".join(lines), [known[it] for it in re.findall(r"(?m)^ +\+ (.+)", "\n".join(lines))]
        fields, ahead = re.findall(r"(?m)^ +([01]+) ", text), "".join(bits for bits, _ in before)
        forms = [form for _, forms in before for form in forms] + re.findall(r"(?m)^ +(\{.*)", text)
        bits = ahead + "".join(fields)
        known[name] = bits, forms
        for size in sizes(bits):
            yield f"{name}, {size} bits", telegram(bits, size), answer(size, forms)
        yield from refused(name, text, fields, ahead)
        if name.startswith(LISTS):
            yield from near_the_end(name, bits, *forms)
        yield from cut(name, fields)
    for place, byte in itertools.product(range(len(TELEGRAM)), "/:@G`g\0é"):
        yield f"digit {place} is {byte!r}", TELEGRAM[:place] + byte + TELEGRAM[place + 1:], refusal("not hexadecimal")


def telegrams():
    """The cases of telegrams.txt and random ones: a name, an input line of `decode`, the line that is written for it,
    and the one that `encode` writes for that, if it is another one than the first."""
    yield from ((name, *map(in_full, lines)) for name, *lines in blocks("telegrams.txt"))
    records.numbers.seed(1)
    for text, record in (records.telegram() for _ in range(20)):
        yield "a random telegram", text, FORM.encode(record)


def messages():
    """The same of messages.txt and of random messages, some with the greatest length."""
    yield from blocks("messages.txt")
    records.numbers.seed(1)
    for text, record in (records.message(size, size) for size in (60, 1020) * 16):
        yield "a random message", text, FORM.encode(record)


# ---- runs of the program: a name, words, input and answer


def told(name, words, given, wanted, back=None):
    """A run, the same with its JSON in another spelling, and the opposite: what was written gives `back`, or the input,
    of which JSON is in its usual form."""
    command, *flag = words
    yield name, words, f"{given}\n", answered(f"{wanted}\n")
    if command != "decode" and not wanted.endswith("not JSON"):
        other = "\n".join(map(respelled, given.split("\n")))
        yield f"{name}, spelled in another way", words, f"{other}\n", answered(f"{wanted}\n")
    if command == "encode" and not wanted.startswith("refused: "):
        usual = "\n".join(FORM.encode(json.loads(line)).lower() for line in given.split("\n"))
        yield f"{name}, decoded", ["decode", *flag], f"{wanted}\n", answered(f"{usual}\n")
    if command == "decode" and not wanted.startswith("refused: "):
        yield f"{name}, encoded", ["encode", *flag], f"{wanted}\n", answered(f"{back or given}\n")


# What a line of forms.txt stands for by its first word. @ is the rest of the line.
KINDS = {"line": "@", "--radio": "@", "telegram": answer(LONG, ["@"]), "short": answer(SHORT, ["@"]),
         "movement": MOVEMENT.replace("[{", "[@,{", 1), "position": re.sub(r"\[.*\]", "[@]", POSITION)}


def forms():
    """The lines of forms.txt."""
    for name, given, wanted in blocks("forms.txt"):
        kind, _, rest = given.partition(" ")
        flag = RADIO * (kind in ("--radio", "movement", "position"))
        yield from told(name, ["encode", *flag], in_full(KINDS[kind].replace("@", rest)), in_full(wanted))


def documents():
    """The documents of documents.txt, also with other line ends, and with a key twice, not read group by group."""
    for name, line, *report in blocks("documents.txt"):
        document, wanted = in_full(line), "\n".join(report)
        yield from told(name, ["check"], document, wanted)
        twice = document if wanted.startswith("refused: ") else document.replace("{", '{"messages":0,', 1)
        for other in twice, f"{document}\r\n":
            yield name, ["check"], other, answered(f"{wanted}\n")


def runs(file):
    """The runs of runs.txt or streams.txt."""
    (_, *lines), *others = blocks(file)
    names = {name: in_full(value) for name, value in (line[1:].split(" ", 1) for line in lines)}
    for name, *lines in others:
        texts = marked(re.sub(rf"@({'|'.join(names)})", lambda found: names[found[1]], line) for line in lines)
        for words in texts["$"].splitlines():
            yield f"{name}: {words}", shlex.split(words), texts["<"], answered(texts[">"], texts["!"])


def examples():
    """Each example of a telegram or a message, with the lines beside it."""
    for path in sorted(EXAMPLES.glob("*.json")):
        flag, text = RADIO * path.name.startswith("radio-"), path.with_suffix(".txt").read_text().strip()
        yield from told(path.name, ["encode", *flag], path.read_text().strip(), text)
    for name, wanted in (("pad-bits-set", f"{ALONE}\nrefused: line 3: pad bits set\n"),
                         ("spare-mark", "refused: line 1: spare at 15 end 17\n")):
        yield name, ["decode"], (EXAMPLES / f"{name}.txt").read_text(), answered(wanted)


def streams():
    """The runs of streams.txt, a report with more bytes than a buffer, and two messages cut anywhere into lines."""
    yield from runs("streams.txt")
    report = "no: findings 2999\n" + "".join([f"F14 group {it}: identity used before\n" for it in range(1, 1000)] + [
        f"F10 message {it} nominal: no gradient\nF12 message {it} nominal: no speed profile\n" for it in range(1000)])
    document = {"groups": [{"balises": [TELEGRAM]}] * 1000, "messages": [MESSAGE] * 1000}
    yield "a long report", ["check"], json.dumps(document), answered(report)
    two = MESSAGE * 2
    for end in range(2, 73, 2):
        folded = "\n".join(two[at:at + end] for at in range(0, len(two), end))
        for data in (f"{folded}\n", f"{two[:end]}\r\n\n{two[end:]}\n"):
            yield f"cut after {end} digits", ["decode", *RADIO], data, answered(f"{MOVEMENT}\n" * 2)


def common(*more):
    """The cases of the files, random ones and examples, and these more of `decode`."""
    for words, some in (["decode"], (*telegrams(), *more)), (["decode", *RADIO], messages()):
        for name, *lines in some:
            yield from told(name, words, *lines)
    yield from (*forms(), *documents(), *runs("runs.txt"), *examples())


def every():
    """All cases, and in one run all lines that a command accepts, and then one that it refuses."""
    yield from (some := [*common(*packets()), *streams()])
    for words in ["decode"], ["encode"], ["decode", *RADIO], ["encode", *RADIO]:
        lines = {given: wanted.stdout for _, those, given, wanted in some if those == words
                 and wanted.status == 0 and given.count("\n") == wanted.stdout.count("\n") == 1}
        lines["x\n"] = f"refused: line {len(lines) + 1}: not {'JSON' if 'encode' in words else 'hexadecimal'}\n"
        yield "all lines", words, "".join(lines), answered("".join(lines.values()))


if __name__ == "__main__":
    for case in (*telegrams(), *packets()):
        print(*case[:3], sep="\t")
