"""The schemas describe what a program may send to balisecheck, as far as a JSON schema can. In forms and documents of
the examples one thing is changed: what the program accepts must be valid, and what it refuses for a reason that a
schema can express must not be."""
import collections
import json
import re

import pytest

from hostile import CHECK, ENCODE, ENCODE_RADIO, Job, shared
from runner import EXAMPLES, TOP, blocks, flipped
from variables.table import read_rows

jsonschema = pytest.importorskip("jsonschema", reason="JSON schemas (python3-jsonschema)")
# What no schema expresses: the digits and pad bits of a body, and the bits of a packet or a telegram; in documents what
# a telegram contains after its header, or a message, and aspects of different counts.
FORM = re.compile(r"refused: line 1: (?:form range at (?:.*/body|/packets/\d+)|too big)\n")
TEXT = re.compile(r"refused: (?:group \d+: aspects|(?:group \d+(?: aspect \d+)? balise \d+|message \d+): "
                  r"(?!spare at 15 end 17\n)(?:short|spare|length|no ).*)\n")
# The numbers beside the ends of the spans that a key has somewhere.
NUMBERS = collections.defaultdict(lambda: {0, 1})
for row in read_rows():
    for own in row.keys:
        NUMBERS[own] |= {end + more for span in row.spans for end in span[:2] for more in (-1, 0, 1)}


def documents(*names):
    """The documents of these names in the examples."""
    return [json.loads(path.read_text()) for name in names for path in sorted(EXAMPLES.glob(f"check/{name}.json"))]


# The program's words, the values that are changed, and the refusals that the schema cannot express.
FORMS = [json.loads(line) for path in sorted(EXAMPLES.glob("*.json")) for line in path.read_text().splitlines()]
MESSAGES = [json.loads(form) for _, _, form, *_ in blocks("messages.txt") if form.startswith("{")]
PACKETS = [packet for it in FORMS if "nid_message" not in it for packet in it["packets"]]
MESSAGES.append({**MESSAGES[0], "packets": [*MESSAGES[0]["packets"], *PACKETS]})  # (lists of 32 items fit only here)
KINDS = {"telegram": (ENCODE, [it for it in FORMS if "nid_message" not in it], FORM),
         "message": (ENCODE_RADIO, MESSAGES + [it for it in FORMS if "nid_message" in it], FORM),
         "line": (CHECK, documents("sound-line", "controlled-group"), TEXT)}


def others(item, key):
    """What an item can be replaced by."""
    if isinstance(item, dict):
        return [{**item, "x": 0}, {**item, "nid_ntc": 0}, {**item, "nid_c": 0}, {**item, "balises": []}, [], 0]
    if isinstance(item, list):
        return [[], {}, 0, item * 9, (item * 33)[:32], (item * 33)[:33]]
    if isinstance(item, str):
        bits = (0, 1, 7, 8, 12, 15, 16, 4 * len(item) - 1, 4 * len(item) - 4)
        return [item + "0", item + "00", item[:-1], item[:-2], item.upper(), "g" + item[1:], item + "\n", "", 0,
                *(flipped(item, bit) for bit in bits if 0 <= bit < 4 * len(item))]
    return [*NUMBERS[key], 1.5, "1", None, True]


def changes(value, path=()):
    """The value with one thing changed, each after a key that is equal for equal changes of things of one kind. A kind
    is a path without the indices of lists, but with the numbers of packets."""
    for other in others(value, path[-1] if path else ""):
        yield (path, json.dumps(other, sort_keys=True)), other
    for step in value if isinstance(value, dict) else range(len(value)) if isinstance(value, list) else ():
        item, rest = value[step], value.copy()
        here = *path, step if isinstance(step, str) else item.get("nid_packet") if isinstance(item, dict) else None
        del rest[step]
        yield here, rest
        for change, other in changes(item, here):
            changed = value.copy()
            changed[step] = other
            yield change, changed


def once(keyword):
    """The keyword of a schema, applied once to each part of documents: changed ones share all parts but one."""
    known = {}

    def found(validator, *those):
        place = *map(id, those[1:]),  # the part, and the schema that has the keyword
        if place not in known:  # (what is kept has its `id` for itself)
            known[place] = those, [*keyword(validator, *those)]
        return known[place][1]
    return found


@pytest.mark.parametrize("name", KINDS)
def test_changed(name):
    """What the program accepts is valid. What it refuses is not, except for what no schema expresses."""
    schema, usual = json.loads((TOP / f"schemas/{name}.json").read_text()), jsonschema.Draft202012Validator
    usual.check_schema(schema)
    validator = jsonschema.validators.extend(usual, {key: once(it) for key, it in usual.VALIDATORS.items()})(schema)
    words, values, untold = KINDS[name]
    for value in documents("*") if name == "line" else values:
        validator.validate(value)
    changed = [*{key: other for value in values for key, other in changes(value)}.values()]
    texts = [json.dumps(it) for it in changed]
    for document, text, (answer, _) in zip(changed, texts, shared().play([Job(words, it.encode()) for it in texts])):
        if answer.status < 2 or not untold.fullmatch(answer.stdout) or '"aspects": []' in text:
            assert validator.is_valid(document) == (answer.status < 2), f"{text}\n{answer.stdout}"
