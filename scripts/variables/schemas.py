"""The JSON schemas of telegrams and radio messages, made of the table of variables."""
from variables.page import condition
from variables.table import Part

DRAFT = "https://json-schema.org/draft/2020-12/schema"
TITLE = "A {0}, as balisecheck decode{1} writes it and balisecheck encode{1} reads it"
USER_BITS = {"description": "the size of the telegram", "type": "integer",
             "oneOf": [{"const": 210, "title": "short"}, {"const": 830, "title": "long"}]}
LONGEST_PACKET = 8191  # bits


def span(first, last, words):
    """The schema of the numbers of a span, with their meaning."""
    numbers = {"const": first} if first == last else {"minimum": first, "maximum": last}
    return {**numbers, **({"title": words} if words else {})}


def number(rows):
    """What a key may have: the numbers of its variable, or of the variables that share it."""
    texts = [f"{it.variable} {condition(it)}" if rows[1:] else f"{it.variable}: {it.meaning}" for it in rows]
    spans = [span(*it) for it in rows[0].spans]
    return {"description": ", ".join(texts), "type": "integer", **(spans[0] if not spans[1:] else {"oneOf": spans})}


def value(key, own, nodes, header):
    """The schema of a member: a list, an object, a body or a number."""
    node = own[0]
    if isinstance(node, Part):
        one = form_of(node.nodes, header, given=node.condition[0])
        sizes = {"minItems": node.least, "maxItems": node.least + 31}
        return {"type": "array", "items": one, **sizes} if node.count else one
    if key == "body":
        digits = 2 * -(-(LONGEST_PACKET - sum(it.width for it in nodes)) // 8)
        return {"description": "the packet's bits after its head, and zeros up to a whole byte, as hexadecimal digits",
                "type": "string", "maxLength": digits, "pattern": "^(?:[0-9A-Fa-f]{2})*(?![\\s\\S])"}
    if node.keys[1:]:  # NID_C and NID_BG in one variable
        own = [it for it in header if it.key == key.removeprefix("prv_")]
    return number(own)


def form_of(nodes, header, first=(), last=(), given="", **more):
    """The schema of an object, in the order of the bits. What depends on another variable than a given one may be
    absent; if that one has a key, by its number."""
    members = {}
    for node in nodes:
        for key in node.keys:
            members.setdefault(key, []).append(node)
    optional = {key: own[0].condition for key, own in members.items() if own[0].condition[0] != given and not own[1:]}
    properties = {key: value(key, own, nodes, header) for key, own in members.items()} | dict(first) | dict(last)
    conditions = [{"if": {"properties": {other: {"enum": numbers}}, "required": [other]},
                   "then": {"required": [key]}, "else": {"properties": {key: False}}}
                  for key, (name, numbers) in optional.items()
                  for other, own in members.items() if getattr(own[0], "variable", "") == name]
    return {**more, "type": "object", "properties": properties,
            "required": [it for it in properties if it not in optional], "additionalProperties": False,
            **({"allOf": conditions} if conditions else {})}


def packets(layouts, about, kind):
    """The schema of packets of any number, and those of the layouts by their names."""
    forms, choices, known = {}, [], []
    for name in (it for it in layouts if it.rpartition(" ")[0] == kind and layouts[it]):
        what, reference = name.rpartition(" ")[2], {"$ref": f"#/$defs/{name.replace(' ', '_')}"}
        is_other = what == "other"
        head = {"nid_packet": {"type": "integer"} if is_other else {"const": int(what)}}
        forms[name.replace(" ", "_")] = form_of(layouts[name], layouts["header"], head, description=about[name])
        known += [] if is_other else [int(what)]
        choices.append({"if": {"properties": {"nid_packet": {"enum": known}}}, "else": reference} if is_other else {
            "if": {"properties": {"nid_packet": {"const": int(what)}}}, "then": reference})
    item = {"type": "object", "properties": {"nid_packet": number(layouts[f"{kind} 0"][:1])},
            "required": ["nid_packet"], "allOf": choices}
    return {"type": "array", "items": item}, forms


def telegram(layouts, about):
    """The schema of a telegram."""
    items, forms = packets(layouts, about, "packet")
    form = form_of(layouts["header"], (), {"user_bits": USER_BITS}, {"packets": items})
    return {"$schema": DRAFT, "title": TITLE.format("telegram", ""), **form, "$defs": forms}


def message(layouts, about):
    """The schema of a radio message, one of whose packets has one of these numbers (this project's rule)."""
    kinds, forms = [], {}
    for name, kind, needed in (("message 3", "packet", [15]), ("message 136", "train packet", [0, 1])):
        items, own = packets(layouts, about, kind)
        contains = {"type": "object", "properties": {"nid_packet": {"enum": needed}}, "required": ["nid_packet"]}
        last = {"nid_message": {"const": int(name.split()[1])}, "packets": {**items, "contains": contains}}
        kinds.append(form_of(layouts[name], layouts["header"], last=last, description=about[name]))
        forms |= own
    return {"$schema": DRAFT, "title": TITLE.format("radio message", " --radio"), "type": "object",
            "properties": {"nid_message": {"enum": [3, 136]}}, "required": ["nid_message"],
            "if": {"properties": {"nid_message": {"const": 3}}}, "then": kinds[0], "else": kinds[1], "$defs": forms}
