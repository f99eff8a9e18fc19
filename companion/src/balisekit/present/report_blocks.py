"""A block of a report for each group and message: its entries, its picture, and its telegrams in words.

They are written here because a template would take most of the time of a report.
"""
from __future__ import annotations

import re
from collections import defaultdict
from typing import (
    Collection,
    Dict,
    Iterable,
    Iterator,
    List,
    Mapping,
    Match,
    NamedTuple,
    Optional,
    Sequence,
    Set,
    Tuple,
)

from balisekit.drawing.group import LinkMark, picture_of, picture_of_message
from balisekit.drawing.sheet import Picture
from balisekit.drawing.svg import escaped, in_page
from balisekit.engine.grammar import Finding
from balisekit.engine.program import Record
from balisekit.engine.records import Form
from balisekit.etcs.geometry import Kilometres, kilometre
from balisekit.etcs.holes import Kept, Pattern, own_hole
from balisekit.etcs.places import Identities, places_of_rows
from balisekit.etcs.variables import unit_dm
from balisekit.present.pages import macro
from balisekit.present.refusals import RefusedInput, refused
from balisekit.present.report import Listed, packets_of
from balisekit.present.telegram_parts import Said, telegram_words
from balisekit.rules.checking import AcceptedMessage, Checked, Telegrams
from balisekit.rules.discovery import letter_of
from balisekit.rules.line import Line
from balisekit.rules.location import BaliseGroup
from balisekit.tables.model import Group
from balisekit.tables.names import clean, describe_balise, describe_group, describe_message, describe_rows


class Block(NamedTuple):
    """A group, or a message."""

    id: str
    title: str
    where: str
    """The rows of its telegrams, or the group that its distances count from."""
    body: str
    """Its picture and its telegrams, as the page has them."""
    entries: Sequence[Listed] = ()
    packets: Collection[int] = ()
    """Each NID_PACKET."""
    has_picture: bool = True
    identity: str = ""
    """NID_C and NID_BG, if they are known."""
    km: str = ""
    track: str = ""
    left_out: str = ""
    balises: str = ""
    aspects: int = 0

    @property
    def place(self) -> str:
        """The target of a finding's link: its picture if it has one."""
        return picture_id(self.id) if self.has_picture else self.id

    @property
    def is_plain(self) -> bool:
        """Whether it has no entry and was not left out."""
        return not (self.entries or self.left_out)


class Body(NamedTuple):
    """The picture and the telegrams of groups that have the same content."""

    pattern: Pattern
    n_pig: Sequence[Optional[int]]
    """By rows."""
    packets: Collection[int]
    """Each NID_PACKET."""


KEPT: Kept[Body] = Kept(1 << 7)
"""Many groups of a line differ only in their names, identities and kilometres."""
IDENTITY = re.compile('"nid_(?:c|bg)":(?!16383)[0-9]+')
"""A part of an identity in a record. NID_BG 16383, an identity that is not known, has words of its own."""
OF_GROUP, OF_ROW = 2, 3
"""How many words of their own a group and each of its rows have. Those of a row: its number, heading and digits."""


class BodyContent(NamedTuple):
    """All that the body of a group depends on, except its kilometres."""

    group: Group
    records: Mapping[int, str]
    """What the program has read, with holes for identities."""
    identities: Sequence[str]
    """The values of these holes."""
    findings: Sequence[Finding]
    marked: Mapping[int, Set[int]]
    """The packets that an entry is about, by rows."""
    links: Sequence[LinkMark]
    refused: Mapping[int, RefusedInput]
    full: bool

    @property
    def key(self) -> Tuple[object, ...]:
        """Equal for groups that have the same body."""
        order = {number: place for place, number in enumerate(sorted(self.group.places))}
        return (
            self.full,
            *((one.name, *[order[row.number] for row in one.rows]) for one in self.group.aspects),
            *((each.aspect, each.rule, each.direction, each.balise, each.packet) for each in self.findings),
            *((order[number], *sorted(packets)) for number, packets in self.marked.items()),
            *self.records.values(),
        )


def _with_holes(records: Sequence[str], first: int) -> Tuple[List[str], List[str]]:
    """Records with holes for identities, the first of which has this number, and these identities, each once."""
    known: Dict[str, str] = {}

    def hole(found: Match[str]) -> str:
        if found[0] not in known:
            key, number = found[0].split(":")
            known[found[0]] = f'{key}:"{own_hole(first + len(known)) * len(number)}"'
        return known[found[0]]

    return [IDENTITY.sub(hole, record) for record in records], [text.split(":")[1] for text in known]


def picture_id(block: str) -> str:
    """The place of the picture of a block in the page."""
    return f"p{block}"


def blocks(checked: Checked, line: Line, found: Iterable[Listed], full: bool, part: int, count: int) -> Iterator[Block]:
    """The blocks of one of `count` equal parts of the groups, in the table's order. The last part has the messages.

    A full one has nothing folded.
    """
    begin, end = (len(line.groups) * number // count for number in (part, part + 1))
    by_block: Dict[str, List[Listed]] = {}
    for each in found:
        by_block.setdefault(each.block, []).append(each)
    left_out = {left_out.group.name: clean(left_out.why) for left_out in checked.left_out}
    items = {item.id: item for item in refused(checked)}
    for group, station in zip(line.directed[begin:end], line.groups[begin:end]):
        refusals = {number: items[f"r{number}"] for number in group.places if f"r{number}" in items} if items else {}
        entries, why = by_block.get(f"g{station.number}", []), left_out.get(group.name, "")
        yield _block(station, group, checked.accepted, entries, refusals, full)._replace(left_out=why)
    if part + 1 < count:
        return
    if checked.accepted_messages:
        identities = Identities(line.directed, checked.accepted)
    for message in checked.accepted_messages:
        yield _message(message, by_block.get(f"m{message.message.number}", []), identities, full)
    for bad in checked.refused_messages:
        item, heading = items[f"m{bad.message.number}"], f"message of {describe_message(bad.message)}"
        body = _telegram("", item.sentence, clean(bad.message.text), "", True, item.program)
        yield Block(item.id, heading, "", body, has_picture=False, left_out="refused")


def _block(
    station: BaliseGroup,
    group: Group,
    telegrams: Telegrams,
    entries: Sequence[Listed],
    items: Mapping[int, RefusedInput],
    full: bool,
) -> Block:
    """The block of a group."""
    where, links = Kilometres(station.km, station.rising), list(_link_marks(entries, telegrams))
    read = [number for number in sorted(group.places) if number in telegrams]
    records, identities = _with_holes(list(map(telegrams.line, read)), OF_GROUP + OF_ROW * len(group.places))
    marked = _marked(entries, "r")
    content = BodyContent(group, dict(zip(read, records)), identities, _findings(entries), marked, links, items, full)
    body, texts = _body(content, where, not station.unread)
    return Block(
        f"g{station.number}",
        clean(group.name),
        f"{describe_rows(group)} of the table",
        body.pattern.filled(texts, [*_own_words(f"g{station.number}", group, body), *identities]),
        entries,
        body.packets,
        not station.unread,
        "{}/{}".format(*station.identity) if station.identity else "",
        "" if station.km is None else kilometre(station.km),
        clean(group.track),
        "",
        str(station.balises),
        len(group.aspects),
    )


def _body(content: BodyContent, where: Kilometres, has_picture: bool) -> Tuple[Body, Sequence[str]]:
    """The picture and the telegrams of a group, and the kilometres for their holes."""

    def make(place: Kilometres) -> Body:
        forms = {number: Record(record).shared for number, record in content.records.items()}
        n_pig = [forms[number]["n_pig"] if number in forms else None for number in sorted(content.group.places)]
        packets = sorted({packet["nid_packet"] for form in forms.values() for packet in form["packets"]})
        return Body(Pattern(_written(content, forms, place, has_picture), True), n_pig, packets)

    if not has_picture or content.links:  # (no other group has the same body)
        return make(where), ()
    return KEPT.of(content.key, None, where, make)


def _own_words(id: str, group: Group, body: Body) -> Iterator[str]:
    """The words for the holes of a body, escaped."""
    track, rows = group.track, {row.number: row for row in group.rows()}
    yield from (id, escaped(clean(group.name)))
    for number, n_pig in zip(sorted(rows), body.n_pig):
        row = rows[number]
        yield str(number)
        yield escaped(describe_balise(group, row, n_pig, track))
        yield escaped(clean(row.telegram))


def _written(content: BodyContent, forms: Mapping[int, Form], where: Kilometres, has_picture: bool) -> str:
    """The picture and the telegrams of a group, with holes for its own words."""
    group, id, name = content.group, own_hole(0), own_hole(1)
    found: List[str] = []
    if has_picture:
        picture = picture_of(group, forms, content.findings, where=where, links=content.links, name=name)
        found.append(_figure(id, picture))
    said: Dict[int, Said] = defaultdict(Said)
    for place, (number, here) in enumerate(places_of_rows(group, forms, where).items()):
        row, heading, digits = (own_hole(OF_GROUP + OF_ROW * place + which) for which in range(OF_ROW))
        if number in content.refused:
            item = content.refused[number]
            found.append(_telegram(f"r{row}", item.sentence, digits, "", True, item.program))
        elif number in forms:
            marked, known = content.marked.get(number, ()), said[group.places[number]]
            words = telegram_words(forms[number], here, f"r{row}", marked, row, known)
            found.append(_telegram(f"r{row}", heading, digits, words, content.full))
        else:
            found.append(_telegram(f"r{row}", f"{heading}: not looked at", digits, "", content.full))
    return "".join(found)


def _figure(block: str, picture: Picture) -> str:
    return f'<figure class="wide" id="{picture_id(block)}">{in_page(picture)}</figure>\n'


def _telegram(id: str, heading: str, digits: str, words: str, is_open: bool, refused: str = "") -> str:
    """A telegram or message, with the program's words if it has refused it. `words` are HTML."""
    head = f"<details{f' id={id}' * bool(id)}{' open' * is_open}><summary><bdi>{escaped(heading)}</bdi></summary>"
    said = f"<p class=program>{escaped(refused)}</p>" if refused else ""
    return f"{head}{said}<pre>{escaped(digits)}</pre>{words and f'<pre>{words}</pre>'}</details>\n"


def _marked(entries: Sequence[Listed], kind: str) -> Dict[int, Set[int]]:
    """The packets that these are about, by the numbers of their rows, or of their messages."""
    found: Dict[int, Set[int]] = {}
    for id, packet in (place for each in entries for place in packets_of(each.entry)):
        if id[0] == kind:
            found.setdefault(int(id[1:]), set()).add(packet)
    return found


def _link_marks(entries: Sequence[Listed], forms: Mapping[int, Form]) -> Iterator[LinkMark]:
    """Marks of links that rules L report, and of places of other remarks, unless they are accepted."""
    for remark in (each.entry.remark for each in entries if each.entry.remark and not each.accepted):
        where = remark.location
        if letter_of(remark.rule) == "L" and where.row and where.link is not None and where.row.number in forms:
            packet = forms[where.row.number]["packets"][where.packet or 0]
            place = sum(link["d_link"] for link in packet["links"][: where.link + 1]) * unit_dm(packet)
            yield LinkMark(where.row.number, where.direction, place, remark.rule, clean(remark.sentence), " by D_LINK")
        for row, direction, place in remark.marks:
            if row and row.number in forms:
                yield LinkMark(row.number, direction, place, remark.rule, clean(remark.sentence))


def _findings(some: Iterable[Listed]) -> List[Finding]:
    return [place.finding for each in some for place in each.entry.findings]


def _message(item: AcceptedMessage, entries: Sequence[Listed], identities: Identities, full: bool) -> Block:
    """The block of a message that the program has read."""
    form, number, heading = item.form, item.message.number, f"message of {describe_message(item.message)}"
    group, here, id = identities.group_of(form), identities.here(form), f"m{number}"
    where = f"its places count from {describe_group(group)}" if group else ""
    picture = picture_of_message(heading, form, _findings(entries), here.kilometres)
    words = telegram_words(form, here, id, _marked(entries, "m").get(number, ()))
    body = _telegram("", "in words", clean(item.message.text), words, full)
    body = f"{_figure(id, picture)}{body}" if picture else body
    packets = {packet["nid_packet"] for packet in form["packets"]}
    return Block(id, heading, where, body, entries, packets, picture is not None)


def block_html(block: Block, full: bool) -> str:
    """A block as the page has it."""
    parts = [f'<section class="group" id="{block.id}"{_hidden(block, full)}>\n<h3><bdi>{escaped(block.title)}</bdi>']
    parts += [f" <span>{each}</span>" for each in (block.identity, block.km and f"km {block.km}") if each]
    track = block.track and f"track <bdi>{escaped(block.track)}</bdi>, "
    left_out = block.left_out and f" — left out of the check: {escaped(block.left_out)}"
    parts.append(f"</h3>\n<p>{track}{escaped(block.where)}{left_out}</p>\n")
    if block.entries:
        finding = macro("entries.html", "finding")
        parts += [finding(each, block.place if block.has_picture else "") for each in block.entries]
    return "".join([*parts, block.body, "</section>\n"])


def _hidden(block: Block, full: bool) -> str:
    return ' data-print="no"' if block.is_plain and not full else ""


def overview_row(block: Block, has_names: bool) -> str:
    """The row of a block in the table of all groups."""
    track = f"<td><bdi>{escaped(block.track)}</bdi>" if has_names else ""
    link = f"<th scope=row><a href=#{block.id}><bdi>{escaped(block.title)}</bdi></a>"
    packets = " ".join(map(str, sorted(block.packets)))
    numbers = f"<td>{block.identity}<td>{block.balises}<td>{block.aspects or ''}<td>{packets}"
    if block.left_out:
        found = "<td class=found>not checked<td>"
    else:
        found = "".join(_found(block.entries, remarks) for remarks in (False, True))
    return f"<tr{' class=left' * bool(block.left_out)}><td>{block.km}{track}{link}{found}{numbers}</tr>\n"


def _found(entries: Sequence[Listed], remarks: bool) -> str:
    """A cell: how many remarks, or else findings, there are, and how many of them were accepted. Empty for none."""
    some = [each for each in entries if bool(each.entry.remark) == remarks] if entries else ()
    total, accepted = sum(each.items for each in some), sum(each.items for each in some if each.accepted)
    if not total:
        return "<td>"
    style = '"found quiet"' if all(each.accepted or each.entry.expected for each in some) else "found"
    return f"<td class={style}>{total}{f', {accepted} accepted' if accepted else ''}"
