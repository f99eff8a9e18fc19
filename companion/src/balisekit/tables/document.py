"""A document of a line, as `check` of the program reads it, instead of a table."""
from __future__ import annotations

import json
from codecs import BOM_UTF8
from typing import Any, Dict, List, Tuple

from balisekit.errors import TableError, faults_of
from balisekit.io.inputs import Input
from balisekit.tables.account import of_rows
from balisekit.tables.encoding import text_of
from balisekit.tables.grouping import GREATEST_COUNT
from balisekit.tables.model import Aspect, Group, Message, Messages, Row, Table


def is_document(content: bytes) -> bool:
    """Whether the file begins as an object of JSON does, in UTF-8 or UTF-16."""
    return content.lstrip(b"\xef\xbb\xbf\xff\xfe\0 \t\r\n")[:1] == b"{"


def name_by_place(place: int) -> str:
    """The name of a message, by its index."""
    return f"message {place}"


def read(file: Input) -> Tuple[Table, Messages]:
    """The groups and messages of a document. Its groups, aspects and messages are named by their indices."""
    with faults_of(file.path):
        try:
            text, encoding = text_of(file.content)
            if encoding != "utf-8" or file.content.startswith(BOM_UTF8):
                why = f"it is a document in {encoding} or with a byte order mark: save it as UTF-8 without one"
                raise TableError(why)
            form = json.loads(text, object_pairs_hook=_object)
            groups, rows = _groups(form)
            messages = [
                Message(place + 1, _text(text, f"/messages/{place}"), name=name_by_place(place))
                for place, text in enumerate(_list(form, "messages", ""))
            ]
            if sorted(form) != ["groups", "messages"]:
                raise TableError(f"it has the keys {', '.join(form)[:100]}, and a document has groups and messages")
        except (ValueError, RecursionError) as error:
            raise TableError(f"it is no document that can be read: {str(error)[:100]}") from error
    account, of_messages = of_rows([row.number for row in rows]), of_rows([each.number for each in messages])
    table = Table(file.path, file.sha256, encoding, "", (), tuple(rows), tuple(groups), account)
    return table, Messages(file.path, file.sha256, encoding, tuple(messages), of_messages)


def _object(members: List[Tuple[str, Any]]) -> Dict[str, Any]:
    """An object of JSON. TableError is raised if it has a key twice: readers differ in which value they take."""
    form = dict(members)
    if len(form) != len(members):
        key = next(key for index, (key, _) in enumerate(members) if key in dict(members[:index]))
        raise TableError(f"an object has the key {key[:40]} twice: the program takes the last value, others the first")
    return form


def _groups(form: Any) -> Tuple[List[Group], List[Row]]:
    groups: List[Group] = []
    rows: List[Row] = []
    for place, group in enumerate(_list(form, "groups", "")):
        path = f"/groups/{place}"
        several = isinstance(group, dict) and "aspects" in group
        aspects = []
        for number, one in enumerate(_list(group, "aspects", path, True) if several else [group]):
            where = f"{path}/aspects/{number}" if several else path
            balises = enumerate(_list(one, "balises", where, True))
            texts = [_text(text, f"{where}/balises/{balise}") for balise, text in balises]
            name = str(number) if several else ""
            own = tuple(
                Row(len(rows) + index + 1, f"group {place}", text, text, name) for index, text in enumerate(texts)
            )
            rows += own
            aspects.append(Aspect(name, own))
        counts = {len(aspect.rows) for aspect in aspects}
        if len(counts) != 1 or not 0 < min(counts) <= GREATEST_COUNT:
            raise TableError(f"{path}: each aspect has equally many balises, one to {GREATEST_COUNT}")
        groups.append(Group(f"group {place}", tuple(aspects)))
    return groups, rows


def _list(form: Any, key: str, path: str, alone: bool = False) -> List[Any]:
    """The list under a key. With `alone`, TableError is raised if the object has another key."""
    values = form.get(key) if isinstance(form, dict) else None
    if not isinstance(values, list):
        raise TableError(f"{path}/{key} is no list: it is no document of a line")
    if alone and len(form) > 1:
        raise TableError(f"{path} has the keys {', '.join(form)[:100]}, and {key} has to be the only key")
    return values


def _text(value: Any, path: str) -> str:
    if not isinstance(value, str) or not value or "\n" in value or "\r" in value:
        raise TableError(f"{path} is no text of hexadecimal digits")
    return value
