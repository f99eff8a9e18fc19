"""The template of a rule's sentences. The values of a remark and the arguments of its SARIF message fill it too."""
from __future__ import annotations

from decimal import Decimal
from string import Formatter
from typing import Dict, List, Mapping, Tuple, Union

from balisekit.tables.names import clean

Value = Union[Decimal, str]
"""A number, or a text such as the name of a group."""
Given = Union[int, Decimal, str]


class Template:
    """A sentence with fields such as `{v_static_kmh}`. ValueError is raised for a field that is no plain name."""

    def __init__(self, text: str) -> None:
        self.text = text
        self._parts: List[Tuple[str, str]] = []
        for before, field, form, conversion in Formatter().parse(text):
            if field is not None and (not field.isidentifier() or form or conversion):
                raise ValueError(f"{{{field}}} is no field: write a name such as {{v_static_kmh}}")
            self._parts.append((before, field or ""))
        self.fields = tuple(dict.fromkeys(field for _, field in self._parts if field))

    @property
    def numbered(self) -> str:
        """The template as SARIF has it: the fields are the numbers of the arguments."""
        numbers = {field: f"{{{number}}}" for number, field in enumerate(self.fields)}
        return "".join(f"{escaped(before)}{numbers.get(field, '')}" for before, field in self._parts)

    def values(self, given: Mapping[str, Given]) -> Dict[str, Value]:
        """These values in the order of the fields. ValueError is raised if they are not those of the fields."""
        if set(given) != set(self.fields):
            has = ", ".join(sorted(given)) or "no values"
            fields = ", ".join(self.fields) or "no field"
            raise ValueError(f"the sentence has {fields}, and the remark has {has}")
        return {field: _value(field, given[field]) for field in self.fields}

    def words(self, values: Mapping[str, Value]) -> str:
        """The sentence with these values."""
        return "".join(f"{before}{shown(values[field]) if field else ''}" for before, field in self._parts)

    def arguments(self, values: Mapping[str, Value]) -> Tuple[str, ...]:
        """These values as SARIF has them, in the order of the fields."""
        return tuple(shown(values[field]) for field in self.fields)


def shown(value: Value) -> str:
    """A value as a sentence has it."""
    return clean(value) if isinstance(value, str) else f"{value:f}"


def escaped(text: str) -> str:
    """A text in which SARIF finds no field."""
    return text.replace("{", "{{").replace("}", "}}")


def _value(field: str, value: Given) -> Value:
    """A value as a remark has it."""
    if isinstance(value, bool) or not isinstance(value, (int, Decimal, str)):
        raise ValueError(f"{field} is a {type(value).__name__}: give an int, a Decimal or a str")
    if isinstance(value, Decimal) and not value.is_finite():
        raise ValueError(f"{field} is no number")
    return value if isinstance(value, str) else Decimal(value)
