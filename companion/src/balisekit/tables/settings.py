"""The settings of a run that differ from their defaults, by the file that states them or by the command line."""
from __future__ import annotations

from typing import NamedTuple, Tuple


class Setting(NamedTuple):
    """A value that differs from its default."""

    name: str
    """An option such as `--tolerance`, or a key of a file such as `check.tolerance`."""
    value: str = ""
    """As it was written. It is empty for an option without a value."""
    is_path: bool = False
    sha256: str = ""
    """Of the file that the value names."""
    replaced_by: str = ""
    """The option of the command line that replaces a value of a file. The value is not used then."""


class Source(NamedTuple):
    """A file of settings, or the command line, and what differs there from its default."""

    path: str = ""
    """Empty for the command line."""
    sha256: str = ""
    settings: Tuple[Setting, ...] = ()


class Settings(NamedTuple):
    """All settings that differ from their defaults. A file that was read is named, also if it changes nothing."""

    sources: Tuple[Source, ...] = ()
