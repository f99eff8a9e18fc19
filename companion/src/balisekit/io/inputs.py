"""Files that are read once, with their checksum. No output replaces one of them."""
from __future__ import annotations

import hashlib
import os
import stat
import sys
from contextlib import contextmanager, suppress
from typing import Dict, Iterable, Iterator, NamedTuple, Optional, Tuple, Union

from balisekit.errors import KitError, TableError, faults_of


class InputPath(str):
    """An option that names a file to read."""


class ReplacedInput(KitError):
    """An output would replace an input."""

    status = 2


GREATEST = 2_000_000_000
"""The most bytes that a file to read can have."""
_read_before: Optional[Dict[str, str]] = None
"""Within `guarded`, the checksums of the files that are read several times, by their paths."""
_outputs: Dict[Optional[Tuple[int, int]], str] = {}
"""The names of outputs by the identity of the file that each would replace."""


def _identity(file: Union[str, int]) -> Optional[Tuple[int, int]]:
    """The device and inode of a file that exists, by its path or descriptor. A device or pipe has none."""
    try:
        found = os.stat(file)
    except (OSError, ValueError):  # ValueError for a NUL in the path
        return None
    return (found.st_dev, found.st_ino) if stat.S_ISREG(found.st_mode) else None


@contextmanager
def guarded(outputs: Iterable[str]) -> Iterator[None]:
    """Within this, neither these outputs nor standard output replace an input, and no file of settings changes."""
    global _read_before
    _read_before = {}
    _outputs.update((_identity(it), path) for path in outputs for it in (path, os.path.realpath(path)))
    with suppress(OSError, ValueError):  # (a caller in Python may have another stream)
        _outputs[_identity(sys.stdout.fileno())] = "standard output"
    _outputs.pop(None, None)
    try:
        yield
    finally:
        _outputs.clear()
        _read_before = None


def claimed(path: str) -> str:
    """The path of an input, whether it is read or not. ReplacedInput is raised if an output would replace the file."""
    output = _outputs.get(_identity(path))
    if output:
        raise ReplacedInput(f"{output}: it is an input: an output never replaces one")
    return path


def current_folder() -> str:
    """The folder from which relative paths start, or nothing if it was removed."""
    try:
        return os.getcwd()
    except OSError:
        return ""


def is_python(named: str) -> bool:
    """Whether a text names a file of Python, and not a package."""
    return named.endswith(".py") or os.sep in named


class Input(NamedTuple):
    """A file that was read."""

    path: str
    content: bytes

    @property
    def sha256(self) -> str:
        """The checksum of what was read."""
        return hashlib.sha256(self.content).hexdigest()


def read(path: str) -> Input:
    """The file of this path. A folder, a device, a pipe and a file that is being written are refused."""
    with faults_of(path):
        try:
            before = os.stat(path)
            if not stat.S_ISREG(before.st_mode):
                raise TableError(f"it is a {'folder' if stat.S_ISDIR(before.st_mode) else 'device or pipe, no file'}")
            if before.st_size > GREATEST:
                many = f"it has {before.st_size:,} bytes, more than {GREATEST:,}"
                raise TableError(f"{many}: divide it into several files")
            with open(path, "rb") as file:
                content = file.read()
            after = os.stat(path)
        except (OSError, ValueError) as error:  # ValueError for a NUL in the path
            why = getattr(error, "strerror", None) or str(error)
            raise TableError("standard input is not read: name a file" if path == "-" else why) from error
        if (before.st_size, before.st_mtime_ns) != (after.st_size, after.st_mtime_ns) or len(content) != after.st_size:
            raise TableError("the file is being written")
    return Input(claimed(path), content)


def read_settings(path: str) -> Input:
    """A file that states settings, which a command reads several times. TableError is raised if it has changed."""
    file = read(path)
    if _read_before is not None and _read_before.setdefault(path, file.sha256) != file.sha256:
        with faults_of(path):
            raise TableError("the file has changed while the command ran")
    return file
