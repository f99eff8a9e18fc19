"""Files that a command writes: never over an input, over another file only by --force, and all of them or none."""
from __future__ import annotations

import json
import os
import shutil
import stat
import sys
from contextlib import contextmanager
from typing import TYPE_CHECKING, Iterable, Iterator, List, Mapping, Sequence, Union

from balisekit.errors import NoAnswer, TableError, held

if TYPE_CHECKING:
    from balisekit.io.output_folder import OutputFolder

IN_MEMORY = 1 << 24
"""The bytes for standard output that are kept in memory until they are complete. More of them are in a file."""
Placed = Union["Output", "OutputFolder"]
"""What an option names as an output."""
NO_FILE = "no file can be written there: it is a folder, a device, a pipe or a loop of links"


class Output:
    """A file that an option names. `-` is standard output.

    `write` writes a temporary file beside it, `place` moves that to its path, and `discard` removes it.
    """

    def __init__(self, path: str, always_new: bool = False) -> None:
        self.path, self.always_new = path, always_new
        self.target = os.path.realpath(path)
        self._temporary = self._created = ""

    def __str__(self) -> str:
        return "standard output" if self.is_standard_output else self.path

    @property
    def is_standard_output(self) -> bool:
        """Whether the option has `-`."""
        return self.path == "-"

    def check(self, force: bool) -> None:
        """Raises TableError if the file exists and must not be replaced, and NoAnswer if it cannot be written."""
        if self.is_standard_output:
            return
        try:
            # A path through `missing/..` leads to no file, but its target can be one.
            existing = next((os.stat(it) for it in (self.path, self.target) if os.path.exists(it)), None)
        except ValueError as error:  # a NUL in the path
            raise NoAnswer(f"{self.path}: {error}") from error
        if existing is None and not os.path.islink(self.target):
            self._check_folder()
        elif existing is None or not stat.S_ISREG(existing.st_mode):
            raise NoAnswer(f"{self.path}: {NO_FILE}")
        elif self.always_new:
            raise TableError(f"{self.path}: it exists already: name a new file, so that no entry is lost")
        elif not force:
            raise TableError(f"{self.path}: it exists already: name a new file, or give --force to replace it")
        else:
            self._check_folder()
            self._check_replacing(existing)

    def _check_folder(self) -> None:
        folder = os.path.dirname(self.target)
        if not os.path.isdir(folder):
            raise NoAnswer(f"{self.path}: there is no folder {folder}")
        if not os.access(folder, os.W_OK):
            raise NoAnswer(f"{self.path}: nothing can be written into {folder}")

    def _check_replacing(self, existing: os.stat_result) -> None:
        """Raises NoAnswer if the new file could not have the mode and the owner of the existing one."""
        groups = [os.getegid(), *os.getgroups()]
        if not existing.st_mode & 0o222:
            raise NoAnswer(f"{self.path}: it is write-protected")
        if os.geteuid() and (existing.st_uid != os.geteuid() or existing.st_gid not in groups):
            raise NoAnswer(f"{self.path}: it belongs to another user or group")
        if _is_mounted(self.target):
            raise NoAnswer(f"{self.path}: it is a mount point, which cannot be replaced: name a new file")

    def write(self, pieces: Iterable[Union[str, bytes]]) -> None:
        """Writes the content: to standard output once it is complete, and to the path once `place` is called."""
        if self.is_standard_output:
            from tempfile import SpooledTemporaryFile  # (its import takes long)

            with SpooledTemporaryFile(IN_MEMORY) as content:
                content.writelines(encoded(pieces))
                content.seek(0)
                sys.stdout.flush()
                shutil.copyfileobj(content, sys.stdout.buffer)
            sys.stdout.buffer.flush()
            return
        self._temporary = os.path.join(os.path.dirname(self.target), f".balisekit-{os.urandom(6).hex()}")
        mode = os.stat(self.target).st_mode & 0o777 if os.path.exists(self.target) else 0o666
        try:
            with open(self._temporary, "xb", opener=lambda name, flags: os.open(name, flags, mode)) as file:
                file.writelines(encoded(pieces))
        except OSError as error:
            raise NoAnswer(f"{self.path}: {error.strerror or error}") from error

    def place(self, force: bool) -> None:
        """Moves what was written to its path. Without `force` it replaces nothing, not even a file of this moment."""
        if not self._temporary:
            return
        try:
            if force and not self.always_new and os.path.exists(self.target):
                existing = os.stat(self.target)
                os.chown(self._temporary, existing.st_uid, existing.st_gid)
                os.chmod(self._temporary, existing.st_mode & 0o7777)
            else:
                os.close(os.open(self.target, os.O_CREAT | os.O_EXCL, 0o666))
                self._created = self.target
            os.replace(self._temporary, self.target)
            self._temporary = ""
        except FileExistsError as error:
            raise TableError(f"{self.path}: another command has just written it") from error
        except OSError as error:
            raise NoAnswer(f"{self.path}: {error.strerror or error}") from error

    def discard(self) -> None:
        """Removes the temporary file, and the new one if it was placed."""
        for name in filter(None, (self._temporary, self._created)):
            try:
                os.unlink(name)
            except FileNotFoundError:
                pass
        self._temporary = self._created = ""


def _is_mounted(path: str) -> bool:
    """Whether a file is a mount of its own, as of a container."""
    try:
        with open("/proc/self/mountinfo", encoding="utf-8", errors="surrogateescape") as mounts:
            return path.replace(" ", "\\040") in (line.split(" ")[4] for line in mounts)
    except OSError:
        return False


def encoded(pieces: Iterable[Union[str, bytes]]) -> Iterator[bytes]:
    """A text as the bytes of a file."""
    return (piece if isinstance(piece, bytes) else piece.encode("utf-8", "backslashreplace") for piece in pieces)


def check_outputs(outputs: Sequence[Placed], force: bool) -> None:
    """Raises TableError or NoAnswer before the program runs if one of these files must not or cannot be written."""
    targets: List[str] = []
    for output in outputs:
        output.check(force)
        target = output.path if output.is_standard_output else output.target
        if target in targets:
            raise TableError(f"{output}{'' if output.is_standard_output else ': it'} is named twice")
        targets.append(target)


@contextmanager
def placing(outputs: Sequence[Placed], force: bool) -> Iterator[None]:
    """Moves all files to their paths at the end. If the block fails none is moved; a failed move removes new files."""
    try:
        yield
        with held():
            for output in outputs:
                output.place(force)
    except BaseException:
        for output in outputs:
            output.discard()
        raise


encode = json.JSONEncoder(ensure_ascii=False, separators=(",", ":"), check_circular=False).encode
"""The JSON of a value, by Python's encoder in C, which serves only without `indent`."""


class Json(str):
    """A text that is JSON already. `write_json` copies it."""


def write_json(output: Output, members: Mapping[str, object]) -> None:
    """Writes an object of JSON: a member a line, and each element of a list, tuple or iterator on a line of its own."""
    output.write(_json_pieces(members))


def _json_pieces(members: Mapping[str, object]) -> Iterator[str]:
    opening = "{"
    for name, value in members.items():
        yield f"{opening}\n{encode(name)}: "
        opening = ","
        if not isinstance(value, (list, tuple, Iterator)):
            yield _copied(value)
            continue
        start = "["
        for element in value:
            yield f"{start}\n{_copied(element)}"
            start = ","
        yield "[]" if start == "[" else "\n]"
    yield "\n}\n"


def _copied(value: object) -> str:
    return value if isinstance(value, Json) else encode(value)
