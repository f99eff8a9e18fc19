"""A folder that a command writes: one that is new or empty, with all of its files or none."""
from __future__ import annotations

import os
import shutil
from typing import Iterable, List

from balisekit.errors import NoAnswer, TableError
from balisekit.io.outputs import NO_FILE, encoded

NEW = "name a folder that is new or empty"


class OutputFolder:
    """A folder that an option names.

    `write` writes a file into a temporary folder, `place` moves all files to their paths, and `discard` removes them. A
    new folder appears at once with its files. In one that exists the temporary folder is inside: it may be a mount.
    """

    is_standard_output = False

    def __init__(self, path: str) -> None:
        self.path = path
        self.target = os.path.realpath(path)
        self._temporary = ""
        self._names: List[str] = []
        self._created: List[str] = []
        """What was placed: files, and before them the folder if it is new."""

    def __str__(self) -> str:
        return self.path

    def check(self, force: bool) -> None:
        """Raises TableError if there is a file, also with `force`, and NoAnswer if nothing can be written there."""
        try:
            self._check()
        except (OSError, ValueError) as error:  # ValueError for a NUL in the path
            raise NoAnswer(f"{self.path}: {getattr(error, 'strerror', None) or error}") from error

    def _check(self) -> None:
        if self.path == "-":
            raise TableError(f"several files cannot go to standard output: {NEW}")
        folder = self.target
        if os.path.isdir(folder):
            if os.listdir(folder):
                raise TableError(f"{self.path}: the folder is not empty: {NEW}")
        elif os.path.islink(folder):
            raise NoAnswer(f"{self.path}: {NO_FILE}")
        elif os.path.exists(folder):
            raise TableError(f"{self.path}: it is a file: {NEW}")
        else:
            folder = os.path.dirname(folder)
            if not os.path.isdir(folder):
                raise NoAnswer(f"{self.path}: there is no folder {folder}")
        if not os.access(folder, os.W_OK | os.X_OK):
            raise NoAnswer(f"{self.path}: nothing can be written into {folder}")

    def write(self, name: str, pieces: Iterable[str]) -> None:
        """Writes a file that is placed later."""
        try:
            if not self._temporary:
                beside = self.target if os.path.isdir(self.target) else os.path.dirname(self.target)
                self._temporary = os.path.join(beside, f".balisekit-{os.urandom(6).hex()}")
                os.mkdir(self._temporary)
            with open(os.path.join(self._temporary, name), "xb") as file:
                file.writelines(encoded(pieces))
        except OSError as error:
            raise NoAnswer(f"{self.path}: {name}: {error.strerror or error}") from error
        self._names.append(name)

    def place(self, force: bool) -> None:
        """Moves what was written to its path, and replaces nothing, not even a file of this moment."""
        if not self._temporary:
            return
        is_inside = os.path.dirname(self._temporary) == self.target
        there = [os.path.basename(self._temporary)] if is_inside else None
        now = os.listdir(self.target) if os.path.isdir(self.target) else None
        if now != there or now is None and os.path.lexists(self.target):
            raise TableError(f"{self.path}: another command has just written it")
        try:
            self._place_files() if is_inside else self._place_folder()
        except OSError as error:
            raise NoAnswer(f"{self.path}: {error.strerror or error}") from error
        self._temporary = ""

    def _place_folder(self) -> None:
        os.rename(self._temporary, self.target)
        self._created = [self.target, *(os.path.join(self.target, name) for name in self._names)]

    def _place_files(self) -> None:
        for name in self._names:
            path = os.path.join(self.target, name)
            os.close(os.open(path, os.O_CREAT | os.O_EXCL, 0o666))
            self._created.append(path)
            os.replace(os.path.join(self._temporary, name), path)
        os.rmdir(self._temporary)

    def discard(self) -> None:
        """Removes the temporary folder, and what was placed."""
        if self._temporary:
            shutil.rmtree(self._temporary, ignore_errors=True)
        for path in reversed(self._created):
            try:
                os.rmdir(path) if os.path.isdir(path) else os.unlink(path)
            except OSError:  # another command has written into it
                pass
        self._temporary, self._created = "", []
