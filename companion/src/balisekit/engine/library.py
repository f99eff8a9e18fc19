"""The library for C. A call answers as a run of the program does, in this process."""
from __future__ import annotations

import ctypes
from functools import lru_cache
from typing import Any, Dict, Iterator, NamedTuple, Optional, Sequence

from balisekit.engine.find_program import stored_library
from balisekit.errors import KitError, NoAnswer

NO_MEMORY, TOO_SMALL = 3, 4
CAPACITY = 1 << 16
TIMES = 40
"""The first buffer of records has this many bytes for each byte of the input, and some more: they are longer than
digits. That of `check` and `findings` has only the latter, because few documents have many findings."""
COMMANDS = ("check", "decode", "decode_radio", "encode", "encode_radio", "findings")
RECORDS = ("telegram", "message")
ARGUMENTS = (ctypes.c_char_p, ctypes.c_size_t, ctypes.c_char_p, ctypes.c_size_t, ctypes.POINTER(ctypes.c_size_t))
"""The types of a call's arguments: others are refused before the library reads them."""


class Fault(NamedTuple):
    """Why a record is refused."""

    reason: int
    """The number of the reason in `balisecheck.h`."""
    at: int
    """The first bit of the field with the fault. 0 below reason 10."""
    end: int
    """How many bits of the record decide the fault. 0 below reason 10."""


class _Fault(ctypes.Structure):
    """struct balisecheck_fault"""

    _fields_ = [("reason", ctypes.c_uint32), ("at", ctypes.c_size_t), ("end", ctypes.c_size_t)]


class Call:
    """What a call of the library has answered."""

    # (its lines are read as those of a `Run`)
    errors = b""

    def __init__(self, name: str, status: int, text: bytes) -> None:
        self._name, self._text = name, text
        self.status = status
        """0: all was done, or the answer is yes. 1: `check` and `findings` have findings. 2: the input was refused."""
        self.fault: Optional[Fault] = None
        """The first fault of a record that is refused. It has `reason`, `at` and `end`, as in `balisecheck.h`."""

    @property
    def text(self) -> str:
        """What the program would write. Of `findings` it is one object of JSON."""
        return self._text.decode("utf-8", "backslashreplace")

    def lines(self) -> Iterator[str]:
        """The lines of the text."""
        yield from self.text.split("\n")[:-1]

    def no_answer(self, why: str) -> NoAnswer:
        """The error that names the library, the command and the reason."""
        return NoAnswer(f"no answer of {self._name}: {why}")


class Library:
    """The library for C, called in this process instead of starting the program. Its answers are those of the program,
    and are proved. Each method takes the input as bytes, and raises `KitError` for any other type, or if memory runs
    out.
    """

    def __init__(self, path: str) -> None:
        shared = ctypes.CDLL(path)
        self._version = shared.balisecheck_version
        self._version.restype = ctypes.c_char_p
        self._functions: Dict[str, Any] = {name: getattr(shared, f"balisecheck_{name}") for name in COMMANDS + RECORDS}
        for name, function in self._functions.items():
            function.argtypes = (*ARGUMENTS, *([ctypes.POINTER(_Fault)] if name in RECORDS else []))
            function.restype = ctypes.c_uint32
        self.path = path
        """The file."""

    @classmethod
    def find(cls, path: Optional[str] = None) -> Library:
        """The library of this path, else the one that was stored with the program of this balisekit. `KitError` is
        raised if there is none, or if it cannot be used here."""
        if path is None:
            stored = stored_library()
            if stored is None:
                raise NoAnswer("no library for C is here")
            path = stored.path
        found = opened(path) if isinstance(path, str) and path else None
        if found is None:
            raise NoAnswer(f"no library for C: {path!r} cannot be used here")
        return found

    @property
    def version(self) -> str:
        """The version of the library."""
        version: bytes = self._version()
        return version.decode("ascii")

    def check(self, document: bytes) -> Call:
        """The report on the document of a line, as `balisecheck check` writes it."""
        return self._call("check", document)

    def findings(self, document: bytes) -> Call:
        """The same answer as one object of JSON, which schemas/findings.json describes."""
        return self._call("findings", document)

    def decode(self, lines: bytes) -> Call:
        """A line of JSON for each telegram, as `balisecheck decode` writes it."""
        return self._call("decode", lines, TIMES)

    def decode_radio(self, stream: bytes) -> Call:
        """A line of JSON for each radio message, as `balisecheck decode --radio` writes it."""
        return self._call("decode_radio", stream, TIMES)

    def encode(self, lines: bytes) -> Call:
        """The digits of a telegram for each line of JSON, as `balisecheck encode` writes them."""
        return self._call("encode", lines, 1)

    def encode_radio(self, lines: bytes) -> Call:
        """The digits of a radio message for each line of JSON, as `balisecheck encode --radio` writes them."""
        return self._call("encode_radio", lines, 1)

    def telegram(self, digits: bytes) -> Call:
        """The line of JSON of one telegram, or its first fault."""
        return self._record("telegram", digits)

    def message(self, digits: bytes) -> Call:
        """The line of JSON of one radio message, or its first fault."""
        return self._record("message", digits)

    def call(self, words: Sequence[str], data: bytes) -> Call:
        """What the program would write for these words and this input: `decode --radio` is ["decode", "--radio"]."""
        return self._call("_".join(words).replace("--", ""), data, TIMES if words[0] == "decode" else 1)

    def _record(self, name: str, data: bytes) -> Call:
        """What a call for one record returns."""
        fault = _Fault()
        call = self._call(name, data, TIMES, ctypes.byref(fault))
        call.fault = Fault(fault.reason, fault.at, fault.end) if fault.reason else None
        return call

    def _call(self, name: str, data: bytes, times: int = 0, *more: object) -> Call:
        """What the call of this name returns, with a buffer that is large enough."""
        data = _bytes(data)
        capacity, length, function = CAPACITY + times * len(data), ctypes.c_size_t(), self._functions[name]
        name = f"{self.path}: balisecheck_{name}"
        try:
            while True:
                buffer = ctypes.create_string_buffer(capacity)
                status: int = function(data, len(data), buffer, capacity, ctypes.byref(length), *more)
                if status != TOO_SMALL:
                    break
                capacity = length.value
            call = Call(name, status, ctypes.string_at(buffer, length.value))
        except MemoryError as error:
            raise Call(name, NO_MEMORY, b"").no_answer("memory") from error
        if status >= NO_MEMORY:
            raise call.no_answer("memory")
        return call


def _bytes(data: object) -> bytes:
    """The input of a call."""
    if isinstance(data, bytes):
        return data
    if isinstance(data, (bytearray, memoryview)):
        return bytes(data)
    raise KitError(f"the library reads bytes: {type(data).__name__} is another type")


@lru_cache(maxsize=None)
def opened(path: str) -> Optional[Library]:
    """The library at this path. None if there is none, or if it cannot be used here."""
    try:
        return Library(path)
    except (OSError, AttributeError, ValueError):  # (a file that is none, another library, a NUL in the path)
        return None
