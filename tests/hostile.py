"""Runs a program many times, each in its own process, with refused memory and failing devices on request (shim.c)."""
import collections
import contextlib
import ctypes
import errno
import functools
import itertools
import os
import resource
import shutil
import struct
import subprocess
import tempfile

from runner import HERE, SECONDS, Answer, program, run

DECODE, ENCODE, CHECK = ("decode",), ("encode",), ("check",)
DECODE_RADIO, ENCODE_RADIO = ("decode", "--radio"), ("encode", "--radio")
COMMANDS = (DECODE, ENCODE, CHECK, DECODE_RADIO, ENCODE_RADIO)
INVERSE = {DECODE: ENCODE, ENCODE: DECODE, DECODE_RADIO: ENCODE_RADIO, ENCODE_RADIO: DECODE_RADIO}
STACK = 512  # KiB of stack that docs/contributing/architecture.md names
GROUPS = 20000  # of the long document that docs/contributing/architecture.md names
JOB, ANSWER = struct.Struct("<14Q"), struct.Struct("<9Q")
# From call `first` on, counted from 1, `count` calls fail by this error, or move no byte if it is 0. Any other call
# moves at most `piece` bytes, if that is not 0.
Plan = collections.namedtuple("Plan", "first count error piece", defaults=(0, 0, errno.ENOMEM, 0))
ALL = 1 << 62  # (the count of a call and all later ones)
Job = collections.namedtuple("Job", "words data memory reader writer", defaults=(Plan(), Plan(), Plan()))
Counts = collections.namedtuple("Counts", "requests refused reads failed_reads writes failed_writes")
ROOM = tempfile.TemporaryDirectory(prefix="hostile-")


@functools.lru_cache(None)
def shim(*linked):
    """The shim as a library: to be loaded before a program, or with these files linked into it."""
    path = f"{ROOM.name}/shim{len(linked)}.so"
    compiler = os.environ.get("CC", "cc")
    subprocess.run([compiler, "-O2", "-shared", "-fPIC", "-o", path, HERE / "shim.c", *linked], check=True)
    return path


class Program:
    """The program, or another one, with little stack (in KiB) if asked for. For a script, or without a C compiler,
    nothing fails and nothing is counted."""

    def __init__(self, path=None, stack=None):
        self.path, size = path or program(), (1024 * (stack or 0),) * 2
        self.start = stack and functools.partial(resource.setrlimit, resource.RLIMIT_STACK, size)
        with open(self.path, "rb") as file:
            is_binary = file.read(4) == b"\x7fELF"
        self.shim = shim() if is_binary and shutil.which(os.environ.get("CC", "cc")) else None

    def play(self, jobs):
        """The answers to these jobs, each with its counts."""
        groups = itertools.groupby(jobs, lambda job: job.words)
        return [answer for words, some in groups for answer in self.played(words, list(some))]

    def played(self, words, jobs):
        """The answers to jobs with the same words, each with its counts. The end by a signal is a negative status."""
        if self.shim is None:
            given = {"path": self.path, "preexec_fn": self.start}
            return [(run(words, input=job.data, **given), None) for job in jobs]
        with contextlib.ExitStack() as files:
            given, taken, out, err = (files.enter_context(tempfile.TemporaryFile()) for _ in range(4))
            for job in jobs:
                given.write(JOB.pack(len(job.data), SECONDS, *job.memory, *job.reader, *job.writer) + job.data)
            given.seek(0)
            said = {**os.environ, "LD_PRELOAD": self.shim, "HOSTILE_ANSWERS": str(taken.fileno())}
            subprocess.run([self.path, *words], stdin=given, stdout=out, stderr=err, env=said,
                           pass_fds=[taken.fileno()], preexec_fn=self.start, check=True)
            answers, stdout, stderr = (os.pread(it.fileno(), it.seek(0, 2), 0) for it in (taken, out, err))
        found, out, err = [], 0, 0
        for waited, out_end, err_end, *counts in ANSWER.iter_unpack(answers):
            written = (it.decode(errors="surrogateescape") for it in (stdout[out:out_end], stderr[err:err_end]))
            found.append((Answer(os.waitstatus_to_exitcode(waited), *written), Counts(*counts)))
            out, err = out_end, err_end
        return found


class Library:
    """The library for C at this path. In an archive it gets the memory of the shim, which can be refused."""

    def __init__(self, path):
        self.has_shim = str(path).endswith(".a")
        whole = "-Wl,-Bsymbolic", "-Wl,--whole-archive", path, "-Wl,--no-whole-archive"
        self.calls = ctypes.CDLL(shim(*whole) if self.has_shim else str(path))

    def version(self):
        """What the library says of its version."""
        self.calls.balisecheck_version.restype = ctypes.c_char_p
        return self.calls.balisecheck_version().decode()

    def length(self, name, data):
        """The answer of a call for the length of a text, with the length as standard output. Status 3 has none."""
        length = ctypes.c_size_t(1 << 60)
        status = getattr(self.calls, f"balisecheck_{name}")(data, ctypes.c_size_t(len(data)), ctypes.byref(length))
        assert status != 3 or length.value == 0, (name, data)
        return Answer(status, str(length.value) if status != 3 else "", "")

    def call(self, name, data, capacity=1 << 16):
        """The answer of a call, with the fault of a record as standard error. The buffer's rest stays as it was."""
        if name.endswith("_length"):
            return self.length(name, data)
        size, length, fault = capacity + 64, ctypes.c_size_t(), (ctypes.c_size_t * 3)()
        buffer = ctypes.create_string_buffer(b"\xa5" * size, size)
        given = data, ctypes.c_size_t(len(data)), buffer, ctypes.c_size_t(capacity), ctypes.byref(length)
        record = [fault] * (name in ("telegram", "message"))
        status = getattr(self.calls, f"balisecheck_{name}")(*given, *record)
        found = buffer.raw
        text = found[:length.value] if status < 3 else b""
        assert found[len(text):] == b"\xa5" * (size - len(text)), (name, data)
        said = "{} {} {}\n".format(*fault) if fault[0] else ""
        return Answer(status, text.decode(errors="surrogateescape"), said)

    def play(self, jobs):
        """The answers to these jobs, as `Program.play` gives them. Each call frees all that it allocated."""
        return [self.played("_".join(job.words).replace("--", ""), job) for job in jobs]

    def played(self, name, job):
        """The answer of a call with its counts."""
        if not self.has_shim:
            return self.call(name, job.data), None
        counts = (ctypes.c_uint64 * 6).in_dll(self.calls, "of_library")
        counts[:] = [0] * 6
        (ctypes.c_uint64 * 14).in_dll(self.calls, "job")[2:6] = job.memory
        ctypes.c_int.in_dll(self.calls, "runs").value = 1
        answer = self.call(name, job.data)
        assert ctypes.c_int64.in_dll(self.calls, "blocks").value == 0, job
        return answer, Counts(*counts)


@functools.lru_cache(None)
def shared():
    """The program that the tests of a process share."""
    return Program()


def disturbed():
    """The same, if its memory and devices can fail. Otherwise the test is skipped."""
    if shared().shim is None:
        import pytest  # (bench/ does without it)
        pytest.skip("refused memory and failing devices (gcc)")
    return shared()


def stops(answer, wanted, stderr):
    """Whether a run stopped with status 3 and this message, after a beginning of the wanted text."""
    return answer.status == 3 and answer.stderr == stderr and wanted.stdout.startswith(answer.stdout)
