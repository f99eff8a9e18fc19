"""The program: where it is, and what it answers.

`Program.find()` finds it, or the library for C that was stored with it and answers in this process. `decode`, `encode`,
`messages` and `check` hand data to it and give its answers in order. A run of the program ends with the first line that
it refuses, and another run reads the lines after that one.
"""
from __future__ import annotations

import json
import os
from collections.abc import Callable, Iterable, Iterator, Mapping, Sequence
from contextlib import ExitStack
from dataclasses import dataclass, field, replace
from threading import Event
from typing import IO, TYPE_CHECKING, Any, ClassVar, Dict, List, NamedTuple, Optional, Pattern, Tuple, TypeVar, Union

from balisekit.engine import find_program, grammar, records
from balisekit.engine.grammar import Finding, Refusal, Verdict
from balisekit.engine.records import Form, Header, shared
from balisekit.engine.run import HANDSHAKE_LIMIT, Limit, Run, temporary_file
from balisekit.errors import NoAnswer

if TYPE_CHECKING:
    from balisekit.engine.library import Call

FEW = 16
"""After this many refusals the rest is tried in parts, several at a time."""
PART = 64
"""The lines or messages of a part, and the lines of a call of the library."""
AT_A_TIME = min(4, os.cpu_count() or 1)
SHOWN = 100
"""How many characters of a wrong answer are shown."""
HANDSHAKE = (
    (["check"], '{"groups":[],"messages":[]}', 0, "yes: groups 0, messages 0"),
    (["--version"], "", 2, "refused: usage is balisecheck check, decode [--radio] or encode [--radio]"),
    (
        ["decode"],
        f"a1007fffffffb{'f' * 39}c0\n",
        0,
        '{"m_dup":0,"m_mcount":255,"m_version":33,"n_pig":0,"n_total":0,"nid_bg":16383,"nid_c":1023,"packets":[],'
        '"q_link":0,"user_bits":210}',
    ),
)
"""Words, input, status and answer of each trial run."""
Span = Tuple[int, int]
"""The first line of a part, and the line after its last one."""
Answer = Union[str, Refusal]
Done = TypeVar("Done")


class Record(NamedTuple):
    """A telegram or message that the program has read."""

    line: str
    """The program's line of JSON. It has the form of records."""

    @property
    def form(self) -> Form:
        """The object of the line."""
        form: Form = json.loads(self.line)
        return form

    @property
    def shared(self) -> Form:
        """The object of the line, which nobody changes: equal packets of several records are one object."""
        return shared(self.line)

    @property
    def parts(self) -> Tuple[Header, str]:
        """Of a telegram: its header, and the text of its packets."""
        return records.parts(self.line)


class Text(NamedTuple):
    """A telegram or message that the program has written."""

    line: str
    """Its hexadecimal digits."""


class Report(NamedTuple):
    """What `check` reports of a document that it has read."""

    verdict: Verdict
    findings: Tuple[Finding, ...]


@dataclass(frozen=True)
class Program:
    """A program that has shown that it is balisecheck, or its library."""

    kind: ClassVar[str] = "program"
    """What answers: `program`, `library` or `module`."""
    path: str
    """The file."""
    sha256: str
    """The checksum of the file."""
    about: Mapping[str, str] = field(default_factory=dict)
    """The metadata of a stored program. Empty for any other program."""
    timeout: Optional[float] = None
    """How many seconds an answer may take. None is a limit by the size of the input."""
    known_by: str = ""
    """What its checksum is known by: ABOUT, RELEASES or sources. Nothing for any other program."""
    _stop: Event = field(default_factory=Event, compare=False, repr=False)

    @classmethod
    def find(cls, named: Optional[str] = None, timeout: Optional[float] = None) -> Program:
        """The program of this path, else of BALISECHECK, else the library that was stored with this balisekit, else the
        program of the clone, else the installed one. If there is none that starts, node runs the module that was stored
        with this balisekit. `KitError` is raised if there is none, if its checksum is not known and no path was given,
        or if it fails a trial run. With a limit of time neither library nor module answers, because nothing can end a
        call."""
        if find_program.is_asked_for(named, timeout):
            return cls._started(named, timeout)
        library = _library()
        if library:
            return library
        try:
            return cls._started(named, timeout)
        except NoAnswer:
            module = _module()
            if module is None:
                raise
            return module

    @classmethod
    def _started(cls, named: Optional[str], timeout: Optional[float]) -> Program:
        """The program of this path, of BALISECHECK, of the clone, or the installed one, after its trial runs."""
        path = find_program.find(named)
        sha256 = find_program.checksum(path)
        known = find_program.known(named, path, sha256)
        program = cls(path, sha256, known.papers, timeout, known.by)
        program._shake_hands()
        return program

    @property
    def version(self) -> str:
        """The version of a stored program, else that it is none."""
        return self.about.get("version", "not a released program")

    def decode(self, lines: Iterable[str]) -> Iterator[Union[Record, Refusal]]:
        """A record, or the refusal, for each text of a telegram."""
        is_telegram = self._matches(records.telegram_expression)
        for answer in self._each(["decode"], lines):
            if isinstance(answer, Refusal):
                yield answer
            elif is_telegram(answer):
                yield Record(answer)
            else:
                raise self.no_answer("decode", f"no record of a telegram: {answer[:SHOWN]}")

    def encode(self, forms: Iterable[Mapping[str, Any]], radio: bool = False) -> Iterator[Union[Text, Refusal]]:
        """The text, or the refusal, for each form of a telegram or, with `radio`, of a message."""
        words = ["encode", "--radio"] if radio else ["encode"]
        for answer in self._each(words, (json.dumps(form) for form in forms)):
            if isinstance(answer, str) and not records.DIGITS.fullmatch(answer):
                raise self.no_answer(" ".join(words), f"no hexadecimal digits: {answer[:SHOWN]}")
            yield Text(answer) if isinstance(answer, str) else answer

    def check(self, document: Union[str, bytes, Mapping[str, Any], Iterable[str]]) -> Union[Report, Refusal]:
        """What the program reports of a document of a line: an object, its JSON, or the pieces of its JSON."""
        with temporary_file() as file:
            file.writelines(pieces(document))
            file.flush()
            return self._check(file)

    def messages(
        self, messages: Iterable[Union[str, bytes]], most: Optional[int] = None
    ) -> Iterator[Union[Record, Refusal]]:
        """A record, or the refusal, for each radio message: its bytes, or their hexadecimal text.

        `decode --radio` reads a stream, in which a wrong L_MESSAGE takes bytes of the next message. So `check` tries
        the messages first, and only those that it can read become a stream. The last answer is the refusal with the
        number `most`, if there are that many.
        """
        texts = [message.hex() if isinstance(message, bytes) else _line(message) for message in messages]
        tried: List[Optional[Refusal]] = []
        refused = 0
        for refusal in self._several(lambda program, part: program._refusals(texts[slice(*part)]), len(texts)):
            tried.append(refusal)
            refused += refusal is not None
            if refused == most:
                break
        accepted = self.readable_messages(text for text, refusal in zip(texts, tried) if refusal is None)
        for refusal in tried:
            yield refusal or next(accepted)

    def readable_messages(self, texts: Iterable[str]) -> Iterator[Record]:
        """A record for each of these radio messages, all of which `check` can read."""
        is_message = self._matches(records.message_expression)
        for answer in self._each(["decode", "--radio"], texts):
            if isinstance(answer, Refusal):
                raise self.no_answer("decode --radio", "it refuses a message that `check` can read")
            if not is_message(answer):
                raise self.no_answer("decode --radio", f"no record of a message: {answer[:SHOWN]}")
            yield Record(answer)

    def _matches(self, expression: Callable[[], Pattern[str]]) -> Callable[[str], object]:
        """What tells whether a line is a record that `decode` writes: any program may have been named."""
        return expression().fullmatch

    def _refusals(self, texts: Sequence[str]) -> Iterator[Optional[Refusal]]:
        """The refusal of each message, or None if `check` can read it."""
        done = 0
        while done < len(texts):
            part = texts[done:]
            answer = self.check({"groups": [], "messages": part})
            if isinstance(answer, Report):
                yield from [None] * len(part)
                return
            if answer.message is None or answer.message >= len(part):
                raise self.no_answer("check", answer.line)
            yield from [None] * answer.message
            yield answer
            done += answer.message + 1

    def _each(self, words: Sequence[str], texts: Iterable[str]) -> Iterator[Answer]:
        """The line, or the refusal, that the command writes for each text."""
        lines = [_line(text).encode("utf-8", "surrogatepass") + b"\n" for text in texts]
        return self._several(lambda program, part: program._answers(words, lines[slice(*part)]), len(lines))

    def _answers(self, words: Sequence[str], lines: Sequence[bytes]) -> Iterator[Answer]:
        """What the command writes for each of these lines."""
        with temporary_file() as file:
            file.writelines(lines)
            size = file.tell()
            file.flush()
            done = begin = 0
            while done < len(lines):
                os.lseek(file.fileno(), begin, os.SEEK_SET)
                with self._run(words, file, size - begin) as run:
                    for answer in answers(run, " ".join(words), len(lines) - done):
                        begin += len(lines[done])
                        done += 1
                        yield answer

    def _several(self, work: Callable[[Program, Span], Iterator[Done]], count: int) -> Iterator[Done]:
        """What is done for each line or message: by one run after the other, and after a few refusals by several."""
        done = refused = 0
        for answer in work(self, (0, count)):
            done += 1
            refused += isinstance(answer, Refusal)
            yield answer
            if refused == FEW:
                break
        if done < count:
            yield from replace(self, _stop=Event())._in_parts(work, range(done, count, PART))

    def _in_parts(self, work: Callable[[Program, Span], Iterator[Done]], starts: Sequence[int]) -> Iterator[Done]:
        """What is done for the lines from these on, by several runs at a time. They end with the iterator."""
        from concurrent.futures import ThreadPoolExecutor  # (slow, and seldom needed)

        with ThreadPoolExecutor(AT_A_TIME) as pool:
            try:
                for answers in pool.map(lambda start: list(work(self, (start, start + PART))), starts):
                    yield from answers
            finally:
                self._stop.set()
                pool.shutdown(wait=False, cancel_futures=True)

    def _check(self, document: IO[bytes]) -> Union[Report, Refusal]:
        """What `check` reports of the document in this file."""
        size = os.lseek(document.fileno(), 0, os.SEEK_END)
        os.lseek(document.fileno(), 0, os.SEEK_SET)
        with self._run(["check"], document, size) as run:
            return read_report(run, size)

    def _run(self, words: Sequence[str], stdin: IO[bytes], size: int) -> Run:
        return Run(self.path, words, stdin, Limit.of(size, self.timeout, self._stop))

    def _shake_hands(self) -> None:
        """Raises NoAnswer if it is not the program whose words this version knows. The runs are side by side."""
        limit = HANDSHAKE_LIMIT if self.timeout is None else HANDSHAKE_LIMIT._replace(seconds=self.timeout)
        with ExitStack() as stack:
            runs = []
            for words, text, _, _ in HANDSHAKE:
                file = stack.enter_context(temporary_file())
                file.write(text.encode("ascii"))
                file.seek(0)
                runs.append(stack.enter_context(Run(self.path, words, file, limit)))
            for run, (_, _, status, answer) in zip(runs, HANDSHAKE):
                lines = list(run.lines())
                if run.status is not None and run.status < 0:
                    raise run.no_answer(_end(run, 0))
                if (run.status, lines) != (status, [answer]):
                    raise self._not_known(run)

    def _not_known(self, run: Run) -> NoAnswer:
        """The error of a wrong trial answer. A released program was not loaded; any other one is another program."""
        what = "is not the program that this version knows"
        if self.about:
            import platform  # (slow, and only needed here)

            here = f"{platform.machine()} with {' '.join(platform.libc_ver()).strip() or 'another C library'}"
            processor = self.about.get("processor", "x86-64-v2")
            needs = f"it needs {processor} and glibc {self.about.get('glibc')} or later"
            what = f"does not start here: {needs}, and this is {here}"
        said = run.errors[:1000].decode("utf-8", "backslashreplace").strip().split("\n")[0]
        return NoAnswer(f"{self.path} {what}" + (f": {said}" if said else ""))

    def no_answer(self, command: str, why: str) -> NoAnswer:
        """The error of a command without an answer."""
        return NoAnswer(f"no answer of {self.path}: {command}: {why}")


def _library() -> Optional[Program]:
    """The library that answers in the place of the program, if it can be used here."""
    try:
        from balisekit.engine.loaded_library import LoadedLibrary
    except ImportError:  # (some builds of Python have no ctypes)
        return None
    return LoadedLibrary.stored()


def _module() -> Optional[Program]:
    """The module that answers where no library and no program can, if it can be used here."""
    try:
        from balisekit.engine.loaded_module import LoadedModule
    except ImportError:
        return None
    return LoadedModule.stored()


def pieces(document: Union[str, bytes, Mapping[str, Any], Iterable[str]]) -> Iterator[bytes]:
    """The bytes of a document: an object, its JSON, or the pieces of its JSON."""
    if isinstance(document, Mapping):
        document = json.dumps(document, separators=(",", ":"))
    for piece in [document] if isinstance(document, (str, bytes)) else document:
        yield piece.encode("utf-8", "surrogatepass") if isinstance(piece, str) else piece


def read_report(run: Union[Run, Call], size: int) -> Union[Report, Refusal]:
    """What a run of `check` writes for a document of this size."""
    lines = run.lines()
    first = next(lines, "")
    verdict = grammar.verdict(first)
    refusal = None if verdict else grammar.refusal("check", first)
    count = verdict.findings if verdict else 0
    if count > size:  # (a telegram has more digits than findings)
        raise run.no_answer(f"more findings than the document has bytes: {first}")
    findings: Dict[str, Finding] = {}
    for line in lines:
        finding = grammar.finding(line)
        if finding is None or line in findings or len(findings) == count:
            raise run.no_answer(f"no line of its report: {line[:SHOWN]}")
        findings[line] = finding
    if refusal and run.status == 2:
        return refusal
    if verdict and run.status == (0 if verdict.yes else 1) and len(findings) == count:
        return Report(verdict, tuple(findings.values()))
    raise run.no_answer(_end(run, bool(first) + len(findings)))


def answers(run: Union[Run, Call], command: str, left: int) -> Iterator[Answer]:
    """What one run writes: lines, and a refusal as the last one if it does not come to the end.

    An answer is given when the next one has been read. So the last one is given only after the run has ended well.
    """
    read = 0
    answer: Optional[Answer] = None
    for line in run.lines():
        if isinstance(answer, Refusal):
            raise run.no_answer("a line follows a refusal")
        if read == left:
            raise run.no_answer("it writes more lines than it was given")
        if answer is not None:
            yield answer
        read += 1
        answer = grammar.refusal(command, line) if line.startswith("refused: ") else line
        if answer is None or isinstance(answer, Refusal) and answer.number != read:
            raise run.no_answer(line[:SHOWN])
    if run.status != (2 if isinstance(answer, Refusal) else 0) or read < left and not isinstance(answer, Refusal):
        raise run.no_answer(_end(run, read, left))
    if answer is not None:
        yield answer


def _line(text: str) -> str:
    """The text, which has to be a line: the program skips an empty one."""
    if not text or "\n" in text or "\r" in text:
        raise ValueError("a text is empty, or has a line end")
    return text


def _end(run: Union[Run, Call], lines: int, wanted: int = 0) -> str:
    """How a run has ended that gave no answer."""
    words = run.errors[:1000].decode("utf-8", "backslashreplace").strip()
    status = run.status or 0
    end = f"killed by signal {-status}" if status < 0 else f"status {status}"
    if status in (0, 1, 2):
        end += f", {lines} lines" + (f" in place of {wanted}" if wanted else "")
    return f"{end}, {words}" if words else end
