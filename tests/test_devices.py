"""Devices that are slow, end, fail or are interrupted: at each call in turn by the shim, and those of the system."""
import errno
import os

import pytest

from corpus import long_jobs, runs_of, undisturbed
from hostile import ALL, CHECK, Plan, disturbed, shared, stops
from runner import DEVICE, run
from test_memory import WORDS

BUFFER = 65536  # bytes of output that the program gathers before it writes
# How many calls fail, and by which error. By error 0 a writer takes no byte; a reader would be at its end.
ERRORS = (1, errno.EIO), (ALL, errno.EIO), (2, errno.EINTR)
FAILURES = [*(("reader", *failure) for failure in ERRORS), *(("writer", *failure) for failure in (*ERRORS, (1, 0)))]


def slowed(program, known, given, taken):
    """The same runs and counts with devices that move at most `given` and `taken` bytes a call. No answer changes."""
    some = [job._replace(reader=Plan(piece=given), writer=Plan(piece=taken)) for job, *_ in known]
    found = [(job, *played) for job, played in zip(some, program.play(some))]
    for (_, wanted, _), (job, answer, counts) in zip(known, found):
        assert answer == wanted and (not taken or counts.writes * taken >= len(wanted.stdout)), (job, answer)
    return found


def failing(program, known, piece):
    """Each call of a device fails in turn, and one past the last. A run reports it and reads no more; what was taken
    before a writer failed is there. A call that is interrupted is made again, or has failed: a read, or the write of a
    report that passes the buffer."""
    cases = [(job._replace(**{device: Plan(call, count, error, piece)}), wanted, call <= calls)
             for job, wanted, counts in slowed(program, known, piece, piece) for device, count, error in FAILURES
             for calls in [counts.reads if device == "reader" else counts.writes] for call in range(1, calls + 2)]
    for (job, wanted, is_met), (answer, counts) in zip(cases, program.play([job for job, *_ in cases])):
        is_interrupted, writes = errno.EINTR in (job.reader.error, job.writer.error), job.writer.first
        assert (counts.failed_reads + counts.failed_writes > 0) == is_met, (job, counts)
        if not is_met or is_interrupted and answer == wanted:
            assert answer == wanted, (job, answer)
            continue
        assert stops(answer, wanted, DEVICE) and (writes < 2 or answer.stdout), (job, answer)
        assert writes or counts.reads == job.reader.first, (job, counts)
        assert not (writes and is_interrupted) or job.words == CHECK and len(wanted.stdout) > BUFFER, (job, answer)


@WORDS
def test_failing_devices(words):
    program, known = disturbed(), runs_of(disturbed(), words)
    tiny, long = [it for it in known if len(it[0].data) <= 50], undisturbed(program, long_jobs(words))
    for some, piece in (known, 100), (tiny[::-3], 1), (long, 0), (long, 20000):  # (50 bytes: 300 calls)
        failing(program, some, piece)
    assert words in (CHECK, ()) or long[0][2].writes > 1  # (a report is one text)


@WORDS
def test_slow_and_ending_devices(words):
    """Slow devices change no answer. After a reader's end no more is read, and bytes before it are answered."""
    program, known = disturbed(), runs_of(disturbed(), words)
    for given, taken in (1, 1), (1, 0), (0, 1), (7, 3):
        slowed(program, known, given, taken)
    cases = [(job, call, max(8, len(job.data) // 10)) for job, *_ in known for call in range(1, 12)]
    fronts = program.play([job._replace(data=job.data[:(call - 1) * piece]) for job, call, piece in cases])
    found = program.play([job._replace(reader=Plan(call, 1, 0, piece)) for job, call, piece in cases])
    for case, (wanted, _), (answer, counts) in zip(cases, fronts, found):
        assert answer == wanted and counts.reads <= case[1], (case, answer, wanted)


@pytest.mark.elsewhere
@WORDS
def test_devices_of_the_system(words):
    """With a full or closed output, or a pipe that nobody reads, a run that writes reports it, and one that writes
    nothing answers. A folder as input is a failed read. Without input and standard error the status is right."""
    for job, wanted, _ in runs_of(shared(), words)[::6] + undisturbed(shared(), long_jobs(words)):
        read, pipe = os.pipe()
        os.close(read)
        full, closed, folder, silent = (run(job.words, job.data, f"exec {it}")
                                        for it in (">/dev/full", ">&-", "</", "2>&- <&-"))
        for answer in full, closed, run(job.words, job.data, stdout=pipe):
            assert stops(answer, wanted, DEVICE) if wanted.stdout else answer == wanted, (job, answer)
        os.close(pipe)
        assert stops(folder, wanted, DEVICE) if words else folder == wanted, (job, folder)
        assert silent.status == (3 if words else 2) and wanted.stdout.startswith(silent.stdout), (job, silent)
