#!/usr/bin/env python3
"""Decodes telegrams, one per line of standard input, and reads on after a refused one.

    telegrams.py [LIBRARY] < FILE

LIBRARY is the path of the library if it is not installed.
"""
import ctypes
import sys

DONE, REFUSED = 0, 2
CAPACITY = 64 * 1024


class Fault(ctypes.Structure):
    """struct balisecheck_fault"""

    _fields_ = [("reason", ctypes.c_uint32), ("at", ctypes.c_size_t), ("end", ctypes.c_size_t)]


def main():
    """Decodes each line."""
    telegram = ctypes.CDLL((*sys.argv[1:], "libbalisecheck.so.0")[0]).balisecheck_telegram
    size = ctypes.c_size_t
    telegram.argtypes = ctypes.c_char_p, size, ctypes.c_char_p, size, ctypes.POINTER(size), ctypes.POINTER(Fault)
    telegram.restype = ctypes.c_uint32
    text, length, fault = ctypes.create_string_buffer(CAPACITY), size(), Fault()
    status = 0
    for number, line in enumerate(sys.stdin.buffer, 1):
        line = line.rstrip(b"\r\n")
        if not line:
            continue
        answer = telegram(line, len(line), text, CAPACITY, length, fault)
        if answer == DONE:
            print(ctypes.string_at(text, length.value).decode("ascii"), end="")
        elif answer == REFUSED:
            print(f"line {number}: reason {fault.reason} at {fault.at} end {fault.end}")
            status = 2
        else:
            sys.exit(f"line {number}: no answer, status {answer}")
    return status


if __name__ == "__main__":
    sys.exit(main())
