#!/usr/bin/env python3
"""Runs FORTRAN 77 programs by the library, in this process:

    tools/make-library lib
    F77RUN_LIBRARY=lib/libf77run.so python3 embedding/embed.py examples/powers.f

As a module it has run(source), which gives the report and the bytes that were
written, and check(source)."""

import ctypes
import os
import sys

ENDED, STOPPED, FAULT, REFUSED, MEMORY, FULL = range(6)
MESSAGE_ROOM = 1320


class Place(ctypes.Structure):
    """A fault or a rule, and its line."""

    _fields_ = [(name, ctypes.c_uint32) for name in ("letter", "number", "line")]

    def __str__(self):
        return f"{chr(self.letter)}{self.number} LINE {self.line}"


class Report(ctypes.Structure):
    """How a run ended."""

    _fields_ = [
        ("ending", ctypes.c_uint32),
        ("place", Place),
        ("turns", ctypes.c_uint64),
        ("written", ctypes.c_size_t),
        ("message_size", ctypes.c_size_t),
        ("message", ctypes.c_uint8 * MESSAGE_ROOM),
    ]

    def stop_text(self):
        """Returns what a STOP statement told."""
        return bytes(self.message[: self.message_size]).decode("ascii")


class Verdict(ctypes.Structure):
    """Whether a source is accepted."""

    _fields_ = [("ending", ctypes.c_uint32), ("place", Place)]


LIBRARY = ctypes.CDLL(os.environ.get("F77RUN_LIBRARY", "libf77run.so"))
LIBRARY.f77run_run.restype = LIBRARY.f77run_check.restype = None
LIBRARY.f77run_run.argtypes = [
    ctypes.c_char_p,
    ctypes.c_size_t,
    ctypes.c_uint64,
    ctypes.c_char_p,
    ctypes.c_size_t,
    ctypes.POINTER(Report),
]
LIBRARY.f77run_check.argtypes = [ctypes.c_char_p, ctypes.c_size_t, ctypes.POINTER(Verdict)]


def run(source, turns=1_000_000_000, room=1 << 20):
    """Returns the report of a run, and the bytes that were written."""
    report, output = Report(), ctypes.create_string_buffer(max(room, 1))
    LIBRARY.f77run_run(source, len(source), turns, output, room, ctypes.byref(report))
    return report, output.raw[: report.written]


def check(source):
    """Returns the verdict on a source."""
    verdict = Verdict()
    LIBRARY.f77run_check(source, len(source), ctypes.byref(verdict))
    return verdict


def told(report):
    """Returns the line that f77run has for an ending, and its exit status."""
    lines = {
        ENDED: ("", 0),
        STOPPED: (" ".join(["STOP", *filter(None, [report.stop_text()])]), 0),
        FAULT: (f"FAULT {report.place}", 1),
        REFUSED: (f"REFUSED {report.place}", 2),
        MEMORY: ("NO MEMORY", 4),
        FULL: ("WRITE REFUSED", 5),
    }
    return lines[report.ending]


def main():
    with open(sys.argv[1], "rb") as file:
        report, output = run(file.read(), room=1 << 24)
    sys.stdout.buffer.write(output)
    line, status = told(report)
    if line:
        print(line, file=sys.stderr)
    return status


if __name__ == "__main__":
    sys.exit(main())
