"""What each call returns if an allocation was refused, and whether a run is then right."""

import re

TABLES = r"UcdFault \{ file: \w+, line: \d+, cause: Memory \}"

# What each call returns if an allocation was refused. The names of rows begin with these.
WANT = {
    "sink": r"Err\(AllocError\)",
    "tables": rf"Err\({TABLES}\)",
    "pages": r"Err\(AllocError\)",
    "cells": rf"Err\((Memory|Tables\({TABLES}\))\)",
    "segmenter": r"Err\(Memory\)",
    "next": r"Err\(Memory\)",
    "read-line": r"Err\(Memory\)",
    "read-passage-line": r"Err\(Memory\)",
    "read-back": r"Err\(Memory\)",
    "write-line": r"Err\(AllocError\)",
    "mark-text": r"Err\(AllocError\)",
    "push-line": r"Err\(AllocError\)",
    "push-passage-line": r"Err\(AllocError\)",
    "push-scalar": r"Err\(AllocError\)",
    "push-mark": r"Err\(AllocError\)",
    "break-text": rf"Err\((Files\((Memory|Tables\({TABLES}\))\)|Text\((Memory|Passage\(Memory\))\))\)",
    "show": r"Err\((Memory|Passage\(Memory\))\)",
    "segment": r"Err\((Memory|Passage\(Memory\))\)",
    "replay": r"Err\(Memory\)",
    "parse": r"Err\(Memory\)",
    "front": r"Err\(Memory\)",
    "load": r"Err\(Memory\)",
    "prepare": rf"Err\(Refused\((Memory|Tables\({TABLES}\))\)\)",
    "run": rf"Refused\((Memory|Tables\({TABLES}\)|Cmd\((Memory|Passage\(Memory\))\)|Replay\(Memory\))\)",
    "quiet": None,
}


def row_wants(key, run):
    """Whether a row returns out of memory."""
    answer = run.out.partition(b"\nwrote\n")[0].rstrip(b"\n")
    return WANT[key] is not None and re.fullmatch(WANT[key].encode(), answer) is not None


def row_fits(key, ample, run):
    """Whether a row with a refused allocation returns out of memory, or the result with ample memory."""
    if WANT[key] is None:
        return False
    if run == ample:
        return True
    _, wrote, went_out = run.out.partition(b"\nwrote\n")
    _, would_write, would_go_out = ample.out.partition(b"\nwrote\n")
    is_front = wrote == would_write and would_go_out.startswith(went_out)
    return run.status == 0 and run.err == b"" and row_wants(key, run) and is_front


def calls_that_want(run):
    """The lines of a row of `next` that report out of memory."""
    return [k for k, line in enumerate(run.out.splitlines()) if line.startswith(b"Err(Memory)")]


def next_fits(ample, run):
    """Whether one call of `next` returns out of memory, and the same call again reads nothing and returns the usual
    result."""
    lines = run.out.splitlines()
    wanted = calls_that_want(run)
    if run.status != 0 or run.err != b"" or len(wanted) != 1 or wanted[0] + 1 == len(lines):
        return False
    refused = lines.pop(wanted[0])
    again = lines[wanted[0]]
    return lines == ample.out.splitlines() and reads_of(refused) == reads_of(again)


def reads_of(line):
    return line.rsplit(b" after ", 1)[1]


def program_wants(run):
    return re.fullmatch(rb"(lbk: built-in sample data[^\n]*\n)?lbk: ([^\n]*: )?out of memory\n", run.err) is not None


def program_fits(ample, run):
    """Whether a run of the program is as ever, or ends out of memory with one line."""
    return run == ample or (run.status == 1 and program_wants(run) and ample.out.startswith(run.out))


def call_of(name):
    """The call that a row is of, or `lbk`."""
    return re.match("quiet|[^/ ]*", name)[0]
