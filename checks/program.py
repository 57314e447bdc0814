"""Runs a program within bounds, and records how it ended."""

import os
import resource
import subprocess
import tempfile
from pathlib import Path
from typing import NamedTuple

BLOCK = 1 << 16
MIB = 1 << 20
ANY = resource.RLIM_INFINITY


class Ended(NamedTuple):
    """A status and all that a run wrote."""

    status: int
    out: bytes
    err: bytes


def run(words, given=b"", seconds=600, **more):
    """Runs a program over some bytes, and returns how it ended. One that takes longer than so many seconds ends the
    check."""
    ran = subprocess.run(words, input=given, capture_output=True, check=False, timeout=seconds, **more)
    return Ended(ran.returncode, ran.stdout, ran.stderr)


class Long:
    """How a run over a long stream ended: status, standard error, the front and the end of what was written, its bytes
    and lines, the seconds of processor time, and the most bytes that it held before its input ended. `memory` is the
    most bytes that it may take."""

    def __init__(self, words, parts, memory=ANY):
        with tempfile.TemporaryFile() as out, tempfile.TemporaryFile() as err:
            with subprocess.Popen(
                words,
                stdin=subprocess.PIPE,
                stdout=out,
                stderr=err,
                bufsize=0,
                preexec_fn=lambda: resource.setrlimit(resource.RLIMIT_AS, (memory, memory)),
            ) as process:
                feed(process.stdin, parts)
                # (what wait4 says of the peak counts this program's own too)
                self.peak = peak_of(process.pid)
                close(process.stdin)
                _, status, usage = os.wait4(process.pid, 0)
                process.returncode = os.waitstatus_to_exitcode(status)
            self.status = process.returncode
            self.seconds = usage.ru_utime + usage.ru_stime
            self._read(out, err)

    def _read(self, out, err):
        self.bytes = out.seek(0, os.SEEK_END)
        out.seek(max(0, self.bytes - 200))
        self.end = out.read()
        out.seek(0)
        self.front = out.read(200)
        out.seek(0)
        self.lines = sum(block.count(b"\n") for block in iter(lambda: out.read(BLOCK), b""))
        err.seek(0)
        self.err = err.read(2000).decode()

    def fault(self, status, err=""):
        """What is wrong with how the run ended, if anything is."""
        if self.status != status:
            return f"status {self.status}, not {status}; standard error: {self.err.strip()}"
        if self.err.strip() != err:
            return f"standard error: {self.err.strip()}"
        return None


def feed(pipe, parts):
    """Writes parts, each a pattern and how many bytes of its repetition; the reader may stop before their end."""
    try:
        for pattern, length in parts:
            block = pattern * max(1, BLOCK // len(pattern))
            whole, rest = divmod(length, len(block))
            for _ in range(whole):
                pipe.write(block)
            pipe.write(block[:rest])
    except BrokenPipeError:
        pass


def close(pipe):
    """Closes a pipe, whether its reader is there or not."""
    try:
        pipe.close()
    except BrokenPipeError:
        pass


def peak_of(pid):
    """The most bytes that a process has held up to now; 0 where it has ended, or where the system does not say."""
    try:
        lines = Path(f"/proc/{pid}/status").read_text(encoding="ascii").splitlines()
    except OSError:
        return 0
    return next((int(line.split()[1]) * 1024 for line in lines if line.startswith("VmHWM:")), 0)


def redirected(redirections, words, given=b"", **more):
    """Runs a program with the shell's redirections of its streams."""
    return run(["bash", "-c", f'exec "$@" {redirections}', "bash", *words], given, **more)
