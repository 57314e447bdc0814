"""The program of the package lbk-cli with each allocation refused, in a third of the rows of `refused-allocations`.

Rust's start, the words of the call, boxes and maps end the process where memory runs out (status SIGABRT); lists and
texts report it. No run may answer otherwise than with ample memory.
"""

import signal
import tempfile
from pathlib import Path

from checks.harness import has
from checks.refused_allocations import Refusals, Trials, wants
from checks.refused_allocations.program_runs import PROGRAM, write_files


class Ends:
    """Which runs fit, and how many of them Rust ended."""

    def __init__(self):
        self.aborted = self.reported = 0

    def fit(self, ample, run):
        if run.status == -signal.SIGABRT and b"memory allocation of" in run.err and ample.out.startswith(run.out):
            self.aborted += 1
            return True
        self.reported += run != ample
        return wants.program_fits(ample, run)


def run(tally, program):
    if not has("gcc"):
        tally.leave_out("refused allocations of the package's program, since gcc is not there (Debian's package gcc)")
        return
    trials, ends = Trials(tally), Ends()
    with tempfile.TemporaryDirectory() as folder:
        refusals = Refusals(Path(folder))
        write_files(Path(folder))
        for name, given, words in PROGRAM[::3]:
            trials.try_each(name, (False,),
                lambda n, later, words=words, given=given: refusals.run([program, *words], n, later, True, given),
                wants.program_wants, ends.fit)
    told = f"lbk-cli: of the refused allocations {ends.reported} are reported, {ends.aborted} end the process"
    tally.tell(told, None if ends.reported > ends.aborted > 0 else "most are to be reported")
