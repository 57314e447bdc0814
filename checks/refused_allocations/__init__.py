"""Each allocation of each row of crates/trials_bench, and of the program, refused in turn.

A row runs with ample memory, and then with the n-th allocation refused, n from 1 until a run meets no refusal; and
again with all later ones refused, too. The row has to return out of memory, or the result with ample memory, and its
output is a prefix of that run's output. The rows `quiet..` allocate nothing, so nothing can be refused. Arguments are
prefixes of names: only these rows run.
"""

import os
import tempfile
from pathlib import Path
from typing import NamedTuple

from checks import c_programs
from checks.harness import CannotRun, built_crate, built_program
from checks.program import run as run_program
from checks.refused_allocations import wants
from checks.refused_allocations.program_runs import PROGRAM, by_folder, write_files
from checks.unicode_files import MISSING, published


class Run(NamedTuple):
    """How a run ended, and whether allocations were counted in it."""

    status: int
    out: bytes
    err: bytes
    is_counted: bool


class Refusals:
    """Runs programs with allocations refused."""

    def __init__(self, here):
        self.here = here
        self.told = here / "told"
        self.library = c_programs.build("c/refuse.c", here / "refuse.so", "-shared", "-fPIC", compiler="gcc")

    def run(self, words, n=0, later=False, from_start=False, given=b""):
        """The run with the n-th allocation refused, 0 for none, and whether one was."""
        self.told.write_bytes(b"")
        env = dict(os.environ, LD_PRELOAD=self.library, REFUSE=str(n), REFUSE_TOLD=self.told)
        env.update({"REFUSE_LATER": "1"} if later else {})
        env.update({"REFUSE_FROM_START": "1"} if from_start else {})
        ended = run_program(words, given, cwd=self.here, env=env)
        told = self.told.read_bytes()
        return Run(*ended, from_start or b"b" in told), b"x" in told


class Trials:
    """Refuses the allocations of rows, and counts how many of each call were refused."""

    def __init__(self, tally):
        self.tally = tally
        self.of_calls = {}

    def try_each(self, name, laters, run_with, is_want, fits):
        """Refuses each allocation in turn. `run_with(n, later)` runs, `is_want(run)` and `fits(ample, run)` judge."""
        ample, _ = run_with(0, False)
        if ample.out + ample.err == b"" or is_want(ample) or not ample.is_counted:
            self.fails(name, 0, False, ample, ample)
            return
        count = 0
        self.of_calls.setdefault(wants.call_of(name), 0)
        for later in laters:
            n = 0
            refused = True
            while refused:
                n += 1
                run, refused = run_with(n, later)
                count += refused
                if not (fits(ample, run) if refused else run == ample):
                    self.fails(name, n, later, ample, run)
                    return
        self.of_calls[wants.call_of(name)] += count
        self.tally.tell(f"{name:<32} {count:5} allocations refused")

    def tell_idle(self):
        """Fails each call that may be out of memory but had no refused allocation: then nothing was tried."""
        for call, count in self.of_calls.items():
            if count == 0 and wants.WANT.get(call, "") is not None:
                self.tally.tell(call, "no allocation was refused")

    def fails(self, name, n, later, ample, run):
        which = "nothing refused" if n == 0 else f"allocation {n}" + " and all later ones" * later
        parts = [which]
        for what, it in (("with ample memory", ample), ("with the allocation refused", run)):
            shown = (it.out[:600] + b"\n" + it.err[:300]).decode(errors="replace").rstrip()
            counted = "" if it.is_counted else ", no allocations counted"
            parts.append(f"--- {what}: status {it.status}{counted}\n{shown}")
        self.tally.tell(name, "\n".join(parts))


def try_row(trials, refusals, program, name):
    words = [program, *name.split()]
    key = wants.call_of(name)
    if key not in wants.WANT:
        raise CannotRun(f"it is not known what {name} returns out of memory")
    is_next = key == "next"
    trials.try_each(
        name,
        # A call of `next` that is made again would meet the next refusal.
        (False,) if is_next else (False, True),
        lambda n, later: refusals.run(words, n, later),
        wants.calls_that_want if is_next else lambda run: wants.row_wants(key, run),
        wants.next_fits if is_next else lambda ample, run: wants.row_fits(key, ample, run),
    )


def try_program(trials, refusals, program, name, given, words):
    trials.try_each(
        name,
        (False, True),
        lambda n, later: refusals.run([program, *words], n, later, True, given),
        wants.program_wants,
        wants.program_fits,
    )


def try_rows(trials, refusals, chosen):
    program = built_crate("trials_bench", is_newest=True)
    rows, _ = refusals.run([program])
    if rows.status != 0:
        raise CannotRun(f"trials_bench ended with {rows.status}: {rows.err.decode(errors='replace')}")
    for line in rows.out.decode().splitlines():
        name = line.removeprefix("row ")
        if name != line and name.startswith(chosen):
            try_row(trials, refusals, program, name)


def run(tally, arguments):
    chosen = tuple(arguments) or ("",)
    trials = Trials(tally)
    with tempfile.TemporaryDirectory() as folder:
        here = Path(folder)
        refusals = Refusals(here)
        if not all(it.startswith("lbk") for it in chosen):
            try_rows(trials, refusals, chosen)
        write_files(here)
        program = built_program()
        if published() is None:
            tally.leave_out(f"lbk mark --ucd: {MISSING}")
        for name, given, words in [*PROGRAM, *([by_folder(published())] if published() else [])]:
            if name.startswith(chosen):
                try_program(trials, refusals, program, name, given, words)
    if chosen == ("",):
        trials.tell_idle()
    print(f"{sum(trials.of_calls.values())} allocations refused")
