"""The sources without their contracts: what the eraser takes and refuses, the packages, and their program beside the proved one.

Arguments name the parts to run: forms (the eraser's rows), program (the checks of the program over the package's one),
memory (its allocations refused), c (the examples for C with the package's library), beside (drawn command lines,
`beside=N` so many), lanes, alone (cargo with Rust alone), platforms (other machines, and the oldest Rust), library (the calls,
`library=N` over so many positions), edits (wrong edits, which have to be found).
It needs cargo and rustfmt.
"""

import tempfile
from pathlib import Path

from checks.erased import alone, bare, beside, c_calls, lanes, library, package, platforms, program, refused, rows, wrong_edits
from checks.harness import CannotRun, built_program

PARTS = ("forms", "program", "memory", "c", "beside", "lanes", "alone", "platforms", "library", "edits")
# Those that run what cargo built of the packages.
OF_BUILT = {"program", "memory", "c", "beside"}
COMMAND_LINES = 2000


def run_parts(tally, room, chosen):
    """Runs the parts that need the packages."""
    folder = package.run(tally, room)
    target = package.built(folder, "--release") if folder and OF_BUILT & chosen.keys() else None
    if target and "program" in chosen:
        program.run(tally, target / "release/lbk")
    if target and "memory" in chosen:
        refused.run(tally, target / "release/lbk")
    if target and "c" in chosen:
        c_calls.run(tally, target)
    if target and "beside" in chosen:
        beside.run(tally, room, target / "release/lbk", built_program(), int(chosen["beside"] or COMMAND_LINES))
    if folder and "lanes" in chosen:
        lanes.run(tally, folder)
    if folder and "alone" in chosen:
        alone.run(tally, room, folder)
    if folder and "platforms" in chosen:
        platforms.run(tally, room, folder)
        bare.run(tally, room, folder)
    if folder and "library" in chosen:
        library.run(tally, room, folder, int(chosen["library"] or library.POSITIONS))
    if "edits" in chosen:
        wrong_edits.run(tally, room, folder)


def run(tally, arguments):
    chosen = {it.partition("=")[0]: it.partition("=")[2] for it in arguments or PARTS}
    if unknown := [it for it in chosen if it not in PARTS]:
        raise CannotRun(f"there is no part {unknown[0]}")
    if "forms" in chosen:
        rows.run(tally)
    if set(chosen) != {"forms"}:
        with tempfile.TemporaryDirectory() as folder:
            run_parts(tally, Path(folder), chosen)
