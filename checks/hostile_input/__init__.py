"""Bounds on the program's time and memory over costly files, texts and test files, and at the largest sizes.

Time is the processor time of the program only, so other work on the machine changes it little. A result over its bound
is measured twice more, at both lengths together, and one time within the bound is enough. Where memory must not grow
with a stream, the run gets little memory, and any more would be refused. It needs no other files. Arguments name the
parts to run: streams, lines, passages, sizes, files, arguments.
"""

import tempfile

from checks.harness import CannotRun, built_program
from checks.hostile_input import arguments, lines, passages, property_files, sizes, streams
from checks.hostile_input.bounds import Hostile

PARTS = {
    "streams": streams.run,
    "lines": lines.run,
    "passages": passages.run,
    "sizes": sizes.run,
    "files": property_files.run,
    "arguments": arguments.run,
}


def run(tally, chosen):
    program = built_program()
    for name in chosen or PARTS:
        if name not in PARTS:
            raise CannotRun(f"there is no part {name}")
        with tempfile.TemporaryDirectory() as folder:
            PARTS[name](Hostile(tally, program, folder))
