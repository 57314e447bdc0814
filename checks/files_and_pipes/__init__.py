"""The program and the system: files by their names, pipes, faults far into a text, arguments, a terminal.

Each row compares the status and all output; the rows of the part `calls` also compare how often the system was asked to
read and to write. It needs no other files. Arguments name the parts to run: files, pipes, faults, arguments,
paragraphs, calls, empty-calls, kept, terminal, texts.
"""

import tempfile

from checks.files_and_pipes import arguments, calls, empty_calls, faults, files, kept, paragraphs, pipes, terminal, texts
from checks.files_and_pipes.place import Place
from checks.harness import CannotRun, built_program

PARTS = {
    "files": files.run,
    "pipes": pipes.run,
    "faults": faults.run,
    "arguments": arguments.run,
    "paragraphs": paragraphs.run,
    "calls": calls.run,
    "empty-calls": empty_calls.run,
    "kept": kept.run,
    "terminal": terminal.run,
    "texts": texts.run,
}


def run(tally, chosen):
    program = built_program()
    for part in chosen or PARTS:
        if part not in PARTS:
            raise CannotRun(f"there is no part {part}")
        with tempfile.TemporaryDirectory() as folder:
            PARTS[part](Place(tally, program, folder))
