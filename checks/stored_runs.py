"""The program's output and status for each folder of crates/lbk/runs, compared with those stored there.

A folder has the files args (one argument per line), stdin, stdout, stderr and status. A missing file means no
arguments, nothing to read, nothing written, or status 0. A run finds the files of crates/lbk/data in its working
directory, and the files of its own folder's data next to them. It needs no published files.
"""

import difflib
import shutil
import tempfile
from pathlib import Path

from checks.harness import TOP, built_program
from checks.program import run as run_program


def stored(path):
    """The bytes of a file, none where it is not there."""
    return path.read_bytes() if path.exists() else b""


def difference(name, wanted, got):
    """How what was written differs from what is stored, as lines."""
    lines = [text.decode(errors="replace").splitlines() for text in (wanted, got)]
    return "\n".join(difflib.unified_diff(*lines, f"stored {name}", f"written {name}", lineterm=""))


def one_run(tally, program, folder, place):
    shutil.copytree(TOP / "crates/lbk/data", place)
    if (folder / "data").is_dir():
        shutil.copytree(folder / "data", place, dirs_exist_ok=True)
    words = stored(folder / "args").split(b"\n")
    words = words[:-1] if words[-1] == b"" else words
    ended = run_program([program, *words], stored(folder / "stdin"), cwd=place)
    faults = []
    for name, got in (("stdout", ended.out), ("stderr", ended.err)):
        wanted = stored(folder / name)
        if got != wanted:
            faults.append(difference(name, wanted, got) or f"the bytes of {name} differ")
    wanted = int(stored(folder / "status").strip() or b"0")
    if ended.status != wanted:
        faults.append(f"status {ended.status}, not {wanted}")
    tally.tell(folder.name, "\n".join(faults) if faults else None)


def run(tally, _arguments):
    program = built_program()
    with tempfile.TemporaryDirectory() as room:
        for folder in sorted((TOP / "crates/lbk/runs").iterdir()):
            if folder.is_dir():
                one_run(tally, program, folder, Path(room) / folder.name)
