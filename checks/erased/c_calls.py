"""The library of the package lbk-c: its symbols are the calls of the header, and the examples for C count with it."""

import re
import subprocess

from checks import c_programs
from checks.harness import TOP, has
from checks.unicode_files import NAMES, published

# Examples that count what they try, each with its numbers, and whether it takes the property files, as such or as texts.
COUNTING = {
    "edges": ([], False),
    "fuzz": (["5000", "1"], True),
    "streams": (["20000", "1"], False),
    "streams_utf16": (["20000", "1"], False),
    "blocks": (["20000", "1"], False),
    "cuts": (["5000", "1"], False),
    "units": (["20000", "1"], False),
    "marks": (["20000", "1"], True),
    "chunks": (["100000", "1"], True),
    "published": ([], True),
}


def symbols(library):
    """The calls that a shared library shows."""
    said = subprocess.run(["nm", "-D", "--defined-only", library], capture_output=True, text=True, check=True).stdout
    return set(re.findall(r" T (lbk_\w+)$", said, re.M))


def run(tally, target):
    if not has("cc", "nm"):
        tally.leave_out("the library of lbk-c, since cc is not there (Debian's packages gcc and binutils)")
        return
    header = (TOP / "include/lbk.h").read_text(encoding="utf-8")
    declared = set(re.findall(r"^\w+ (lbk_\w+)\([^;{]*\);", header, re.M))
    tally.equal("lbk-c: the symbols of lbk.h", symbols(target / "release/liblbk.so"), declared)
    words = ["-I", TOP / "include", "-I", TOP / "examples", target / "release/liblbk.a", "-lpthread"]
    folder = published()
    if not folder:
        tally.leave_out("examples that take the published files (Debian's package unicode-data)")
    files = [folder / it for it in NAMES] if folder else []
    for name, (numbers, takes_files) in COUNTING.items():
        if files or not takes_files:
            program = c_programs.build(TOP / f"examples/{name}.c", target / name, *words)
            c_programs.count(tally, f"lbk-c: {name}.c", [program, *numbers, *(files if takes_files else [])])
    # (the symbols, where each access is watched)
    if has("valgrind"):
        watched = ["valgrind", "--quiet", "--error-exitcode=9"]
        for name in ("edges", "streams", "blocks", "chunks"):
            numbers = ["50", "1"] if COUNTING[name][0] else []
            if files or not COUNTING[name][1]:
                more = files if COUNTING[name][1] else []
                c_programs.count(tally, f"lbk-c: {name}.c under valgrind", [*watched, target / name, *numbers, *more])
    else:
        tally.leave_out("lbk-c under valgrind (Debian's package valgrind)")
    program = c_programs.build("c/threads.c", target / "threads", *words)
    if files:
        c_programs.count(tally, "lbk-c: threads.c", [program, *files])
