"""What `./lbk`, `scripts/verdict-of` and `scripts/prove` accept as proved.

In a small repository it tries programs and archives put there by hand, changed sources, other kits, and what `rt ci`
prints and keeps.
"""

import os
import re
import shutil
import signal
import subprocess
import tempfile
import time
from pathlib import Path

from checks.harness import TOP, CannotRun, has

COPIED = ["lbk", *(f"scripts/{it}" for it in ("prove", "verdict-of", "verdicts.py", "gate.py", "lanes"))]
LINES = "low:\nlbk: low\nshown staticlib: low\n"
SOURCES = {
    "low/src/lib.rt": "#![tactic(auto)]\n\npub fn same(x: usize) -> usize {\n    x\n}\n",
    "lbk/stdout": "told\n",
    "lbk/src/main.rt": '#![tactic(auto)]\n\nuse std::io;\n\nfn main(rt: HostRuntime) -> io::Result<()> {\n    println!(rt; "told")\n}\n',
    "shown/src/lib.rt": '#![tactic(auto)]\n\n#[unsafe(no_mangle)]\npub extern "C" fn shown(x: usize) -> usize {\n    x\n}\n',
}
FAILED_PROOF = 70
NO_VERDICT = 1, "there is no verdict on lbk"
# What the proof of lbk is of.
CHANGES = {
    "crates/low/src/lib.rt": ("x\n", "x \n"),
    "crates/lbk/src/main.rt": ("told", "tell"),
    "crates.txt": ("lbk: low", "lbk: low bstr"),
    "HANDLES": ("none", "Wait"),
}
IN_GATE = """== lbk: its tests
logic=proved tests=1 functions=2
rt: lbk: its tests are proved
== low
logic=proved functions=1
rt: low proved
== lbk
fn lbk::main: proved
logic=proved functions=3
rt: lbk proved
{}
"""
KEPT = "rt: lbk is kept: an earlier run on this machine proved the same files over the same libraries\n{}\n"


class Repository:
    """A repository of a program and a static library over a library, with this one's scripts."""

    def __init__(self, top):
        self.top, self.path = top, os.environ["PATH"]
        (top / "scripts").mkdir(parents=True)
        for it in COPIED:
            shutil.copy2(TOP / it, top / it)
        for name, text in {"crates.txt": LINES, "HANDLES": "Handles allowed: none.\n"}.items():
            (top / name).write_text(text, encoding="utf-8")
        for name, text in SOURCES.items():
            file = top / "crates" / name
            file.parent.mkdir(parents=True, exist_ok=True)
            file.write_text(text, encoding="utf-8")
        self.program, self.archive = top / "crates/lbk/out/lbk", top / "crates/shown/out/libshown.a"

    def run(self, command, *words):
        """The status, and what was written to standard output and to standard error."""
        how = {"capture_output": True, "text": True, "cwd": self.top,
            "env": {**os.environ, "PATH": self.path, "RT_JOBS": "2"}}
        ran = subprocess.run([command, *words], check=False, stdin=subprocess.DEVNULL, **how)
        return ran.returncode, ran.stdout.strip(), ran.stderr.strip()

    def told(self, *crates):
        status, out, err = self.run("scripts/verdict-of", *crates)
        return status, out or err

    def prove(self, *crates):
        status, _, err = self.run("scripts/prove", *crates)
        return status, err


def link_or_copy(source, to):
    """Copies the command `rt`, which is to be changed, and gives another file a second name, where that can be had."""
    try:
        if Path(source).name == "rt":
            raise OSError
        os.link(source, to)
    except OSError:
        shutil.copy2(source, to)


def forge(file):
    """Puts another file in the place of one, which is newer than all sources."""
    file.unlink(missing_ok=True)
    file.write_bytes(b"#!/bin/sh\necho forged\n")
    file.chmod(0o755)
    later = time.time() + 3600
    os.utime(file, (later, later))


def try_forged(tally, here):
    """Files put into out/ by hand: told of, and proved anew."""
    for crate, file in (("lbk", here.program), ("shown", here.archive)):
        made = file.read_bytes()
        forge(file)
        wanted = 1, f"crates/{crate}/out/{file.name} is not what was made of the sources that were proved"
        tally.equal(f"{file.name} put there by hand, newer than its sources, is told of", here.told(crate), wanted)
        status, said = here.prove(crate)
        is_new = status == 0 and file.read_bytes() == made and f"proving {crate}" in said
        tally.tell(f"{file.name} put there by hand is proved anew", None if is_new else f"status {status}: {said}")
        tally.equal(f"a verdict fits {file.name} again", here.told(crate), (0, ""))


def try_changes(tally, here):
    """Changes of what a verdict is of."""
    source, verdict = here.top / "crates/low/src/lib.rt", here.top / "crates/shown/out/verdict"
    later = time.time() + 3600
    os.utime(source, (later, later))
    tally.equal("a source with another time and the same contents changes nothing", here.told("low", "lbk", "shown"),
        (0, ""))
    text, kept = source.read_bytes(), verdict.read_text(encoding="utf-8")
    source.write_bytes(text.replace(b"x\n", b"x \n"))
    wanted = 1, "the sources of low have changed since lbk was proved"
    tally.equal("a changed source of a library below is told of", here.told("lbk"), wanted)
    source.write_bytes(text)
    line = kept.splitlines()[0]
    verdict.write_text(kept.replace(line, "kit another"), encoding="utf-8")
    wanted = 1, f"shown was proved by another, and the kit here is {line.removeprefix('kit ')}"
    tally.equal("another kit is told of", here.told("shown"), wanted)
    verdict.unlink()
    tally.equal("an archive without a verdict is told of", here.told("shown"), (1, "there is no verdict on shown"))
    verdict.write_text(kept, encoding="utf-8")
    low = here.top / "crates/low/out/rlib/low.rlib/toolchain/checked.a"
    forge(low)
    wanted = 1, "crates/low/out/rlib/low.rlib is not what was made of the sources that were proved"
    tally.equal("a changed file of a library is told of", here.told("low"), wanted)
    status, said = here.prove("low")
    tally.equal("a changed library is proved anew", (status, here.told("low")), (0, (0, "")))


def try_closed_pipe(tally, here):
    """A pipe that nobody reads any more, as by `| head`, ends it in silence."""
    ours, theirs = os.pipe()
    os.close(ours)
    ran = subprocess.run([here.top / "scripts/verdict-of", "--show", "lbk"], stdout=theirs, stderr=subprocess.PIPE,
        env={**os.environ, "PATH": here.path}, check=False)
    os.close(theirs)
    tally.equal("a closed pipe", (ran.returncode, ran.stderr), (-signal.SIGPIPE, b""))


def try_gate(tally, here):
    """The verdict of `rt ci` on the program, by what it printed."""
    log, verdict = here.top / "log", here.top / "crates/lbk/out/verdict"
    _, before, _ = here.run("scripts/verdict-of", "--before-gate", "lbk")
    proofs = {IN_GATE: "proof logic=proved functions=3", KEPT: f"proof {KEPT.splitlines()[0]}"}
    for text, wanted in proofs.items():
        verdict.unlink(missing_ok=True)
        log.write_text(text.format("3 passed, 0 failed"), encoding="utf-8")
        status, _, _ = here.run("scripts/verdict-of", "--from-gate", log, before, "lbk")
        found = status, verdict.read_text(encoding="utf-8").splitlines()[1], here.told("lbk")
        tally.equal(f"the verdict of a gate: {wanted[:40]}", found, (0, wanted, (0, "")))
    verdict.unlink()
    for what, text, end, sources in (
        ("that failed", IN_GATE, "3 passed, 1 failed", before),
        ("that does not name the program", "{}\n", "3 passed, 0 failed", before),
        ("while which sources changed", IN_GATE, "3 passed, 0 failed", before[::-1]),
    ):
        log.write_text(text.format(end), encoding="utf-8")
        status, _, _ = here.run("scripts/verdict-of", "--from-gate", log, sources, "lbk")
        tally.equal(f"a gate {what} leaves no verdict", (status, verdict.exists()), (1, False))


def try_kept_by_gate(tally, here, room):
    """The program after a bare `rt ci`, by the results that it keeps next to the kit."""
    verdict = here.program.with_name("verdict")
    status, out, err = here.run("rt", "ci")
    if not tally.tell("the small repository passes rt ci", None if status == 0 else out + err):
        return
    if keeps_nothing(out):
        tally.leave_out("the program after a bare rt ci, since rt ci keeps nothing here")
        try_left_libraries(tally, here, out)
        return
    tally.equal("rt ci leaves a program without a verdict", (here.program.exists(), verdict.exists()), (True, False))
    tally.equal("after rt ci ./lbk runs the program", here.run("./lbk"), (0, "told", ""))
    made, entry = here.program.read_bytes(), verdict.read_text(encoding="utf-8").split("\n")[1].split()[-1]
    forge(here.program)
    wanted = 1, "crates/lbk/out/lbk is not what was made of the sources that were proved"
    tally.equal("a program put there by hand after rt ci is told of", here.told("lbk"), wanted)
    verdict.unlink()
    tally.equal("so it is where no verdict was written before", here.told("lbk"), NO_VERDICT)
    here.program.write_bytes(made)
    for name, (old, new) in CHANGES.items():
        text = (here.top / name).read_text(encoding="utf-8")
        (here.top / name).write_text(text.replace(old, new, 1), encoding="utf-8")
        tally.equal(f"a change of {name} after rt ci is told of", here.told("lbk"), NO_VERDICT)
        (here.top / name).write_text(text, encoding="utf-8")
    tally.equal("the program of unchanged sources is taken", here.told("lbk"), (0, ""))
    try_kits(tally, here, copied_kit(room / "copied", entry), verdict)


def try_left_libraries(tally, here, out):
    """The libraries that `rt ci` left, where it keeps no results; it ran beside those of `scripts/prove`."""
    log, label = here.top / "log", here.top / "crates/low/out/rlib/stamp"

    def before():
        return here.run("scripts/verdict-of", "--before-gate", "lbk")[1]

    def keep(said_before, out):
        log.write_text(f"{out}\n", encoding="utf-8")
        return here.run("scripts/verdict-of", "--from-gate", log, said_before, "lbk")[0]

    label.unlink()
    tally.equal("a library of an earlier check, which rt ci puts back, gets no label", (keep(before(), out), label.exists()), (0, False))
    for it in ("low", "lbk", "shown"):
        shutil.rmtree(here.top / f"crates/{it}/out")
    said_before = before()
    _, out, _ = here.run("rt", "ci")
    tally.equal("a library that rt ci left alone has its verdict", (keep(said_before, out), here.told("low")), (0, (0, "")))
    status, said = here.prove("shown")
    is_kept = status == 0 and "of 2 crates 1 are proved already" in said and "proving low" not in said
    tally.tell("an archive is proved over it", None if is_kept else f"status {status}: {said}")


def keeps_nothing(out):
    """Whether `rt ci` kept no results: on a disk that is nearly full, and in kits before 13f, which have no place for
    them."""
    store = Path(shutil.which("rt")).resolve().parent.parent.with_name("rattle-kept")
    return not store.is_dir() or re.search("^rt: note: .*(nothing is kept|is not kept)", out, re.M)


def copied_kit(room, entry):
    """The `rt` of a copy of the kit, with what it keeps of the small repository; all but its commands are links."""
    kit = Path(shutil.which("rt")).resolve().parent.parent
    shutil.copytree(kit / "bin", room / "kit/bin", copy_function=link_or_copy)
    for it in kit.iterdir():
        if it.name != "bin":
            (room / "kit" / it.name).symlink_to(it)
    store = room / "rattle-kept"
    store.mkdir(mode=0o700)
    for it in [*kit.with_name("rattle-kept").glob("proof-low-*"), kit.with_name("rattle-kept") / entry]:
        (store / it.name).mkdir()
        shutil.copy2(it / "made.json", store / it.name)
    return room / "kit/bin/rt"


def try_kits(tally, here, rt, verdict):
    """A copy of the kit, with results that count like the kit's, and copies that differ."""
    here.path, path = f"{rt.parent}:{here.path}", here.path
    store, text = rt.parents[2] / "rattle-kept", rt.read_bytes()
    made = next(store.glob("proof-lbk-*")) / "made.json"
    kept = made.read_bytes()

    def row(what, wanted):
        verdict.unlink(missing_ok=True)
        tally.equal(what, here.told("lbk"), wanted)

    row("a copy of the kit and of what it keeps is as good", (0, ""))
    made.write_bytes(kept.replace(b'"key": "', b'"key": "0'))
    row("an entry under another name counts for nothing", NO_VERDICT)
    made.write_bytes(kept[:-9])
    row("nor does a part of one", NO_VERDICT)
    made.write_bytes(kept)
    store.chmod(0o755)
    row("nor what others may read and write", NO_VERDICT)
    store.chmod(0o700)
    for what, other in (
        ("whose rt has one line more", text + b"# \n"),
        ("whose rt keeps nothing", text.replace(b"made.json", b"made.txt")),
        ("whose rt has no such class", b"STORE = '/'\n"),
        ("whose rt ends at once", b"import sys\nsys.exit(0)\n"),
        ("whose rt is no Python", b"#!/bin/sh\nexit 0\n"),
    ):
        rt.write_bytes(other)
        row(f"nor a kit {what}", NO_VERDICT)
    rt.write_bytes(text)
    row("an rt of other times is another kit", NO_VERDICT)
    here.path = path
    row("the kit's own counts as before", (0, ""))


def try_without_proof(tally, here, room):
    """Where nothing can be proved, a program put there by hand does not stay."""
    here.path = f"{failing_kit(room)}:{here.path}"
    forge(here.program)
    status, said = here.prove("lbk")
    tally.equal("where no proof is to be had, no program is left", (status, here.program.exists()),
        (FAILED_PROOF, False))
    tally.tell("it says of which crate", None if "is not proved, as the lines above say" in said else said)


def failing_kit(room):
    """A folder with a command rt that proves nothing."""
    folder = room / "kit/bin"
    folder.mkdir(parents=True)
    (folder / "rt").write_text("#!/bin/sh\necho 'this rt proves nothing'\nexit 1\n", encoding="utf-8")
    (folder / "rt").chmod(0o755)
    return folder


def run(tally, _arguments):
    if not has("rt"):
        raise CannotRun("rt is needed to prove the small repository, and is not there")
    with tempfile.TemporaryDirectory() as name:
        here = Repository(Path(name) / "repository")
        tally.equal("nothing is built", here.told("lbk"), (1, "lbk is not built"))
        status, said = here.prove("lbk", "shown")
        if not tally.tell("the small repository is proved", None if status == 0 else said):
            return
        tally.equal("verdicts fit what was proved", here.told("low", "lbk", "shown"), (0, ""))
        tally.equal("what is proved is not proved again", here.prove("lbk", "shown"), (0, ""))
        try_forged(tally, here)
        try_changes(tally, here)
        try_closed_pipe(tally, here)
        try_gate(tally, here)
        try_kept_by_gate(tally, here, Path(name))
        try_without_proof(tally, here, Path(name))
