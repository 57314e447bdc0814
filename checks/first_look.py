"""`./lbk` without a proved program: it builds the program once, by cargo or else by the kit, and passes all on to it.

Stand-ins for cargo and `rt` show what is built, and what the program is given. With the argument --build the real
program is built in a fresh clone, and run.
"""
import os
import pty
import shutil
import subprocess
import sys
import tempfile
import time
from concurrent.futures import ThreadPoolExecutor
from pathlib import Path

from checks.harness import TOP, built_program, has, shown
from checks.program import run as run_program
from checks.unicode_files import MISSING, OPTIONS, published

SAID = ("nothing of this run is proved", "./lbk --prove", "rt ci")
# Words that a program could be given wrong.
WORDS = ["mark", "--ucd=a b", "", "a\nb", "--", "-h", "é\u202e", "*"]
PROGRAM = "#!/bin/sh\nprintf '%s\\0' \"$@\" > \"$TRIED/words\"\ncat > \"$TRIED/input\"\necho 'a fault' >&2\nprintf 'wrote'\nexit 3\n"
CARGO = f"""#!/bin/sh
[ "$1" != --version ] || {{ echo "cargo $CARGO_IS (a date)"; exit; }}
printf '%s ' "$@" >> "$TRIED/cargo"
echo 'error: a fault of cargo' >&2
[ -z "$CARGO_FAILS" ] || exit 101
sleep 0.2
mkdir -p target/release
cat > target/release/lbk << 'END'
{PROGRAM}END
chmod +x target/release/lbk
"""
KIT = """#!/bin/sh
[ "$1" != doc ] || { echo "$TRIED/kit/START-HERE.md"; exit; }
printf '%s\\0' "$@" > "$TRIED/rt"
cat > "$TRIED/input"
printf 'lbk: a fault\\ninterpreter: no-answer\\nrun=ended status=1 proved=no\\n' >&2
printf 'wrote'
"""
TOOLS = ("bash", "sh", "env", "dirname", "cat", "chmod", "mkdir", "mv", "sleep", "find", "readlink", "sha256sum")


class Clone:
    """What ./lbk needs of a repository, with a small program and a small kit, and stand-ins for cargo and `rt`."""

    def __init__(self, room):
        self.top, self.bin, self.room = room / "clone", room / "bin", room
        for it in ("scripts", "packages/plain"):
            shutil.copytree(TOP / it, self.top / it, ignore=shutil.ignore_patterns("__pycache__"))
        shutil.copy2(TOP / "lbk", self.top)
        for it in ("CHANGELOG.md", "docs/lbk.1", "docs/lbk.bash", "crates/lbk/src/main.rt"):
            (self.top / it).parent.mkdir(parents=True, exist_ok=True)
            (self.top / it).touch()
        (self.top / "crates.txt").write_text("lbk:\n")
        self.source().write_text("fn main() { }\n")
        for it in ("bstr", "clap", "strsim", "ucd_table"):
            (room / "kit/rattle" / it / "src").mkdir(parents=True)
            (room / "kit/rattle" / it / "src/lib.rt").touch()
        self.bin.mkdir()
        for it in TOOLS:
            (self.bin / it).symlink_to(shutil.which(it))
        (self.bin / "python3").symlink_to(sys.executable)
        for name, text in (("cargo", CARGO), ("rt", KIT)):
            (self.bin / name).write_text(text)
            (self.bin / name).chmod(0o755)
        (room / "place").mkdir()

    def source(self):
        return self.top / "crates/lbk/src/main.rt"

    def env(self, **more):
        return {"PATH": str(self.bin), "TRIED": str(self.room), "LC_ALL": "C.UTF-8", "CARGO_IS": "1.99.0", **more}

    def run(self, words, given=b"", **more):
        for it in ("words", "rt", "cargo", "input"):
            (self.room / it).unlink(missing_ok=True)
        return run_program([self.top / "lbk", *words], given, cwd=self.room / "place", env=self.env(**more))

    def taken(self, name):
        """The words that a stand-in was given, or None."""
        path = self.room / name
        return path.read_bytes().decode().split("\0")[:-1] if path.exists() else None

    def builds(self):
        """How often cargo built."""
        path = self.room / "cargo"
        return path.read_text().count("build ") if path.exists() else 0


def built_once(tally, clone):
    """The first run builds, the others do not; each has the caller's words, input, output, messages and status."""
    for what, words, builds in (("the first run", [], 1), ("the second run", [], 0), ("--unproved", ["--unproved"], 0)):
        ended = clone.run([*words, *WORDS], b"read\xff")
        tally.equal(f"{what}: what cargo builds", clone.builds(), builds)
        tally.equal(f"{what}: the words", clone.taken("words"), WORDS)
        tally.equal(f"{what}: the input", (clone.room / "input").read_bytes(), b"read\xff")
        tally.equal(f"{what}: the output and the status", (ended.out, ended.status), (b"wrote", 3))
        *own, last = ended.err.decode().splitlines()
        tally.equal(f"{what}: the program's message", last, "a fault")
        is_told = len(own) == builds and all(it in "".join(own) for it in SAID * builds)
        tally.tell(f"{what}: what is said of it", None if is_told else shown(ended.err))


def on_a_terminal(tally, clone):
    """On a terminal each run says that nothing is proved."""
    ours, theirs = pty.openpty()
    with subprocess.Popen([clone.top / "lbk"], stdin=subprocess.DEVNULL, stdout=subprocess.DEVNULL, stderr=theirs,
        cwd=clone.room / "place", env=clone.env()) as ran:
        ran.wait()
    said = os.read(ours, 1000).decode().splitlines()
    os.close(ours)
    os.close(theirs)
    tally.equal("on a terminal", said, [f"lbk: {SAID[0]}", "a fault"])


def built_again(tally, clone):
    """A change of anything that the program is built of is seen, and the former program goes."""
    for it in (clone.source(), clone.top / "scripts/erasing/rust.py", clone.top / "packages/plain/kit/bytes.rs"):
        before = it.read_text(encoding="utf-8")
        it.write_text(before + "\n", encoding="utf-8")
        clone.run([])
        tally.equal(f"after a change of {it.name}", clone.builds(), 1)
        it.write_text(before, encoding="utf-8")
    clone.run([])
    tally.equal("one program is kept", len(list((clone.top / "out/unproved").glob("*-lbk"))), 1)


def started_at_once(tally, clone):
    """While nothing changes a run needs no Python; whatever changes is seen, also if it keeps a file's size and time."""
    clone.run([])
    (clone.bin / "python3").rename(clone.bin / "hidden")
    for words in ([], ["--unproved"]):
        ended = clone.run([*words, *WORDS], b"read")
        got = ended.status, ended.out, clone.taken("words"), ended.err
        tally.equal(f"without Python: {words or 'the next run'}", got, (3, b"wrote", WORDS, b"a fault\n"))
    (clone.bin / "hidden").rename(clone.bin / "python3")
    source = clone.source()
    before, times = source.read_text(encoding="utf-8"), source.stat()
    source.write_text("fn main() {;}\n", encoding="utf-8")
    os.utime(source, ns=(times.st_atime_ns, times.st_mtime_ns))
    clone.run([])
    tally.equal("a source of the same size and time", clone.builds(), 1)
    source.write_text(before, encoding="utf-8")
    clone.run([])
    for what in ("the next kit", "no kit's name"):
        if what == "the next kit":
            (clone.room / "KIT-ID").write_text("kit next\n", encoding="utf-8")
        else:
            (clone.room / "KIT-ID").unlink()
        clone.run([])
        tally.equal(what, clone.builds(), 1)
    next((clone.top / "out/unproved").glob("*-lbk")).unlink()
    clone.run([])
    tally.equal("the program was removed", clone.builds(), 1)
    source.touch()
    clone.run([])
    tally.equal("a source that was only touched", clone.builds(), 0)


def at_once(tally, clone):
    """Runs that begin at once build once."""
    shutil.rmtree(clone.top / "out")
    clone.run(["--help"], CARGO_FAILS="yes")
    (clone.room / "cargo").unlink()
    with ThreadPoolExecutor() as pool:
        words = {"cwd": clone.room / "place", "env": clone.env()}
        runs = [pool.submit(run_program, [clone.top / "lbk"], **words) for _ in range(3)]
    tally.equal("three runs at once", ([it.result().status for it in runs], clone.builds()), ([3, 3, 3], 1))


def not_built(tally, clone):
    """Where the program cannot be built it is said why, and nothing is kept."""
    shutil.rmtree(clone.top / "out")
    ended = clone.run(["mark"], CARGO_FAILS="yes")
    is_told = ended.status == 70 and b"error: a fault of cargo" in ended.err and clone.taken("words") is None
    tally.tell("cargo fails", None if is_told else f"status {ended.status}, {shown(ended.err)}")
    clone.source().write_text("fn main() {\n    todo!() }\n")
    ended = clone.run(["mark"])
    is_told = ended.status == 70 and b"lbk: lbk/src/main.rt:2: the macro todo" in ended.err
    tally.tell("a source is refused", None if is_told else f"status {ended.status}, {shown(ended.err)}")
    tally.equal("nothing is kept", list((clone.top / "out/unproved").glob("*-lbk")), [])
    clone.source().write_text("fn main() { }\n")


def by_kit(tally, clone):
    """Without a cargo that is new enough `rt try` runs the program, on files by their whole names."""
    (clone.room / "place/text").write_bytes(b"ab")
    place = clone.room / "place"
    words = ["mark", "--ucd=text", "--line-break", "text", "text", "none", "--limit=9", "-"]
    wanted = ["mark", f"--ucd={place}/text", "--line-break", f"{place}/text", f"{place}/text", "none", "--limit=9", "-"]
    for what, more in (("an old cargo", {"CARGO_IS": "1.60.0"}), ("no cargo", {})):
        if what == "no cargo":
            (clone.bin / "cargo").rename(clone.bin / "hidden")
        ended = clone.run(words, b"read", **more)
        tally.equal(f"{what}: the words", clone.taken("rt"), ["try", "--steps", "1", "--", *wanted])
        tally.equal(f"{what}: the input", (clone.room / "input").read_bytes(), b"read")
        tally.equal(f"{what}: the output and the status", (ended.out, ended.status), (b"wrote", 1))
        own, *rest = ended.err.decode().splitlines()
        tally.equal(f"{what}: the messages", rest, ["lbk: a fault"])
        tally.tell(f"{what}: what is said", None if all(it in own for it in (*SAID, "64 MiB")) else own)
    (clone.bin / "hidden").rename(clone.bin / "cargo")


def without_tools(tally, clone):
    """Without Python 3 or the kit there is one plain line."""
    shutil.rmtree(clone.top / "out")
    for name, tool in (("Python 3", "python3"), ("the kit", "rt")):
        (clone.bin / tool).rename(clone.bin / "hidden")
        ended = clone.run(["mark"])
        is_told = ended.status == 70 and ended.err.startswith(b"lbk: ") and ended.err.count(b"\n") == 1
        tally.tell(f"without {name}", None if is_told else f"status {ended.status}, {shown(ended.err)}")
        (clone.bin / "hidden").rename(clone.bin / tool)


def built(tally):
    """A fresh clone answers as the proved program does, before any proof."""
    program = built_program()
    with tempfile.TemporaryDirectory() as room:
        clone = Path(room) / "clone"
        shutil.copytree(TOP, clone, ignore=shutil.ignore_patterns("out", ".git", "__pycache__", "dist"))
        text = Path(room) / "text"
        text.write_bytes(b"ab cd\n" * 1000)
        files = [word for option, it in zip(OPTIONS, published_files()) for word in (option, it)]
        for words in (["mark", *files, text], ["chunk", "--text", "--most", "80", *files, text], ["segment", "--bogus"]):
            started = time.monotonic()
            ended = run_program([clone / "lbk", *words])
            print(f"a fresh clone answers after {time.monotonic() - started:.1f} s")
            wanted = run_program([program, *words])
            tally.equal(f"a fresh clone: {words[0]} {words[1]}", (ended.out, ended.status), (wanted.out, wanted.status))


def published_files():
    """The four files of Unicode, by their paths."""
    folder = Path(published())
    return [folder / it for it in ("LineBreak.txt", "EastAsianWidth.txt", "extracted/DerivedGeneralCategory.txt",
        "emoji/emoji-data.txt")]


def run(tally, arguments):
    with tempfile.TemporaryDirectory() as folder:
        clone = Clone(Path(folder))
        for one in (built_once, on_a_terminal, built_again, started_at_once, at_once, not_built, by_kit, without_tools):
            one(tally, clone)
    if "--build" not in arguments:
        return
    if not has("cargo", "rustc"):
        tally.leave_out("a fresh clone, since cargo is not there (Debian's package cargo)")
    elif not published():
        tally.leave_out(MISSING)
    else:
        built(tally)
