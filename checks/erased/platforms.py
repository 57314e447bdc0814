"""Other machines: a program of five lines over the crate lbk, and the command, run in emulators; and the oldest Rust.

Debian's rustc builds them, with all checks and little optimization. 64-bit ARM needs its library for that processor, which
RUST_SYSROOT/lib/rustlib may have.
"""

import os
import resource
import subprocess
from typing import NamedTuple

from checks.erased import older
from checks.harness import CannotRun, has

FIVE = """\
fn main() {
    for found in lbk::breaks("See p. 7\\nand 日本語 8") {
        println!("{} {:?} {}", found.at, found.kind, found.rule);
    }
}
"""
WRITES = "4 May 18\n7 May 18\n9 Must 5\n13 May 18\n16 May 31\n19 May 31\n23 May 18\n24 Must 3\n"
MANIFEST = '[package]\nname = "five"\nversion = "0.1.0"\nedition = "2021"\n[dependencies]\nlbk = { path = "../lbk" }\n'
# Opens a text to be read, and to be written at its end, and gives both to a program; or the first alone.
BOTH = """\
use std::{env, fs, process};
fn main() {
    let words: Vec<_> = env::args().collect();
    let out = fs::OpenOptions::new().append(true).open(&words[2]).unwrap();
    let mut run = process::Command::new(&words[1]);
    run.arg("mark");
    if words.len() == 4 {
        run.stdout(out);
    }
    match &words[3][..] {
        "input" => run.stdin(fs::File::open(&words[2]).unwrap()),
        _ => run.arg(&words[2]),
    };
    process::exit(run.status().unwrap().code().unwrap());
}
"""
TEXT, MARKED = "ab cd 日本\nef-gh\n", "ab ÷cd ÷日÷本\nef-÷gh\n"


class Platform(NamedTuple):
    """A platform: its target, the words that run a program of it, the end of a program's name, the commands that are needed,
    and the packages of Debian that have them."""

    name: str
    target: str
    runs: tuple
    end: str
    commands: tuple
    packages: str


PLATFORMS = [
    Platform("x86-64", "x86_64-unknown-linux-gnu", (), "", ("cc",), "gcc"),
    Platform("64-bit ARM", "aarch64-unknown-linux-gnu", ("qemu-aarch64", "-L", "/usr/aarch64-linux-gnu"), "",
        ("qemu-aarch64", "aarch64-linux-gnu-gcc"),
        "qemu-user, gcc-aarch64-linux-gnu, libc6-dev-arm64-cross and, of the architecture arm64, libstd-rust-dev"),
    Platform("wasm32", "wasm32-wasi", ("node", "--no-warnings", "{room}/wasi.mjs"), ".wasm", ("node", "wasm-ld"),
        "nodejs, lld and libstd-rust-dev-wasm32"),
    Platform("Windows", "x86_64-pc-windows-gnu", ("wine",), ".exe", ("wine", "x86_64-w64-mingw32-gcc"),
        "wine, wine64, gcc-mingw-w64-x86-64 and libstd-rust-dev-windows"),
]  # fmt: skip


def run_on(room, platform, program, *words, **more):
    """Runs a program on a platform, and returns its status, output and messages."""
    env = {**os.environ, "WINEPREFIX": str(room / "wine"), "WINEDEBUG": "-all"}
    runs = [it.format(room=room) for it in platform.runs]
    more = {"stdin": subprocess.DEVNULL, "stdout": subprocess.PIPE, **more}
    ran = subprocess.run([*runs, program, *words], stderr=subprocess.PIPE, env=env, timeout=120, check=False, **more)
    return ran.returncode, (ran.stdout or b"").decode(), ran.stderr.decode(errors="replace")


def built(work, platform):
    """Builds both programs for a platform, and returns their folder."""
    linker = f"CARGO_TARGET_{platform.target.upper().replace('-', '_')}_LINKER"
    more = {linker: "aarch64-linux-gnu-gcc"} if platform.target.startswith("aarch64") else {}
    # (unoptimized, the program takes more than the stack of wasm32)
    more |= {"CARGO_PROFILE_DEV_OPT_LEVEL": "1"} if platform.name == "wasm32" else {}
    env = {**os.environ, **older.settings(), **more, "CARGO_PROFILE_DEV_DEBUG": "0", "CARGO_INCREMENTAL": "0"}
    words = ["build", "--offline", "--quiet", "--target", platform.target, "-p", "five", "-p", "lbk-cli"]
    ran = subprocess.run([older.CARGO, *words], cwd=work, capture_output=True, env=env, check=False)
    if ran.returncode != 0:
        raise CannotRun(ran.stderr.decode(errors="replace")[-3000:])
    return work / "target" / platform.target / "debug"


def try_programs(tally, room, platform, folder):
    """What both programs write, to a pipe and to a file."""
    name = platform.name
    got = run_on(room, platform, folder / f"five{platform.end}")
    tally.equal(f"{name}: five lines print the breaks", got[:2], (0, WRITES))
    text, out, lbk = room / "text", room / "out", folder / f"lbk{platform.end}"
    text.write_text(TEXT, encoding="utf-8")
    tally.equal(f"{name}: lbk mark FILE", run_on(room, platform, lbk, "mark", text), (0, MARKED, ""))
    with open(text, "rb") as source:
        tally.equal(f"{name}: lbk mark < FILE", run_on(room, platform, lbk, "mark", stdin=source), (0, MARKED, ""))
    with open(out, "wb") as target:
        status, _, said = run_on(room, platform, lbk, "mark", text, stdout=target)
    tally.equal(f"{name}: lbk mark FILE > FILE", (status, said, out.read_text(encoding="utf-8")), (0, "", MARKED))
    status, _, said = run_on(room, platform, lbk, "mark", room / "none")
    tally.equal(f"{name}: no file", (status, "none: cannot be " in said), (1, True))


def limit_files():
    """Files get no larger than 16 MiB, so that a run ends that would go on."""
    resource.setrlimit(resource.RLIMIT_FSIZE, (1 << 24, 1 << 24))


def try_own_output(tally, room, platform, folder):
    """A text that is also the output: the run ends, whether std tells the file's numbers or not."""
    lbk, text = folder / f"lbk{platform.end}", room / "own"
    (room / "both.rs").write_text(BOTH, encoding="utf-8")
    both = room / "both.exe"
    subprocess.run([older.RUSTC, "--target", platform.target, "-o", both, room / "both.rs"], check=True, capture_output=True)
    for what, word in (("lbk mark f >> f", "name"), ("lbk mark < f >> f", "input")):
        text.write_text(TEXT * 1000, encoding="utf-8")
        status, _, said = run_on(room, platform, both, lbk, text, word)
        got = status, "input file is output file" in said, text.read_text(encoding="utf-8") == TEXT * 1000
        tally.equal(f"{platform.name}: {what} is refused", got, (1, True, True))
    # Wine tells nothing of a file that it did not open: the text is read up to its length.
    for what, words in (("lbk mark f >> f", (lbk, "mark", text)), ("lbk mark < f >> f", (both, lbk, text, "input", "alone"))):
        text.write_text("ab cd\n" * 1000, encoding="utf-8")
        with open(text, "ab") as target:
            status, _, said = run_on(room, platform, *words, stdout=target, preexec_fn=limit_files)
        got = status, said, text.read_text(encoding="utf-8") == "ab cd\n" * 1000 + "ab ÷cd\n" * 1000
        tally.equal(f"{platform.name}: {what} ends where nothing tells that they are one", got, (0, "", True))


def run(tally, room, folder):
    found = older.version()
    if not found:
        tally.leave_out("other machines, and the oldest Rust (Debian's packages rustc and cargo)")
        return
    work = older.copied(folder, room / "platforms")
    (work / "five/src").mkdir(parents=True)
    (work / "five/Cargo.toml").write_text(MANIFEST, encoding="utf-8")
    (work / "five/src/main.rs").write_text(FIVE, encoding="utf-8")
    older.replace_in(work / "Cargo.toml", {"members = [": 'members = ["five", '})
    (room / "wasi.mjs").write_text(older.WASI, encoding="utf-8")
    for platform in PLATFORMS:
        if not has(*platform.commands) or not older.has_target(platform.target):
            tally.leave_out(f"{platform.name} (Debian's packages {platform.packages})")
            continue
        target = built(work, platform)
        try_programs(tally, room, platform, target)
        if platform.name == "Windows":
            try_own_output(tally, room, platform, target)
    env = {**os.environ, **older.settings()}
    # (without those of the docs, whose compiler has no gate)
    tested = subprocess.run([older.CARGO, "test", "--tests", "--offline", "--quiet", "-p", "lbk", "-p", "unicode-linebreak", "-p", "lbk-c",
        "-p", "lbk-cli"], cwd=work, capture_output=True, text=True, env=env, check=False)  # fmt: skip
    fault = None if tested.returncode == 0 else (tested.stdout + tested.stderr)[-3000:]
    tally.tell(f"the tests of the packages, built by Rust {found[0]}.{found[1]}", fault)
