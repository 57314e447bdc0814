"""Debian's rustc: it is older than the packages ask for, and has the libraries of other targets."""

import os
import shutil
import subprocess
from pathlib import Path

from checks.harness import CannotRun, has

CARGO, RUSTC = "/usr/bin/cargo", "/usr/bin/rustc"
# Runs a program for wasm32 in Node.
WASI = """\
import { readFile } from 'node:fs/promises';
import { WASI } from 'node:wasi';
const [file, ...words] = process.argv.slice(2);
const wasi = new WASI({ version: 'preview1', args: [file, ...words], preopens: { '/': '/' }, returnOnExit: true });
const module = await WebAssembly.compile(await readFile(file));
process.exitCode = wasi.start(await WebAssembly.instantiate(module, wasi.getImportObject()));
"""
# The folder with the libraries of targets, as rustc has it below `lib`; another one may have more.
SYSROOT = Path(os.environ.get("RUST_SYSROOT", "/usr"))
# What the program's package calls of Rust 1.66 to 1.70, and what is older.
NO_TERMINALS = "\n".join(
    f"\nimpl IsTerminal for std::io::{name} {{\n    fn is_terminal(&self) -> bool {{\n        false\n    }}\n}}"
    for name in ("Stdin", "Stdout", "Stderr"))  # fmt: skip
IN_IO = {"std::os::fd::AsFd": "std::os::unix::io::AsFd", "std::io::IsTerminal": "crate::kit::io::IsTerminal"}


def version():
    """The version of Debian's rustc, or None where it is not there."""
    if not has(CARGO, RUSTC):
        return None
    said = subprocess.run([RUSTC, "--version"], capture_output=True, text=True, check=True).stdout.split()[1]
    return tuple(map(int, said.split(".")[:2]))


def has_target(target):
    """Whether there is a library for a target."""
    return (SYSROOT / "lib/rustlib" / target).is_dir()


def replace_in(path, pairs):
    text = path.read_text(encoding="utf-8")
    for old, new in pairs.items():
        if old not in text:
            raise CannotRun(f"{path.name} has no {old}")
        text = text.replace(old, new)
    path.write_text(text, encoding="utf-8")


def fit(work):
    """Changes a workspace so that a compiler builds it which is older than it asks for: the program's package then knows no
    terminal, and is otherwise the same."""
    for manifest in work.glob("*/Cargo.toml"):
        lines = manifest.read_text(encoding="utf-8").splitlines(True)
        manifest.write_text("".join(it for it in lines if not it.startswith("rust-version")), encoding="utf-8")
    # (nor does its cargo read the file that a later one left)
    (work / "Cargo.lock").unlink(missing_ok=True)
    streams = work / "lbk-cli/src/kit/io.rs"
    if version() < (1, 70) and streams.exists():
        replace_in(streams, IN_IO)
        streams.write_text(streams.read_text(encoding="utf-8") + NO_TERMINALS, encoding="utf-8")
        for path in (work / "lbk-cli/src/clap").rglob("*.rs"):
            text = path.read_text(encoding="utf-8")
            path.write_text(text.replace(".is_some_and(", ".map_or(false, "), encoding="utf-8")


def copied(folder, work):
    """A copy of a workspace, changed like this."""
    shutil.copytree(folder, work, ignore=shutil.ignore_patterns("target"))
    fit(work)
    return work


def settings(flags=""):
    """The environment for Debian's cargo."""
    # (1.63 has `let .. else` behind a gate)
    gate = ["-Zcrate-attr=feature(let_else)"] if version() < (1, 65) else []
    root = [f"--sysroot={SYSROOT}"] if SYSROOT != Path("/usr") else []
    flags = " ".join([*gate, *root, *flags.split()])
    return {"RUSTC": RUSTC, "RUSTFLAGS": flags, **({"RUSTC_BOOTSTRAP": "1"} if gate else {})}
