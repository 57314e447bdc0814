"""Targets that nothing here runs: the crate lbk is built for them, without std.

Debian's packages rustc-web, libstd-rust-web-dev, rust-web-src, cargo-web and libllvm22 build `core` and `alloc` for any target.
rustc-web conflicts with rustc, so RUST_WEB names a folder in which they are unpacked (`dpkg-deb -x`).
"""

import json
import os
import re
import shutil
import subprocess
from pathlib import Path

from checks.harness import TOP

TARGETS = ["aarch64-apple-darwin", "thumbv7em-none-eabihf"]
# cargo asks for all crates below std, of which `core` and `alloc` use none.
PACKAGE = re.compile(r'name = "([^"]+)"\nversion = "([^"]+)"\nsource = .*\nchecksum = "([^"]+)"')
FEATURES = re.compile(r"features\s*=\s*\[([^]]*)\]|[\"'][\w-]+\??/([\w-]+)[\"']")


def write_stubs(library, folder):
    """Writes a crate without code for each that is below std, with all features that anything asks for."""
    named = [it for path in library.rglob("Cargo.toml") for it in FEATURES.findall(path.read_text(encoding="utf-8"))]
    features = {"default", *(word for both in named for word in re.findall(r"[\w-]+", " ".join(both)))}
    for name, version, checksum in PACKAGE.findall((library / "Cargo.lock").read_text(encoding="utf-8")):
        crate = folder / f"{name}-{version}"
        (crate / "src").mkdir(parents=True)
        (crate / "src/lib.rs").touch()
        text = f'[package]\nname = "{name}"\nversion = "{version}"\nedition = "2021"\n[features]\n'
        (crate / "Cargo.toml").write_text(text + "".join(f'"{it}" = []\n' for it in sorted(features)), encoding="utf-8")
        (crate / ".cargo-checksum.json").write_text(json.dumps({"files": {}, "package": checksum}), encoding="utf-8")


def run(tally, room, folder):
    root = Path(os.environ.get("RUST_WEB", TOP / "none"))
    if not (root / "usr/bin/rustc").exists():
        tally.leave_out("targets without std (RUST_WEB, with Debian's packages rustc-web, libstd-rust-web-dev, rust-web-src,"
            " cargo-web and libllvm22)")
        return
    work = room / "bare"
    shutil.copytree(folder / "lbk", work, ignore=shutil.ignore_patterns("target"))
    write_stubs(root / "usr/lib/rustlib/src/rust/library", work / "stubs")
    (work / ".cargo").mkdir()
    (work / ".cargo/config.toml").write_text(
        f'[source.crates-io]\nreplace-with = "stubs"\n[source.stubs]\ndirectory = "{work}/stubs"\n', encoding="utf-8")
    manifest = work / "Cargo.toml"
    manifest.write_text(manifest.read_text(encoding="utf-8") + '\n[workspace]\n[profile.dev]\npanic = "abort"\n', encoding="utf-8")
    env = {**os.environ, "LD_LIBRARY_PATH": str(root / "usr/lib/x86_64-linux-gnu"), "RUSTC": str(root / "usr/bin/rustc"),
        "RUSTC_BOOTSTRAP": "1", "CARGO_PROFILE_DEV_DEBUG": "0", "CARGO_INCREMENTAL": "0"}
    for target in TARGETS:
        words = ["build", "--quiet", "-Zbuild-std=core,alloc", "--target", target, "--lib", "--no-default-features"]
        ran = subprocess.run([root / "usr/bin/cargo", *words], cwd=work, capture_output=True, text=True, env=env, check=False)
        tally.tell(f"{target}: the crate is built", None if ran.returncode == 0 else ran.stderr[-3000:])
