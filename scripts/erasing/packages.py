"""The packages in plain Rust: what each is made of, and how they are written."""

import re
import shutil
import subprocess
import sys
from pathlib import Path
from typing import NamedTuple

from erasing.command import TOP, erased, kit_folder, sources

sys.path.insert(0, str(TOP / "scripts"))
from verdicts import read_crates  # noqa: E402

PLAIN = TOP / "packages/plain"
# What stands between crates in the sources, and is compared with the texts of the kit's crates.
WORKSPACE = """\
[workspace]
resolver = "2"
members = [{members}]

[profile.release]
lto = "fat"
codegen-units = 1
panic = "abort"

# Optimized, with all checks.
[profile.checked]
inherits = "release"
debug-assertions = true
overflow-checks = true
"""


class Package(NamedTuple):
    """A package: the folder of what is written by hand, files that are copied to places in it, the crate that is erased
    with those below it, crates of the kit, what is needed of them all, what paths in its Cargo.toml are here, and what
    is put in the place of some texts of erased files, each of which is there once."""

    folder: Path
    copied: dict
    crate: str = ""
    kit: tuple = ()
    roots: tuple = ()
    paths: dict = {}
    changed: dict = {}


def symbols():
    """The calls of lbk.h, and the types that the symbols name."""
    calls = re.findall(r"^    fn (\w+)\(", (PLAIN / "lbk-c/src/symbols.rs").read_text(encoding="utf-8"), re.M)
    return [*calls, "Fault", "Segment", "SegmentState"]


# What the crate lbk asks for: see packages/rust/src/engine.
ENGINE = """
    lbk_bytes::RawBreak lbk_c::safe_break
    lbk_calls::State lbk_calls::give_breaks lbk_calls::next_of lbk_calls::rule_text
    lbk_chunks::Chunk lbk_chunks::ChunkState lbk_chunks::Limits lbk_chunks::Place lbk_chunks::chunks
    lbk_rules::CellPages::build lbk_rules::CellTable::new lbk_rules::KindSource::cell_by_kind lbk_rules::Rule::numbered
    lbk_rules::UnicodeCells
    lbk_streams::Fed lbk_streams::Stream lbk_streams::cut lbk_streams::cut_before lbk_streams::feed
    lbk_ucd::Files lbk_ucd::Tables::read lbk_ucd::UcdCause lbk_ucd::cause_text
    lbk_units::Breaks lbk_units::Positions lbk_words::Word lbk_words::fill
""".split()

# Steps are those that texts of Unicode 15.0 need (packages/rust/src/rules/narrow.rs), with one test that a step is there.
NARROW = {
    "rules/mod.rs": [("mod row_steps;", "mod narrow;\nmod row_steps;")],
    "rules/row_steps.rs": [
        ("use super::steps::{Step, WIDTH};", "use super::steps::Step;\n\npub(crate) const WIDTH: usize = 128;"),
    ],
    "rules/steps.rs": [
        ("use super::row_steps::", "use super::narrow::"),
        ("pub const WIDTH: usize = 128;", "pub(crate) use super::narrow::WIDTH;"),
        ("all[usize::from(kind) % WIDTH..][place]", "all[usize::from(kind) % WIDTH + place]"),
        ("usize::from(number) % (WIDTH * ROWS) / WIDTH * WIDTH", "usize::from(number) / WIDTH * WIDTH"),
    ],
    "rules/unicode.rs": [
        ("use super::unicode_runs::{UNICODE_CELLS, UNICODE_NEIGHBOURS, UNICODE_RUNS};",
            "use super::narrow::UNICODE_NEIGHBOURS;\nuse super::unicode_runs::{UNICODE_CELLS, UNICODE_RUNS};"),
    ],
}  # fmt: skip


def by_hand(*names):
    """Where the parts of `kit` with some names stand in a package, and the lanes."""
    return {**{f"src/kit/{it}.rs": PLAIN / f"kit/{it}.rs" for it in names}, "src/simd.rs": PLAIN / "simd.rs"}


PACKAGES = {
    "lbk": Package(
        folder=TOP / "packages/rust",
        copied={
            **by_hand("later", "lists"),
            **{f"examples/{it}.rs": TOP / f"examples/{it}.rs" for it in ("breaks", "parts")},
            "tests/lanes.rs": PLAIN / "tests/lanes.rs",
        },
        crate="lbk_c",
        kit=("bstr", "ucd_table"),
        roots=tuple(ENGINE),
        paths={"../../examples/": "examples/"},
        changed=NARROW,
    ),
    "unicode-linebreak": Package(folder=TOP / "packages/linebreak", copied={}, paths={"../rust": "../lbk"}),
    "lbk-cli": Package(
        folder=PLAIN / "lbk-cli",
        copied={
            "src/kit": PLAIN / "kit",
            **by_hand(),
            "src/modules.rs": PLAIN / "modules.rs",
            "CHANGELOG.md": TOP / "CHANGELOG.md",
            "lbk.1": TOP / "docs/lbk.1",
            "lbk.bash": TOP / "docs/lbk.bash",
        },
        crate="lbk",
        kit=("bstr", "clap", "strsim", "ucd_table"),
        roots=("lbk::main",),
    ),
    "lbk-c": Package(
        folder=PLAIN / "lbk-c",
        copied={
            **by_hand("bytes", "digest", "later", "lists", "texts"),
            "src/modules.rs": PLAIN / "modules.rs",
            "include": TOP / "include",
            "CHANGELOG.md": TOP / "CHANGELOG.md",
        },
        crate="lbk_c",
        kit=("bstr", "ucd_table"),
        roots=tuple(f"lbk_c::{it}" for it in symbols()),
    ),
}


def copy(path, to):
    to.parent.mkdir(parents=True, exist_ok=True)
    if path.is_dir():
        shutil.copytree(path, to, ignore=shutil.ignore_patterns("target", "Cargo.lock"), dirs_exist_ok=True)
    else:
        shutil.copyfile(path, to)


def write(name, folder):
    """Writes a package, unformatted."""
    package = PACKAGES[name]
    copy(package.folder, folder)
    for to, path in package.copied.items():
        copy(path, folder / to)
    manifest = folder / "Cargo.toml"
    text = manifest.read_text(encoding="utf-8")
    for there, here in package.paths.items():
        text = text.replace(f'"{there}', f'"{here}')
    manifest.write_text(text, encoding="utf-8")
    if package.crate:
        write_erased(package, folder)


def changed(path, text, pairs):
    """The text of an erased file with what is put in the place of some of it."""
    for old, new in pairs:
        if text.count(old) != 1:
            raise Refused(f"{path}: {old!r} is there {text.count(old)} times")
        text = text.replace(old, new)
    return text


def write_erased(package, folder):
    """Writes the sources of a package that are erased, and the licences of those of the kit."""
    own = read_crates()[package.crate]
    names = [*(it.name for it in own.below), own.name, *package.kit]
    for path, text in erased(package.roots, {it: sources(it) for it in names}).items():
        file = folder / "src" / path
        file.parent.mkdir(parents=True, exist_ok=True)
        file.write_text(changed(path, text, package.changed.get(str(path), ())), encoding="utf-8")
    for it in package.kit:
        for licence in sorted((kit_folder() / it).glob("LICENSE*")):
            if (folder / "src" / it).is_dir():
                copy(licence, folder / "src" / it / licence.name)


def write_workspace(folder, names=tuple(PACKAGES)):
    """Writes packages as a workspace, unformatted."""
    folder.mkdir(parents=True, exist_ok=True)
    members = ", ".join(f'"{it}"' for it in names)
    (folder / "Cargo.toml").write_text(WORKSPACE.format(members=members), encoding="utf-8")
    for name in names:
        write(name, folder / name)


def lay_out(folder):
    """Formats the sources of a workspace."""
    files = [it for it in sorted(folder.glob("*/src/**/*.rs")) if it.name != "twice.rs"]
    subprocess.run(["rustfmt", "--edition", "2021", "--config", "skip_children=true", *files], check=True)
