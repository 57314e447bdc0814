"""Tries the rows of `forms`, and crates of several files."""

import os
import re
import sys
import tempfile
from pathlib import Path

from checks.erased import forms
from checks.harness import TOP

# (the check tries wrong edits of the eraser by the same rows)
sys.path.insert(0, os.environ.get("LBK_ERASER", str(TOP / "scripts")))
from erasing.command import erased  # noqa: E402
from erasing.tokens import Refused  # noqa: E402

# Two crates: what the first needs of the second, and no more.
FILES = {
    "one/lib.rt": "mod a;\nuse a::made;\nuse two::{Kind, Shown, kind_of};\npub fn f() -> Kind { kind_of(made()).shown() }\n"
        "pub fn left_out() { two::left_out() }",
    "one/a.rt": "pub(crate) mod b;\nuse crate::a::b::TOP;\npub(crate) fn made() -> u8 { TOP }\npub(crate) fn gone() { }",
    "one/a/b.rt": "pub(crate) const TOP: u8 = 3;",
    "two/lib.rt": "mod kinds;\nmod laws;\npub use kinds::{Kind, Shown, gone, kind_of};\npub use laws::law;\npub fn left_out() { }",
    "two/kinds.rt": "pub struct Kind;\npub trait Shown { fn shown(self) -> Self; }\nimpl Shown for Kind { fn shown(self) -> Self { self } }\n"
        "impl Kind { pub(crate) fn of(a: u8) -> Kind { Kind }\n fn unsaid() { } }\npub fn kind_of(a: u8) -> Kind { Kind::of(a) }\n"
        "pub fn gone() { }",
    "two/laws.rt": "pub fn law() ensures { a } { }",
}  # fmt: skip
WANTED = {
    "one/mod.rs": "mod a; use a::made; use crate::two::{Kind, Shown, kind_of}; pub fn f() -> Kind { kind_of(made()).shown() }",
    "one/a.rs": "pub(crate) mod b; use super::a::b::TOP; pub(crate) fn made() -> u8 { TOP }",
    "one/a/b.rs": "pub(crate) const TOP: u8 = 3;",
    "two/mod.rs": "mod kinds; pub use kinds::{Kind, Shown, kind_of};",
    "two/kinds.rs": "pub struct Kind; pub trait Shown { fn shown(self) -> Self; } impl Shown for Kind { fn shown(self) -> Self { self } }"
        " impl Kind { pub(crate) fn of(a: u8) -> Kind { Kind } } pub fn kind_of(a: u8) -> Kind { Kind::of(a) }",
}  # fmt: skip


def plain(text):
    """A text without the spaces that mean nothing; a comment ends at its line."""
    text = "".join(f"{line}⏎" if "//" in line else f"{line} " for line in text.splitlines())
    return re.sub(r"\s*⏎\s*", "⏎", re.sub(r"\s+", " ", text)).strip(" ⏎")


def erase_files(files, roots):
    """What is written of crates, each a folder of files."""
    with tempfile.TemporaryDirectory() as room:
        for name, text in files.items():
            path = Path(room) / name
            path.parent.mkdir(parents=True, exist_ok=True)
            path.write_text(text, encoding="utf-8")
        names = dict.fromkeys(name.partition("/")[0] for name in files)
        return erased(roots, {it: Path(room) / it for it in names})


def refusal(text):
    """What is said of a crate that is refused, or None."""
    try:
        erase_files({"one/lib.rt": text}, ["one::*"])
    except (Refused, FileNotFoundError) as why:
        return str(why)
    return None


def run(tally):
    for name, text, wanted in forms.TAKEN:
        try:
            got = erase_files({"one/lib.rt": text}, ["one::*"])["one/mod.rs"]
        except Refused as why:
            got = str(why)
        tally.equal(f"taken: {name}", plain(got), plain(wanted))
    for name, text, wanted in forms.REFUSED:
        got = refusal(text)
        tally.tell(f"refused: {name}", None if got and wanted in got else f"it says {got!r}, not {wanted!r}")
    got = erase_files(FILES, ["one::f"])
    tally.equal("the files that are written", sorted(got), sorted(WANTED))
    for name, text in WANTED.items():
        tally.equal(f"needed of {name}", plain(got.get(name, "")), plain(text))
    try:
        erase_files(FILES, ["one::g"])
        tally.tell("a root that is not there", "it is taken")
    except Refused as why:
        tally.tell("a root that is not there", None if "one::g" in str(why) else str(why))
