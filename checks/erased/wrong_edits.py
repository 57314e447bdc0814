"""Wrong edits of the eraser, of what is written by hand for the program, and of the lanes: each has to be found."""

import os
import shutil
import subprocess
import sys

from checks.erased import beside, package
from checks.harness import TOP, CannotRun
from checks.unicode_files import MISSING, published

# An edit of a file: what stands there once, and what is put in its place.
ERASER = [
    ("the comment of a clause is kept", "tokens.py", 'above.rpartition("\\n\\n")[0]', "above"),
    ("a clause ends at its first brace", "tokens.py", 'if depth == 0 and found[0] == "}":', 'if found[0] == "}":'),
    ("a brace in the text of a clause counts", "tokens.py", '""""(?:\\\\.|[^"\\\\])*"|', '"""'),
    ("a comment in a clause is passed", "tokens.py", """if found[0][0] in "/-'" or""", """if found[0][0] in "'" or"""),
    ("`pub` of a ghost item is kept", "tokens.py", 'self.tokens[-1].text == "pub"', 'self.tokens[-1].text == "priv"'),
    ("a name in a format is not needed", "items.py", "for name in IN_FORMAT.findall(it.text):", "for name in ():"),
    ("the test of a crate is kept", "items.py", 'it.text == "#[cfg(test)]"', 'it.text == "#[cfg(tests)]"'),
    ("all methods of a type are kept", "crates.py", "if member.name in self.said and", "if member.name and"),
    ("a trait is not brought in", "crates.py", "if methods & (said | self.words_in[file])", "if methods - methods"),
    ("an unknown import passes", "crates.py", "and not stands_for(leaf.path):\n            raise", "and not leaf.path:\n            raise"),
    ("each import is kept", "writing.py", "if leaf.item is item and leaf in needs.leaves and", "if leaf.item is item and"),
    ("a label that is used goes", "rust.py", 'last.text in ("break", "continue")', 'last.text == "continue"'),
    ("a proved condition is always asserted", "rust.py", '"prove": "debug_assert"', '"prove": "assert"'),
    ("an unchecked call stays", "rust.py", '"".join(texts[2:5])', '"".join(texts[2:4])'),
    ("masks that are not to be taken", "rust.py", "( MASKS && std", "( MASKS || std"),
    ("a word is not refused", "rust.py", "await dyn union", "await union"),
    ("another module stands for one of std", "kit.py", '"core::mem"', '"core::cmp"'),
]
BY_HAND = [
    ("lanes: the byte before is two before", "simd.rs", "_mm_slli_si128::<1>(b)", "_mm_slli_si128::<2>(b)"),
    ("lanes: a byte is looked up twice", "simd.rs", '"pshufb {0}, {1}"', '"pshufb {0}, {1}", "pshufb {0}, {1}"'),
    ("lanes: high halves by three bits", "simd.rs", "_mm_srli_epi16::<4>(a)", "_mm_srli_epi16::<3>(a)"),
    ("lanes: at least is at most", "simd.rs", "_mm_cmpeq_epi8(_mm_max_epu8(a, b), a)", "_mm_cmpeq_epi8(_mm_max_epu8(a, b), b)"),
    ("lanes: a mask is shifted", "simd.rs", "_mm_movemask_epi8(mask) as u16", "(_mm_movemask_epi8(mask) as u16) >> 1"),
    ("lanes: equal is unequal", "simd.rs", "fn eq(a: V, b: V) -> V { _mm_cmpeq_epi8(a, b) }",
        "fn eq(a: V, b: V) -> V { not(_mm_cmpeq_epi8(a, b)) }"),
    ("kit: a digit is lost", "kit/texts.rs", "if rest == 0 {", "if rest < 10 {"),
    ("kit: the last of some bytes is found", "kit/bytes.rs", "bytes.iter().position(", "bytes.iter().rposition("),
    ("kit: a list is cut too late", "kit/lists.rs", "self.0.truncate(len);", "self.0.truncate(len + 1);"),
    ("kit: a text loses spaces", "kit/texts.rs", "self.0.push_str(text);", "self.0.push_str(text.trim_end());"),
    ("kit: an error of the input is its end", "kit/io.rs", "file.read(buf)?,", "file.read(buf).unwrap_or(0),"),
    ("kit: an error of the output is passed over", "kit/io.rs", "Ok(std::io::Write::write(file, buf)?)",
        "Ok(std::io::Write::write(file, buf).unwrap_or(buf.len()))"),
    ("kit: a scalar is the next one", "kit/proved.rs", "char::from_u32_unchecked(code)", "char::from_u32_unchecked(code + 1)"),
    ("kit: no file is the output", "kit/files.rs", "std::os::unix::fs::MetadataExt::ino(&self.0)", "std::process::id().into()"),
    ("kit: a word that is no text is left out", "kit/system.rs", "std::env::args_os()\n",
        "std::env::args_os().filter(|it| it.to_str().is_some())\n"),
]  # fmt: skip
# Only the digests of the published files are known, so only a run over them can tell another digest.
OF_PUBLISHED = ("kit: SHA-256 turns by 12", "kit/digest.rs", "s[4].rotate_right(11)", "s[4].rotate_right(12)")
TRIES = 600


def edited(path, old, new):
    """Edits a file, and returns what it was."""
    text = path.read_text(encoding="utf-8")
    if text.count(old) != 1:
        raise CannotRun(f"{old!r} stands {text.count(old)} times in {path.name}")
    path.write_text(text.replace(old, new), encoding="utf-8")
    return text


def try_eraser(tally, room):
    """Each wrong edit of the eraser makes a row of the forms fail."""
    for name, file, old, new in ERASER:
        folder = room / "eraser"
        shutil.copytree(TOP / "scripts/erasing", folder / "erasing", ignore=shutil.ignore_patterns("__pycache__"))
        edited(folder / "erasing" / file, old, new)
        ran = subprocess.run([sys.executable, TOP / "scripts/check", "erased", "--", "forms"], capture_output=True, text=True,
            env={**os.environ, "LBK_ERASER": str(folder)}, check=False)
        tally.tell(f"edit: {name}", None if ran.returncode != 0 and "FAILED" in ran.stdout else "no row of the forms fails")
        shutil.rmtree(folder)


def try_by_hand(tally, room, folder):
    """With each wrong edit of what is by hand the program answers otherwise than without."""
    os.environ.update({"CARGO_PROFILE_DEV_OPT_LEVEL": "1", "CARGO_PROFILE_DEV_DEBUG": "0"})
    work = room / "edited"
    shutil.copytree(folder, work, ignore=shutil.ignore_patterns("target"))
    right = room / "right"
    shutil.copy2(package.built(work, "-p", "lbk-cli") / "debug/lbk", right)
    if not published():
        tally.leave_out(f"edit: {OF_PUBLISHED[0]}: {MISSING}")
    for number, (name, file, *edit) in enumerate([*BY_HAND, *([OF_PUBLISHED] if published() else [])]):
        path = work / "lbk-cli/src" / file
        before = edited(path, *edit)
        try:
            programs = package.built(work, "-p", "lbk-cli") / "debug/lbk", right
            found = beside.first_difference(room / f"place-{number}", beside.seed(), TRIES, programs)
            tally.tell(f"edit: {name}", None if found else f"{TRIES} command lines do not differ")
        finally:
            path.write_text(before, encoding="utf-8")


def run(tally, room, folder):
    try_eraser(tally, room)
    if folder:
        try_by_hand(tally, room, folder)
