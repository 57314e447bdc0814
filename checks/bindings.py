"""The bindings compared with each other: that they look for no files, their messages, and their calls.

`docs/library.md` lists the calls: each source has to declare those of its column, and none that the page leaves empty there.
"""

import re

from checks.harness import TOP

PAGE = TOP / "docs/library.md"
# What a source names that looks for property files. The folder is always the caller's.
SEARCHES = ("/usr/share/unicode", "UNICODE_DATA", "XDG_DATA_HOME", ".local/share", "UCD.zip")
SOURCES = {
    "C": ["include/lbk.h"],
    "C++": ["include/lbk.hpp"],
    "Rust": ["packages/rust/src", "packages/linebreak/src"],
    "Python": ["packages/python/src/calls", "packages/python/src/lbk"],
    "JavaScript": ["packages/javascript", "page"],
    "libunibreak's calls": ["packages/unibreak"],
}
# The sentences on a file that is not the published one: the program and lbk_claim_text have those of this definition.
CLAIMS = "crates/lbk_ucd/specs/ClaimTexts.antt"
READS_VERSION = "Used with Emoji Version"
CALL_THEM = ("C++", "Python")
# Where the calls of each column are declared, and how.
CALLS = {
    "C": (["include/lbk.h"], r"^\w+ {}\("),
    "C++": (["include/lbk.hpp"],
        r"^class {0} |^using {0} = |^inline [\w:<> ]+ {0}\(|^    (?:static const table &|std::string ){0}\("),
    "Rust": (["packages/rust/src/lib.rs", "packages/rust/src/api"], r"^ *pub fn {0}\b|^pub struct {0}\b"),
    "Python": ([f"packages/python/src/lbk/_{it}.py" for it in ("table", "stream", "labels")],
        r"^    def {0}\(|^class {0}\b"),
    "JavaScript": (
        [f"packages/javascript/{it}.d.ts" for it in ("lbk", "words", "parts", "chunks")],
        r"^  (?:static )?{0}(?:<.*>)?\(|^export (?:class|function) {0}\b",
    ),
}


def text_of(paths):
    """The sources that these are, or that are in these folders."""
    found = [one for it in paths for one in (sorted((TOP / it).iterdir()) if (TOP / it).is_dir() else [TOP / it])]
    return "\n".join(one.read_text(encoding="utf-8") for one in found if one.is_file() and one.suffix != ".wasm")


def rows_of(page):
    """The rows of the table of calls: what a call gives, and its name in each language, "" where there is none."""
    section = re.search(r"^## Which call each language has\n(.*?)(?:^## |\Z)", page, re.S | re.M)[1]
    head, _, *rows = [[it.strip(" `") for it in line.split("|")[1:-1]] for line in section.split("\n")
        if line.startswith("|")]
    return [(row[0], dict(zip(head[1:], row[1:], strict=True))) for row in rows]


def names_for(language, names):
    """The names that a call with these names in other languages could have in this one."""
    plain = {it.removeprefix("lbk_") for it in names if it}
    if language == "C":
        return {f"lbk_{it}" for it in plain}
    return plain | {re.sub(r"_(\w)", lambda found: found[1].upper(), it)
        for it in plain} if language == "JavaScript" else plain


def declared(names, language, source):
    """Those of the names that a source in a language declares."""
    return sorted(it for it in names if re.search(CALLS[language][1].format(re.escape(it)), source, re.M))


def try_calls(tally, page):
    sources = {language: text_of(paths) for language, (paths, _) in CALLS.items()}
    for what, calls in rows_of(page):
        for language, name in calls.items():
            names = {name} if name else names_for(language, calls.values())
            says = f"{language} has {what}: {name}" if name else f"{language} has no {what}"
            tally.equal(says, declared(names, language, sources[language]), [name] if name else [])


def claims():
    """The parts of the sentences between the names and the numbers that are put into them."""
    text = (TOP / CLAIMS).read_text(encoding="utf-8")
    sentences = re.findall(r"^(?:claim|version|remedy)_text.*?=(.*?)(?=\n--|\n\n|\Z)", text, re.S | re.M)
    return sorted(set(re.findall(r'codes "([^"]*)"', "\n".join(sentences))))


def try_claims(tally):
    parts = claims()
    tally.tell(f"{CLAIMS} has the sentences", None if len(parts) == 8 else parts)
    for language in CALL_THEM:
        source = text_of(SOURCES[language])
        calls = [name for name in ("lbk_claim_text", "lbk_remedy_text") if f"{name}(" not in source]
        tally.equal(f"{language} calls what says it, and reads no version itself",
            calls + re.findall(READS_VERSION, source), [])


def run(tally, _arguments):
    try_calls(tally, PAGE.read_text(encoding="utf-8"))
    try_claims(tally)
    for language, paths in SOURCES.items():
        source = text_of(paths)
        tally.equal(f"{language} looks for no property files", [it for it in SEARCHES if it in source], [])
