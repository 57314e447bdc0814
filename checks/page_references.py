"""What docs/proof/definitions.md names, and the examples in the docs of items.

For each rule the page quotes its entries in the definitions, and names a mutant of it; the rule has a place in the
code, and a test row that it decides. The files of definitions on the page exist. Each example in the docs of an item is
in a compiled file.
"""
import re

from checks.harness import TOP, page

RULES = [
    *"2 3 4 5 6 7 8 8a 9 10 11 12 12a 13 14 15 15a 15b 16 17 18 19 20 21 21a 21b".split(),
    *"22 23 23a 24 25 26 27 28 29 30 30a 30b 31".split(),
]
DEFINITIONS = TOP / "crates/lbk_uax14/specs/Rules.antt"
CODE = TOP / "crates/lbk_uax14/src/table.rt"
ROWS = TOP / "crates/test_support/src/texts.rt"
# Rule 10 has no entry: it says how the others read a mark that heads a unit.
TEN = {
    "definitions": (TOP / "crates/lbk_uax14/specs/Units.antt", r"^abbrev pub unit :"),
    "code": (TOP / "crates/lbk_uax14/src/cells.rt", r"fn unit\b"),
    "row": r"^ *\(\"\( \\u\{301\}a\"",
}
MORE = re.compile(r" and (\d+) more$")


def lines_of(path):
    return path.read_text(encoding="utf-8").split("\n")


def has_line(path, pattern):
    return any(re.search(pattern, line) for line in lines_of(path))


def entries_of(rule):
    """The entries of a rule in the definitions, as the page quotes them."""
    found = re.findall(rf"^ +(?:∷ )?\(Lb{rule} ([×÷!]at .*)\)$", DEFINITIONS.read_text(encoding="utf-8"), re.M)
    return [f"`{entry}`" for entry in found]


def is_in_definitions(rule, quoted):
    """Whether a cell of the page quotes the entries of a rule: all, or the first ones and how many more there are."""
    if rule == "10":
        return has_line(*TEN["definitions"])
    entries = entries_of(rule)
    more = MORE.search(quoted)
    if more:
        entries = entries[: len(entries) - int(more[1])]
        quoted = quoted[: more.start()]
    return entries != [] and quoted == ", ".join(entries)


def is_in_code(rule):
    if rule == "10":
        return has_line(*TEN["code"])
    return has_line(CODE, rf"Verdict::(?:no|may|must)\(Rule::Lb{rule}\)")


def has_a_row(rule):
    """Whether a row of the tests has a position that the rule decides."""
    patterns = {"2": r'\("", "2"\)', "3": r'"2 3"', "10": TEN["row"]}
    return has_line(ROWS, patterns.get(rule, rf'[" ]{rule}(?: [^"]*)?"\)?,'))


def edit_fault(name):
    """What is wrong with an edit of lbk_uax14, by its name."""
    found = [
        path
        for path in (
            TOP / f"crates/lbk_uax14/must-fail/{name}.edit",
            TOP / f"more-edits/lbk_uax14/{name}.edit",
        )
        if path.is_file()
    ]
    if len(found) != 1:
        return f"{len(found)} edits have the name {name}"
    file = None
    for line in found[0].read_text(encoding="utf-8").split("\n"):
        if line.startswith("file: "):
            file = TOP / "crates/lbk_uax14" / line[6:]
        elif line.startswith("old: ") and file.read_text(encoding="utf-8").count(line[5:]) != 1:
            return f"what {name} turns stands not once in {file.name}"
    return None


def plain(lines):
    return "\n".join(line.strip() for line in lines)


def examples():
    """Each example in the docs of an item, and what is wrong with it: nothing, or that no compiled file has its
    lines."""
    sources = sorted(TOP.glob("crates/*/src/**/*.rt"))
    code = [plain(line for line in lines_of(path) if not line.strip().startswith("///")) for path in sources]
    for path in sources:
        example = None
        for number, line in enumerate(lines_of(path), 1):
            doc = re.match(r"\s*/// ?(.*)", line)
            if doc and doc[1] == "```rust":
                example = []
            elif doc and doc[1] == "```" and example is not None:
                held = any(plain(example) in text for text in code)
                yield f"{path.relative_to(TOP)}:{number}", None if held else "no compiled file has this example"
                example = None
            elif doc and example is not None:
                example.append(doc[1])


def rule_fault(rule, quoted, edit):
    """What is wrong with a row of the table of rules, or None."""
    wrong = []
    if not is_in_definitions(rule, quoted):
        wrong.append(f"the definitions have {', '.join(entries_of(rule))}")
    if not is_in_code(rule):
        wrong.append("the code has no such rule")
    if not has_a_row(rule):
        wrong.append("no row of the tests has it")
    edits = re.findall(r"`(\w+)`", edit)
    wrong += filter(None, map(edit_fault, edits)) if edits else ["it has no edit"]
    return "; ".join(wrong) or None


def missing_files(crate, cell):
    """What is wrong with a row that names files of definitions of a crate, or None."""
    wanted = re.findall(r"`([A-Z]\w*)`", cell)
    missing = [name for name in wanted if not (TOP / f"crates/{crate}/specs/{name}.antt").is_file()]
    return f"there is no {', '.join(missing)} in {crate}/specs" if missing else None


def run(tally, arguments):
    path = page("definitions")
    rules = []
    for number, line in enumerate(lines_of(path), 1):
        cells = [cell.strip() for cell in line.split("|")]
        if len(cells) == 5 and re.fullmatch(r"LB\w+", cells[1]):
            rules.append(cells[1].removeprefix("LB"))
            tally.tell(f"{path.name}:{number}: {cells[1]}", rule_fault(rules[-1], cells[2], cells[3]))
        elif named := re.match(r"\| `(lbk_\w+)` \| (.*) \|$", line):
            tally.tell(f"{path.name}:{number}: {named[1]}", missing_files(named[1], named[2]))
    if rules != RULES:
        tally.tell("the rules of the table", f"they are {rules}")
    for what, fault in examples():
        tally.tell(what, fault)
