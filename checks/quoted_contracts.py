"""The contracts that docs/proof/contracts.md quotes, compared with the sources.

A line

    <!-- contract FILE FUNCTION [CLAUSE..] -->
    <!-- records FILE RECORD.FIELD.. -->

precedes a block with the clauses of this function, or with the named ones, or with these fields of records. The
argument --write first writes them into the page.
"""

import re

from checks.harness import TOP

PAGE = TOP / "docs/proof/contracts.md"
BLOCK = re.compile(r"(<!-- (contract|records) (\S+)((?:\s+[\w.]+)+) -->\n```text\n)(.*?)(```\n)", re.S)
WIDTH = 100


def clauses_of(path, function):
    """The clauses of a function, each as one line, by their names (the one without a name by "")."""
    source = (TOP / path).read_text(encoding="utf-8")
    found = re.findall(rf"^ *pub (?:extern \"C\" )?fn {function}\b(.*?)^ *\{{", source, re.S | re.M)
    if len(found) != 1:
        raise LookupError(f"{path} has {len(found)} public functions with the name {function}")
    code = "\n".join(line for line in found[0].split("\n") if not line.strip().startswith("//"))
    clauses = {}
    for clause in re.split(r"^ *(?=(?:ensures|requires)\b)", code, flags=re.M)[1:]:
        clause = " ".join(clause.split())
        clauses[re.match(r"(?:ensures|requires)\*? ?(\w*)", clause)[1]] = clause
    return clauses


def fields_of(path, names):
    """These fields of records, each as one line, by their names (RECORD.FIELD)."""
    source = (TOP / path).read_text(encoding="utf-8")
    fields = {}
    for record in {name.partition(".")[0] for name in names}:
        found = re.findall(rf"^( *)pub record {record}\b(?:.|\n)*?where\n((?:\1  .*\n)+)", source, re.M)
        if len(found) != 1:
            raise LookupError(f"{path} has {len(found)} records with the name {record}")
        for field in re.split(r"^ *pub (?=\w+ :)", found[0][1], flags=re.M)[1:]:
            fields[f"{record}.{field.split()[0]}"] = f"{record}." + " ".join(field.split())
    return fields


def wrapped(clause):
    """A clause in lines of at most WIDTH, cut before arrows where it can be."""
    while len(clause) > WIDTH:
        end = max(clause.rfind(" →", 0, WIDTH), WIDTH // 2)
        if clause[end : end + 2] != " →":
            end = clause.rfind(" ", 0, WIDTH)
        yield clause[:end]
        clause = "    " + clause[end + 1 :]
    yield clause


def quoted(what, path, names):
    """The block of a function, with the names of clauses after its own, or of fields."""
    if what == "contract":
        function, *names = names
        clauses = clauses_of(path, function)
    else:
        clauses = fields_of(path, names)
    lost = [name for name in names if name not in clauses]
    if lost or not clauses:
        raise LookupError(f"{path} has no clause {' '.join(lost)}")
    return "".join(line + "\n" for name in names or clauses for line in wrapped(clauses[name]))


def run(tally, arguments):
    page = PAGE.read_text(encoding="utf-8")
    if "--write" in arguments:
        page = BLOCK.sub(lambda it: it[1] + quoted(it[2], it[3], it[4].split()) + it[6], page)
        PAGE.write_text(page, encoding="utf-8")
    blocks = BLOCK.findall(page)
    for _, what, path, names, shown, _ in blocks:
        name = f"{names.split()[0]} of {path}"
        try:
            tally.equal(name, shown, quoted(what, path, names.split()))
        except (LookupError, OSError) as why:
            tally.tell(name, str(why))
    tally.equal("blocks that are marked", len(blocks), len(re.findall("<!-- (?:contract|records) ", page)))
