"""The rows of steps and the sets of neighbours of lbk_rules compared with what their scripts make from the rules."""

import shutil
import tempfile
from pathlib import Path

from checks.harness import TOP, run_script
from checks.program import run as run_program

RULE = '(x == "IS" and y in LETTERS, NO, "29")'
WRONG = "FAILED  LEFT[11] and RIGHT[7] (IS before AL): they say no break, and the rules a break (rule 31)"
COPIED = ("scripts/neighbours", "scripts/row-steps", "crates/lbk_rules/src/neighbours.rt")


def try_changed_rule(tally, room):
    """Without rule 29 the script names the pair of classes that is wrong then, and writes sets that are right."""
    for it in COPIED:
        (room / it).parent.mkdir(parents=True, exist_ok=True)
        shutil.copy2(TOP / it, room / it)
    text = (room / "scripts/row-steps").read_text(encoding="utf-8")
    without = text.replace(RULE, RULE.replace("29", "31").replace("NO", "MAY"))
    (room / "scripts/row-steps").write_text(without, encoding="utf-8")
    ended = run_program([room / "scripts/neighbours", "--check"])
    lines = ended.out.decode().splitlines()
    found = ended.status, lines[0], lines[-1][-8:]
    tally.equal("without rule 29: the pair that is wrong", found, (1, WRONG, "1 failed"))
    tally.equal("the sets are written anew", run_program([room / "scripts/neighbours"]).status, 0)
    tally.equal("and are right", run_program([room / "scripts/neighbours", "--check"]).status, 0)


def run(tally, _arguments):
    run_script(tally, [TOP / "scripts/row-steps", "--check"])
    run_script(tally, [TOP / "scripts/neighbours", "--check"])
    before = (TOP / COPIED[2]).read_bytes()
    tally.equal("sets that are right stay", (run_program([TOP / "scripts/neighbours"]).status,
        (TOP / COPIED[2]).read_bytes() == before), (0, True))
    with tempfile.TemporaryDirectory() as name:
        try_changed_rule(tally, Path(name))
