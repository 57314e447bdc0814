"""The tables of lbk_words compared with those that scripts/word-tables makes from the kit's Unicode tables."""

from checks.harness import TOP, has, run_script


def run(tally, _arguments):
    if not has("rt"):
        tally.leave_out("the tables of words: they are made from those of the Rattle kit")
        return
    run_script(tally, [TOP / "scripts/word-tables", "--check"])
