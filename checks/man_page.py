"""docs/lbk.1 compared with the program's help: the same subcommands and options, a date, and synopses.

The help is at most 80 columns wide.
"""

import datetime
import re

from checks.harness import TOP, built_program
from checks.program import run as run_program

WIDTH = 80


def help_of(*words):
    return run_program([built_program(), *words, "--help"]).out.decode()


def subcommands(text):
    part = text.split("\nCommands:\n")[1].split("\n\n")[0]
    return set(re.findall(r"^  (\w+) ", part, re.M))


def options(text):
    part = text.split("\nOptions:\n")[1].split("\n\n")[0]
    return set(re.findall(r"--[a-z][a-z-]*", "\n".join(line[:25] for line in part.split("\n"))))


def is_date(text):
    try:
        return datetime.date.fromisoformat(text).isoformat() == text
    except ValueError:
        return False


def form(tally, page, helps):
    """The head and the synopsis of the page, and the width of the help of each subcommand."""
    dated = re.match(r'\.TH LBK 1 "([^"]*)" "lbk [0-9.]+" "User Commands"\n', page)
    tally.tell("the page has a date", None if dated and is_date(dated[1]) else "the head of docs/lbk.1 has none")
    tally.tell("the page calls the program lbk", "docs/lbk.1 has ./lbk" if "./lbk" in page else None)
    for name, text in helps.items():
        if name:
            line = f'.SY "lbk {name}"\n'
            tally.tell(f"a synopsis of {name}", None if line in page else "docs/lbk.1 has none")
        wide = [line for line in text.split("\n") if len(line) > WIDTH]
        tally.tell(f"the width of the help of lbk {name}".rstrip(), f"more than {WIDTH} columns: {wide[0]}" if wide
            else None)


def run(tally, _arguments):
    page = (TOP / "docs/lbk.1").read_text(encoding="utf-8").replace("\\-", "-")
    sections = dict(re.findall(r"^\.SH ([A-Z ]+)\n(.*?)(?=^\.SH |\Z)", page, re.M | re.S))
    page_subcommands = set(re.findall(r"^\.TP\n\.B (\w+)$", sections["COMMANDS"], re.M))
    page_options = set(re.findall(r"--[a-z][a-z-]*",
        "\n".join(re.findall(r"^\.TP\n(\.B.*)$", sections["OPTIONS"], re.M))))
    own = help_of()
    helps = {name: help_of(name) for name in sorted(subcommands(own) - {"help"})}
    form(tally, page, {"": own, **helps})
    said = options(own).union(*map(options, helps.values()))
    for what, there, here in [("subcommand", subcommands(own), page_subcommands), ("option", said, page_options)]:
        for name in sorted(there | here):
            where = "docs/lbk.1" if name in there else "the help"
            tally.tell(f"{what} {name}", None if name in there and name in here else f"it is missing in {where}")
