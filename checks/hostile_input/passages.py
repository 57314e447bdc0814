"""Passages up to the greatest limit."""

from checks.hostile_input.bounds import LIMIT
from checks.program import run as run_program

# What they repeat. The first seven are shown as well as segmented and marked.
PASSAGES = [
    ("combining marks", "\u0301"),
    ("indicators", "\U0001f1e6"),
    ("quotation marks that close", "\u2019"),
    ("quotation marks that open", "\u2018"),
    ("quotation marks of neither kind", '"'),
    ("spaces", " "),
    ("`1` and `,`", "1,"),
    ("letters", "a"),
    ("`a` and a space", "a "),
    ("a closing quotation mark and a space", "\u2019 "),
    ("an opening parenthesis and a space", "( "),
    ("a closing quotation mark and a mark", "\u2019\u0301"),
    ("Hebrew letters and hyphens", "\u05d0-"),
    ("letters and apostrophes", "a'"),
    ("emoji and joiners", "\U0001f466\u200d"),
]
SHOWN = 7


def fits(task, ran, length):
    """What is wrong with a run over a passage of some length."""
    good = {
        "show": ran.lines == 1,
        "segment": ran.front.startswith(b"P 0 %d\n" % length),
        "mark": ran.bytes >= length,
    }
    return ran.fault(0) or (None if good[task] else f"{ran.lines} lines, {ran.bytes} bytes: {ran.front[:40]}")


def same_breaks(hostile, name, pattern, length, more):
    """`mark` writes the text with a mark at each break that `segment` has, and a line end where the text has none."""
    text = pattern * (length // len(pattern))
    marked, segments = (run_program(hostile.words(task, *more), text) for task in ("mark", "segment"))
    places = [int(line.split()[2]) for line in segments.out.splitlines() if line.startswith(b"S ")]
    wanted = "÷".encode().join(text[begin:end] for begin, end in zip([0, *places], places))
    good = marked.status == segments.status == 0 and marked.out == wanted + b"\n"
    fault = None if good else f"others, or status {marked.status}"
    hostile.tally.tell(f"mark, a passage of {name}: the breaks of segment", fault)


def run(hostile):
    for k, (name, text) in enumerate(PASSAGES):
        pattern = text.encode()
        # A whole number of patterns, four times which is at most the limit.
        length = LIMIT // 4 // len(pattern) * len(pattern)
        for task in ("show", "mark", "segment"):
            for profile in ("1", "2"):
                if (task == "show" and k >= SHOWN) or (profile == "2" and "quotation" not in name):
                    continue
                words = hostile.words(task, "--limit", str(LIMIT), "--profile", profile)
                what = f"{task}, profile {profile}, a passage of {name}"
                of = lambda size, pattern=pattern: [(pattern, size)]
                hostile.grows(what, words, of, length, lambda ran, size, task=task: fits(task, ran, size))
        same_breaks(hostile, name, pattern, length, ["--limit", str(LIMIT)])
