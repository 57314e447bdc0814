"""The library for C, installed in a fresh folder: examples and packages built with it, run, and compared with lbk.

Arguments are names of more texts to compare. checks/c_library.sh does the work, and says what it needs.
"""

from pathlib import Path

from checks.harness import run_script


def run(tally, arguments):
    run_script(tally, [Path(__file__).with_suffix(".sh"), *arguments])
