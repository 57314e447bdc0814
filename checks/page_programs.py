#!/usr/bin/env python3
"""Writes the programs that pages show into a folder, each with what it prints, and prints their names.

    checks/page_programs.py FOLDER PAGE..

A program is a block in C, C++, Rust or Python after its name in backquotes; the next block is what it prints, and is
written to NAME.wanted. A block without a name is a part of one of these. checks/c_library.sh runs the programs.
"""
import re
import sys
from pathlib import Path

LANGUAGES = "(?:c|cpp|rs|py)"
PROGRAM = re.compile(rf"`(\w+\.\w+)`[^`]*\n```{LANGUAGES}\n(.*?)```\n\n```text\n(.*?)```\n", re.S)
BLOCK = re.compile(rf"^```{LANGUAGES}\n(.*?)^```$", re.S | re.M)


def main(folder, *pages):
    text = "\n".join(Path(page).read_text(encoding="utf-8") for page in pages)
    shown = PROGRAM.findall(text)
    for name, program, output in shown:
        Path(folder, name).write_text(program, encoding="utf-8")
        Path(folder, f"{name}.wanted").write_text(output, encoding="utf-8")
        print(name)
    if len(shown) != len({name for name, _, _ in shown}):
        return "two programs have one name"
    for block in BLOCK.findall(text):
        if not any(block in program for _, program, _ in shown):
            return f"a block has no name, or nothing that it prints, and is no part of a program: {block}"
    return 0


if __name__ == "__main__":
    sys.exit(main(*sys.argv[1:]))
