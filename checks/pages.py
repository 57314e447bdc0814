"""The form of the pages: their lengths and those of cells of tables, where links lead, and the README's figures.

All pages but the log and DECISIONS.md count. Each of the README's figures of speed stands in docs/performance.md.
"""

import re
import subprocess

from checks.harness import TOP

MOST_LINES, MOST_OF_README, MOST_OF_CELL, MOST_COLUMNS = 2300, 100, 200, 100
NOT_COUNTED = ("docs/log/", "docs/DECISIONS.md")
GLOSSARY = ("profile", "gate", "mutant", "kit", "tailoring", "passage", "held position", "cell", "verdict")
LINK = re.compile(r"\]\(([^)\s]+)\)")


def pages():
    """The pages of the repository by their names, and their texts."""
    command = ["git", "ls-files", "--cached", "--others", "--exclude-standard", "*.md"]
    found = subprocess.run(command, cwd=TOP, check=True, capture_output=True, text=True).stdout.split("\n")
    return {it: (TOP / it).read_text(encoding="utf-8") for it in sorted(found) if it and (TOP / it).is_file()}


def without_code(text):
    """A page without its blocks of code."""
    return re.sub(r"^```.*?^```$", "", text, flags=re.S | re.M)


def anchors_of(text):
    """The anchors of a page's titles, as GitHub makes them."""
    titles = re.findall(r"^#+ (.*)$", without_code(text), re.M)
    plain = (re.sub(r"[^\w\- ]", "", re.sub(r"\[([^]]*)\]\([^)]*\)", r"\1", it).lower()) for it in titles)
    return {it.replace(" ", "-") for it in plain}


def dead_links(name, texts):
    """The links of a page that lead nowhere."""
    for link in LINK.findall(without_code(texts[name])):
        if "://" in link:
            continue
        path, _, anchor = link.partition("#")
        to = (TOP / name).parent / path if path else TOP / name
        if not to.exists():
            yield link
        elif anchor and anchor not in anchors_of(to.read_text(encoding="utf-8")):
            yield link


def long_cells(text):
    """The cells of tables that are too long, by their first words."""
    rows = (it for it in without_code(text).split("\n") if it.startswith("|"))
    cells = (cell.strip() for row in rows for cell in re.split(r"(?<!\\)\|", row))
    return [f"{len(it)}: {it[:40]}" for it in cells if len(it) > MOST_OF_CELL]


def long_lines(text):
    """The lines that are too long and could be shorter: no table, no code, and no link or picture alone."""
    return [it[:40] for it in without_code(text).split("\n")
        if len(it) > MOST_COLUMNS and not it.startswith(("|", "    ", "[![", "![", "<!--"))]


def try_readme(tally, texts):
    readme, performance = texts["README.md"], texts["docs/performance.md"]
    lines = len(readme.splitlines())
    tally.tell(f"README.md has {lines} lines", None if lines <= MOST_OF_README else f"over {MOST_OF_README}")
    tally.equal("README.md has no link into the log", [it for it in LINK.findall(readme) if "docs/log" in it], [])
    fast = re.search(r"^- \[Fast\].*?(?=^- )", readme, re.S | re.M)[0]
    figures = re.findall(r"\d+(?:\.\d)?(?= \(| to | times)", re.sub(r"\s+", " ", fast))
    there = {f"{float(it):.1f}" for it in re.findall(r"\d+\.\d+", performance)}
    there |= set(re.findall(r"\b\d+\b", performance))
    lost = [it for it in figures if it not in there]
    tally.equal(f"its figures of speed, {figures}, stand in docs/performance.md", lost, [])
    tally.tell("it has figures of speed", None if len(figures) >= 6 else figures)


def run(tally, _arguments):
    texts = pages()
    counted = {it: text for it, text in texts.items() if not it.startswith(NOT_COUNTED)}
    lines = sum(len(it.splitlines()) for it in counted.values())
    tally.tell(f"{len(counted)} pages have {lines} lines", None if lines <= MOST_LINES else f"over {MOST_LINES}")
    for name, text in counted.items():
        tally.equal(f"{name}: cells of tables over {MOST_OF_CELL} characters", long_cells(text), [])
        tally.equal(f"{name}: lines over {MOST_COLUMNS} columns", long_lines(text), [])
        tally.equal(f"{name}: links that lead nowhere", list(dead_links(name, texts)), [])
    others = [f"{name}: {it}" for name in texts if name not in counted for it in dead_links(name, texts)]
    tally.equal("the log and the decisions: links that lead nowhere", others, [])
    try_readme(tally, texts)
    words = re.findall(r"^\| ([\w -]+) \|", texts["docs/glossary.md"], re.M)
    tally.equal("the words of the glossary", [it for it in GLOSSARY if it not in words], [])
