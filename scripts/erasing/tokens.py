"""The tokens of a Rattle source, without its contracts and ghost items."""

import re
from typing import NamedTuple


class Refused(Exception):
    """A form that the eraser does not know: the message has the file, the line and the form."""


class Token(NamedTuple):
    """A token, its line, and the spaces and comments before it. `kind` is word, sign, text (of a string, a byte or a
    character), life (a lifetime or a label), attribute, end, or numbers: many of a table at once, for speed, or the records
    of numbers behind a first one of the same type."""

    kind: str
    text: str
    line: int
    before: str = ""


BEFORE = r"(?P<before>(?:\s+|//[^\n]*)*)"
TOKEN = re.compile(
    BEFORE
    + r"""(?:
    (?P<text>b?r(?P<hashes>\#*)"(?:.|\n)*?"(?P=hashes)
      | b?"(?:\\(?:.|\n)|[^"\\])*"
      | b?'(?:\\x[0-9A-Fa-f]{2}|\\u\{[0-9A-Fa-f_]+\}|\\.|[^'\\\n])')
  | (?P<numbers>(?<![!\w])(?:\[\d\w*(?:,\s*\d\w*)+\](?:,\s*)?)+ | \d\w*(?:,\s*\d\w*){3,})
  | (?P<records>(?P<first>(?P<name>[A-Z]\w*)\{\w+:\d+(?:,\w+:\d+)*\})(?:,(?P=name)\{\w+:\d+(?:,\w+:\d+)*\})+)
  | (?P<life>'[A-Za-z_]\w*(?!'))
  | (?P<word>\w+)
  | (?P<sign>::|->|=>|\.\.=?|[][!\#$%&()*+,./:;<=>?@^{|}~-])
  | (?P<end>\Z))""",
    re.X,
)
# What matters between the braces of a clause, which is not Rust.
WITHIN = re.compile(r""""(?:\\.|[^"\\])*"|'[{}]'|//|/\*|--|\{-|[{}]""")
CLAUSES = ("requires", "ensures")
DEPTH = {"(": 1, "[": 1, "{": 1, ")": -1, "]": -1, "}": -1}


class Reader:
    """Reads a text to its end."""

    def __init__(self, name, text):
        self.name, self.text = name, text
        self.at, self.before, self.tokens = 0, "", []
        # How far lines were counted, and the line there.
        self.seen, self.line = 0, 1

    def line_of(self, at):
        """The line of an offset, which is not before the one asked for last."""
        self.line += self.text.count("\n", self.seen, at)
        self.seen = at
        return self.line

    def refused(self, form, at):
        return Refused(f"{self.name}:{self.text.count(chr(10), 0, at) + 1}: {form}")

    def read(self):
        """The tokens of the text; the last is its end."""
        while not self.tokens or self.tokens[-1].kind != "end":
            found = TOKEN.match(self.text, self.at)
            if not found:
                front = re.compile(BEFORE).match(self.text, self.at).end()
                raise self.refused(f"the character {self.text[front]!r}", front)
            self.take(found)
        return self.tokens

    def take(self, found):
        """Takes a token, or all that it begins."""
        kind, begin, self.at = found.lastgroup, found.end("before"), found.end()
        kind, text = ("text" if kind == "hashes" else kind), self.text[begin : self.at]
        self.before += found["before"]
        if kind == "word" and text in CLAUSES:
            self.skip_clause()
            return
        if kind == "word" and text == "ghost":
            self.skip_ghost()
            return
        if text == "/" and self.text.startswith("*", self.at):
            raise self.refused("a comment between /* and */", begin)
        if kind == "records":
            self.take_records(begin, found["first"])
            return
        if text == "#":
            kind, text = "attribute", self.attribute(begin)
        elif kind == "word" and not text.isascii():
            raise self.refused(f"the word {text}", begin)
        self.tokens.append(Token(kind, text, self.line_of(begin), self.before))
        self.before = ""

    def take_records(self, begin, first):
        """Takes the first of many records word by word, and the others at once."""
        line = self.line_of(begin)
        name, *rest = re.findall(r"\w+|[{:,}]", first)
        self.tokens.append(Token("word", name, line, self.before))
        self.tokens += [Token("sign" if it in DEPTH or it in ":," else "word", it, line) for it in rest]
        self.tokens.append(Token("numbers", self.text[begin + len(first) : self.at], line))
        self.before = ""

    def attribute(self, begin):
        """The text of an attribute, whose sign was read."""
        depth = 0
        while True:
            found = TOKEN.match(self.text, self.at)
            if not found or found["end"] is not None:
                raise self.refused("an attribute without an end", begin)
            self.at = found.end()
            if found["sign"]:
                depth += DEPTH.get(found["sign"], 0)
                if found["sign"] not in ("!", "[") and depth == 0:
                    return self.text[begin : self.at]

    def goes_on(self, pattern):
        """Whether the text goes on so, behind spaces; if so, it is passed."""
        found = re.compile(rf"\s*(?:{pattern})").match(self.text, self.at)
        if found:
            self.at = found.end()
        return bool(found)

    def skip_group(self, what):
        """Passes what stands between two braces, of which the first follows."""
        begin, depth = self.at, 0
        if not self.goes_on(r"(?=\{)"):
            raise self.refused(f"{what} without braces", begin)
        while found := WITHIN.search(self.text, self.at):
            self.at = found.end()
            if found[0][0] in "/-'" or found[0] == "{-":
                raise self.refused(f"{found[0]} in {what}", found.start())
            depth += DEPTH.get(found[0], 0)
            if depth == 0 and found[0] == "}":
                return
        raise self.refused(f"{what} without an end", begin)

    def skip_clause(self):
        """Passes a clause: its name if it has one, and its braces."""
        self.goes_on(r"\*")
        self.goes_on(r"[A-Za-z_]\w*\s*(?=\{)")
        self.skip_group("a clause")
        self.forget()

    def skip_ghost(self):
        """Passes a ghost import, field or item, which ends at a semicolon, a comma, or the brace behind the last
        field."""
        begin = self.at
        if self.goes_on(r"use\b"):
            self.goes_on(r"[^;{]*")
            if not self.goes_on(";"):
                self.skip_group("a ghost import")
                if not self.goes_on(";"):
                    raise self.refused("a ghost import that ends otherwise", begin)
        else:
            if not self.goes_on(r"[A-Za-z_]\w*"):
                raise self.refused("a ghost item without a name", begin)
            for sign in (":", "=", r"by\b"):
                if self.goes_on(sign):
                    self.skip_group("a ghost item")
            if not self.goes_on(r"[;,]|(?=\})"):
                raise self.refused("a ghost item that ends otherwise", begin)
        if self.tokens and self.tokens[-1].text == "pub":
            self.before = self.tokens.pop().before
        self.forget()

    def forget(self):
        """Lets go of the comments of what was passed: those above it up to an empty line, but not one that stands
        behind code."""
        behind, end, above = self.before.partition("\n")
        self.before = behind + end + above.rpartition("\n\n")[0] + end
