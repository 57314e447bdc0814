"""The items of a source: functions, types, impls, imports, each with its tokens."""

import re

from erasing.kit import METHODS_OF
from erasing.tokens import DEPTH, Reader, Refused

# (a macro is never kept: a call of it is refused)
KINDS = ("fn", "struct", "enum", "trait", "type", "const", "static", "mod", "use", "impl", "macro_rules")
# These end at a semicolon, whatever braces they have.
PLAIN = ("use", "const", "static", "type")
MODIFIERS = ("unsafe", "final", "default")
IN_FORMAT = re.compile(r"(?<!\{)(?:\{\{)*\{([A-Za-z_]\w*)[:}]")


class Item:
    """An item of a file, or a member of an impl or a trait. `name` of an impl is None; `head` are the tokens up to its
    braces, and `members` what stands in those of an impl."""

    def __init__(self, file, tokens, at):
        self.file, self.tokens, self.at, self.line = file, tokens, at, tokens[at].line
        self.kind, self.name = tokens[at].text, tokens[at + 1].text if tokens[at].text != "impl" else None
        self.visibility = visibility(tokens)
        self.is_test = any(it.kind == "attribute" and it.text == "#[cfg(test)]" for it in tokens[:at])
        self.members, self.head = [], tokens
        if self.kind in ("impl", "trait") and not self.is_test:
            brace = next(i for i, it in enumerate(tokens) if it.text == "{" and it.kind == "sign")
            self.head, inner = tokens[: brace + 1], tokens[brace + 1 : -1]
            self.members = split(file, inner, ("fn", "const", "type"))

    def where(self):
        return f"{self.file.name}:{self.line}"

    def words(self):
        """Each word of the item with the place where it stands, also those in the texts of formats, but no name of a
        macro."""
        return words_of(self.tokens)


def words_of(tokens):
    """The places and the words of some tokens that may name an item: no names of macros, numbers or lifetimes. A name in
    the text of a format has the place of the text."""
    for at, it in enumerate(tokens[:-1] if tokens else ()):
        if it.kind == "word" and not it.text[0].isdigit():
            if not is_macro(tokens, at):
                yield at, it.text
        elif it.kind == "text" and it.text.startswith('"'):
            for name in IN_FORMAT.findall(it.text):
                yield at, name
    if tokens and tokens[-1].kind == "word":
        yield len(tokens) - 1, tokens[-1].text


def is_macro(tokens, at):
    """Whether a word is the name of a macro that is called: the sign stands right behind it."""
    if at + 2 >= len(tokens) or tokens[at + 1].text != "!":
        return False
    return not tokens[at + 1].before and tokens[at + 2].text in ("(", "[", "{")


def visibility(tokens):
    """The tokens of `pub` or `pub(..)` at the front."""
    at = next((i for i, it in enumerate(tokens) if it.kind != "attribute"), 0)
    if tokens[at].text != "pub":
        return []
    return tokens[at : at + 4] if tokens[at + 1].text == "(" else tokens[at : at + 1]


def head_of(file, tokens, kinds):
    """The place of the keyword of an item, behind its attributes, visibility and modifiers."""
    at = next((i for i, it in enumerate(tokens) if it.kind != "attribute"), len(tokens) - 1)
    at += len(visibility(tokens))
    while tokens[at].text in MODIFIERS or (tokens[at].text == "const" and tokens[at + 1].text in ("fn", "unsafe")):
        at += 1
    if tokens[at].text == "extern" and tokens[at + 1].text == '"C"' and tokens[at + 2].text == "fn":
        at += 2
    if tokens[at].text not in kinds:
        raise Refused(f"{file.name}:{tokens[at].line}: an item that begins with {tokens[at].text}")
    return at


def split(file, tokens, kinds=KINDS):
    """The items that some tokens are."""
    items, begin, depth = [], 0, 0
    keyword = None
    for at, it in enumerate(tokens):
        if it.kind == "end":
            break
        if keyword is None and it.kind != "attribute":
            keyword = head_of(file, tokens[begin:], kinds) + begin
        if it.kind != "sign":
            continue
        depth += DEPTH.get(it.text, 0)
        if depth == 0 and (it.text == ";" or (it.text == "}" and tokens[keyword].text not in PLAIN)):
            items.append(Item(file, tokens[begin : at + 1], keyword - begin))
            begin, keyword = at + 1, None
    if keyword is not None or depth:
        raise Refused(f"{file.name}:{tokens[begin].line}: an item without an end")
    return items


class Leaf:
    """A name that a `use` brings in, and its path."""

    def __init__(self, item, name, path):
        self.item, self.name, self.path = item, name, path


def leaves(item):
    """What a `use` brings in."""
    words = [it.text for it in item.tokens[item.at + 1 :]]
    found = []

    def tree(at, path):
        while True:
            if words[at] == "{":
                at += 1
                while words[at] != "}":
                    at = tree(at, path)
                    at += words[at] == ","
                return at + 1
            path = [*path, words[at]]
            if words[at + 1] != "::":
                break
            at += 2
        path = path[:-1] if path[-1] == "self" and len(path) > 1 else path
        is_renamed = words[at + 1] == "as"
        found.append(Leaf(item, words[at + 2] if is_renamed else path[-1], path))
        return at + (3 if is_renamed else 1)

    tree(0, [])
    for it in found:
        if it.name == "*" and "::".join(it.path) not in METHODS_OF:
            raise Refused(f"{item.where()}: the import {'::'.join(it.path)}")
    return found


class File:
    """A source: its crate, the path of its module in the crate, and its items by their names."""

    def __init__(self, crate, module, path, text):
        self.crate, self.module, self.name = crate, module, f"{crate.name}/src/{path}"
        reader = Reader(self.name, text)
        reader.at = re.match(r"(?://![^\n]*\n)*", text).end()
        self.docs = text[: reader.at]
        self.items, self.inner = self.parted(reader.read())
        self.modules = {it.name for it in self.items if it.kind == "mod" and not it.is_test}
        self.uses = {leaf.name: leaf for it in self.items if it.kind == "use" for leaf in leaves(it)}
        self.own = {}
        for it in self.items:
            if it.kind not in ("use", "mod", "impl", "macro_rules") and not it.is_test:
                self.own.setdefault(it.name, []).append(it)

    def parted(self, tokens):
        """The items, and the attributes of the whole file."""
        inner = []
        while tokens[0].kind == "attribute" and tokens[0].text.startswith("#!"):
            inner.append(tokens.pop(0))
        for it in (items := split(self, tokens)):
            if it.kind == "mod" and it.tokens[-1].text != ";" and not it.is_test:
                raise Refused(f"{it.where()}: a module within a file")
        return items, inner
