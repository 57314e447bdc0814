"""The tokens of an item as Rust."""

import re

from erasing.crates import begins_here
from erasing.items import is_macro
from erasing.kit import stands_for
from erasing.tokens import DEPTH, Refused, Token

# Attributes that stay, and those that go: what proofs are told, names for C, and messages that no program prints.
KEPT = re.compile(r"#\[(inline(\((always|never)\))?|cold|must_use|doc\(hidden\)|repr\((C|transparent)\))\]")
GONE = re.compile(r"#!?\[(tactic\(.*\)|cycle\(\w+\)|unsafe\(no_mangle\)|error\(.*\)|derive_where\(Clone, Copy\))\]", re.S)
DERIVED = {"Clone", "Copy", "PartialEq", "Eq", "PartialOrd", "Ord", "Hash", "Debug", "Default"}
# Derived for Rattle alone: what may be forgotten, and messages of errors.
NOT_DERIVED = {"Drop", "Error"}
# Macros, and what is written instead. Those with an allocator or a system are of `kit`.
MACROS = {"matches": "matches", "unreachable": "unreachable", "write": "write", "assert_eq": "assert_eq", "prove": "debug_assert"}
MACROS |= {name: name for name in ("format", "vec", "print", "eprint", "eprintln")}
# Calls that are proved to need no check, and the functions of `kit` that make them.
PROVED = {
    "str::from_utf8_unchecked": "crate::kit::proved_text",
    "char::from_u32_unchecked": "crate::kit::proved_scalar",
}
# Words of Rust that would need more than the taking out of contracts.
REFUSED = set("async await dyn union extern static_mut Model Owns final transmute unsafe yield become".split())
# Tokens, and what stands for them.
RULES = [
    # The trait of formats has a parameter in Rattle.
    ("fn fmt < W : fmt :: Write >", "fn fmt"),
    ("< W : fmt :: Write >", ""),
    ("fmt :: Formatter < W >", "fmt :: Formatter < '_ >"),
    # `Drop` is a bound there, of what may be forgotten.
    ("T :: Err : Drop ,", ""),
    ("+ Drop", ""),
    (": Drop +", ":"),
    (": Drop", ""),
    # What grows may fail, and takes an allocator.
    (". clone ( ) ?", ". try_clone ( ) ?"),
    (". collect ( )", ". collect ( )"),
    (". collect (", ". collect_in ("),
    (". swizzle_dyn_within :: < 16 >", ". swizzle_dyn"),
    # A processor may lack the vectors that masks are for, where the build does not say so.
    ("! MASKS", "! ( MASKS && std :: simd :: prelude :: are_taken ( ) )"),
    (". replace ( cmd . alloc", ". replace_in ( cmd . alloc"),
]
RULES_OF = {}
for _old, _new in RULES:
    RULES_OF.setdefault(_old.split()[0], []).append((_old.split(), _new.split()))


def as_rust(place, item, tokens=None):
    """The text of an item. `place` says where the crates' modules are."""
    tokens = list(item.tokens if tokens is None else tokens)
    for step in (without_attributes, without_labels, by_rules, without_unsafe, with_macros, place.with_paths):
        tokens = step(item.file, tokens)
    for it in tokens:
        if it.kind == "word" and it.text in REFUSED:
            raise refused(item.file, it, it.text)
    return "".join(place.comment(item.file, it.before) + it.text for it in tokens)


def refused(file, token, form):
    return Refused(f"{file.name}:{token.line}: {form}")


def behind(before, tokens):
    """The tokens with some comments before the first."""
    return [tokens[0]._replace(before=before + tokens[0].before), *tokens[1:]] if tokens else []


def without_attributes(file, tokens):
    """Without the attributes that go; others than those that are known are refused."""
    out, before = [], ""
    for it in tokens:
        text = attribute(file, it) if it.kind == "attribute" else it.text
        if before:
            it = it._replace(before=before + it.before.lstrip())
        before = it.before if it.kind == "attribute" and not text else ""
        if text or it.kind == "end":
            out.append(it if text == it.text else it._replace(text=text))
    return out


def attribute(file, token):
    """An attribute in Rust; nothing where it goes."""
    derived = re.fullmatch(r"#\[derive\(([\w, ]*)\)\]", token.text)
    if derived:
        names = [it for it in re.findall(r"\w+", derived[1]) if it not in NOT_DERIVED]
        if not set(names) <= DERIVED:
            raise refused(file, token, token.text)
        return f"#[derive({', '.join(names)})]" if names else ""
    if token.text == "#[rattlefmt::skip]":
        return "#[rustfmt::skip]"
    if GONE.fullmatch(token.text):
        return ""
    if not KEPT.fullmatch(token.text):
        raise refused(file, token, token.text)
    return token.text


def without_labels(_file, tokens):
    """Without the labels that only proofs named."""
    used = {it.text for last, it in zip(tokens, tokens[1:]) if it.kind == "life" and last.text in ("break", "continue")}
    out, at = [], 0
    while at < len(tokens):
        it = tokens[at]
        is_label = it.kind == "life" and tokens[at + 1].text == ":" and tokens[at + 2].text in ("loop", "for", "while")
        if is_label and it.text not in used:
            out += behind(it.before, tokens[at + 2 : at + 3])
            at += 3
        else:
            out.append(it)
            at += 1
    return out


def by_rules(_file, tokens):
    """With the forms of `RULES`."""
    out, at = [], 0
    while at < len(tokens):
        for old, new in RULES_OF.get(tokens[at].text, ()):
            if [it.text for it in tokens[at : at + len(old)]] == old:
                befores = [it.before for it in tokens[at : at + len(old)]]
                befores += [""] * len(new)
                out += [Token(kind_of(text), text, tokens[at].line, before) for text, before in zip(new, befores)]
                at += len(old)
                break
        else:
            out.append(tokens[at])
            at += 1
    return out


def kind_of(text):
    return "word" if text[0].isalpha() else "life" if text[0] == "'" else "sign"


def without_unsafe(file, tokens):
    """With the functions of `kit` for what is proved to need no check: `unsafe { a::b_unchecked(c) }` is a call of one."""
    out, at = [], 0
    while at < len(tokens):
        texts = [it.text for it in tokens[at : at + 6]] if tokens[at].text == "unsafe" else []
        name = PROVED.get("".join(texts[2:5])) if texts[1:2] + texts[5:] == ["{", "("] else None
        if name and tokens[closing(tokens, at + 5) + 1].text == "}":
            end = closing(tokens, at + 5)
            out += [tokens[at]._replace(text=name), *tokens[at + 5 : end + 1]]
            at = end + 2
        elif texts:
            raise refused(file, tokens[at], "unsafe")
        else:
            out.append(tokens[at])
            at += 1
    return out


def closing(tokens, at):
    """The place of the bracket that closes the one at a place."""
    depth = 0
    for place in range(at, len(tokens)):
        depth += DEPTH.get(tokens[place].text, 0) if tokens[place].kind == "sign" else 0
        if depth == 0:
            return place
    return len(tokens) - 1


def with_macros(file, tokens):
    """With the macros that are known; `prove!` is `debug_assert!`. Functions for C are functions."""
    out, at = [], 0
    while at < len(tokens):
        it = tokens[at]
        if it.kind == "word" and is_macro(tokens, at):
            if it.text not in MACROS:
                raise refused(file, it, f"the macro {it.text}")
            it = it._replace(text=MACROS[it.text])
        if it.text == "extern" and [one.text for one in tokens[at + 1 : at + 3]] == ['"C"', "fn"]:
            out += behind(it.before, [tokens[at + 2]._replace(before="")])
            at += 3
            continue
        out.append(it)
        at += 1
    return out


class Place:
    """Where the crates are as modules of one crate."""

    def __init__(self, crates):
        self.crates = crates

    def root(self, crate, file):
        """The path of a crate's module: of a file's own by `super`, so that the folder of a crate can stand anywhere."""
        if crate != file.crate.name:
            return f"crate::{module_of(crate)}"
        return "::".join(["super"] * len(file.module)) or "self"

    def comment(self, file, text):
        """A comment, with the links of its docs."""
        def link(found):
            return f"({self.root(file.crate.name if found[1] == 'crate' else found[1], file)}::"
        return re.sub(r"\((crate|lbk_\w+)::", link, text) if "(" in text else text

    def of(self, file, path):
        """A path in Rust, by the words that it has."""
        if path[0] == "crate":
            return [self.root(file.crate.name, file), *path[1:]]
        if path[0] in self.crates and not begins_here(file, path) and not stands_for(path):
            return [self.root(path[0], file), *path[1:]]
        return stands_for(path)

    def in_rust(self, file, path):
        """The same, and of the module of lanes, which is beside that of the crate."""
        found = self.of(file, path)
        if found and found[0] == "SIMD":
            own = self.root(file.crate.name, file)
            return ["super" if own == "self" else f"{own}::super", "simd", *found[1:]]
        return found

    def with_paths(self, file, tokens):
        """With the paths that begin at a crate."""
        out, at = [], 0
        while at < len(tokens):
            it = tokens[at]
            begins = it.kind == "word" and (at == 0 or tokens[at - 1].text not in ("::", "."))
            if begins and tokens[at + 1 : at + 2] and tokens[at + 1].text == "::":
                end = at
                while tokens[end + 1].text == "::" and tokens[end + 2].kind == "word":
                    end += 2
                path = [one.text for one in tokens[at : end + 1 : 2]]
                is_import = path[0] in file.uses
                found = None if is_import else self.in_rust(file, path)
                if path[0] == "std" and not found:
                    raise refused(file, it, f"the path {'::'.join(path)}")
                out.append(it._replace(text="::".join(found or path)))
                at = end + 1
            else:
                out.append(it)
                at += 1
        return out


def module_of(crate):
    """The module of a crate."""
    return crate.removeprefix("lbk_")


def copies(item):
    """The impls of `#[derive_where(Clone, Copy)]`, which ask nothing of a parameter."""
    if not any(it.text == "#[derive_where(Clone, Copy)]" for it in item.tokens if it.kind == "attribute"):
        return ""
    at = item.at + 2
    end = next(i for i in range(at, len(item.tokens)) if item.tokens[i].text in ("{", "(", ";"))
    head = "".join(it.before + it.text for it in item.tokens[at:end]).strip()
    names = ", ".join(one.partition(":")[0].strip() for one in head[1:-1].split(","))
    return (
        f"\n\nimpl{head} Clone for {item.name}<{names}> {{\n    #[inline(always)]\n    fn clone(&self) -> Self {{\n"
        f"        *self\n    }}\n}}\n\nimpl{head} Copy for {item.name}<{names}> {{}}"
    )
