"""Writes what is kept of crates as modules of one crate."""

import re

from erasing.crates import is_of_trait, path_at
from erasing.items import words_of
from erasing.kit import EXTENSIONS, METHODS_OF, PRELUDE, stands_for
from erasing.rust import Place, as_rust, copies, module_of, without_attributes
from erasing.tokens import Token

END = Token("end", "", 0)


def written(needs):
    """The texts of the files that are written, by their paths."""
    place = Place(needs.crates)
    texts = {}
    for crate in needs.crates.values():
        bodies = {module: text_of(needs, place, file) for module, file in crate.files.items()}
        full = {module[:depth] for module, text in bodies.items() if text for depth in range(len(module) + 1)}
        for module in full:
            file = crate.files[module]
            without_attributes(file, [*file.inner, END])
            modules = "".join(declared(it) for it in file.items if it.kind == "mod" and (*module, it.name) in full)
            uses = by_hand(needs, file, bodies[module])
            uses += "".join(imports(needs, place, it, bodies[module]) for it in file.items if it.kind == "use")
            parts = [place.comment(file, file.docs), modules, uses, bodies[module]]
            texts[path_of(crate, module)] = "\n\n".join(it.strip("\n") for it in parts if it) + "\n"
    return texts


def path_of(crate, module):
    """The path of the file of a module."""
    name = module_of(crate.name)
    return "/".join([name, *module]) + ".rs" if module else f"{name}/mod.rs"


def declared(item):
    """The line of a module."""
    without_attributes(item.file, item.tokens)
    return f"{shown(item)}mod {item.name};\n"


def shown(item):
    """How far an item is seen."""
    text = "".join(it.text for it in item.visibility)
    return f"{text} " if text else ""


def text_of(needs, place, file):
    """The items of a file that are kept, as Rust."""
    parts = []
    for item in file.items:
        if item.kind in ("use", "mod") or item not in needs.kept:
            continue
        tokens = item.tokens
        if item.kind == "impl" and not set(item.members) <= needs.kept and item.members and not is_of_trait(item):
            tokens = [*item.head, *(it for member in item.members if member in needs.kept for it in member.tokens)]
            tokens.append(item.tokens[-1])
        if item in needs.named and not item.visibility:
            tokens = seen_outside(item)
        elif item.kind == "fn" and [it.text for it in item.visibility] == ["pub"] and names_hidden(needs, item):
            tokens = [it._replace(text="pub(crate)") if it is item.visibility[0] else it for it in tokens]
        parts.append(as_rust(place, item, tokens).strip("\n") + copies(item))
    return "\n\n".join(parts)


def names_hidden(needs, item):
    """Whether the head of a function names a type that is seen in its crate alone. Before version 1.74 Rust refuses this of
    what is seen further."""
    head = item.tokens[item.at : next(i for i, it in enumerate(item.tokens) if it.text == "{")]
    paths = [path_at(head, at) for at, _ in words_of(head) if head[at - 1].text != "::"]
    found = [needs.follow(item.file, path, item.where()) for path in paths if path[0] in {**item.file.own, **item.file.uses}]
    return any(len(it.visibility) > 1 for one in found if one for it in one.items if it.kind in ("struct", "enum", "trait"))


def seen_outside(item):
    """The tokens of an item of which the name is no secret of its module."""
    front = item.tokens[item.at]
    return [*item.tokens[: item.at], front._replace(text=f"pub(crate) {front.text}"), *item.tokens[item.at + 1 :]]


def is_said(leaf, body):
    """Whether a name of std is still said in Rust; what is brought in for its methods is not."""
    return not stands_for(leaf.path) or "::".join(leaf.path) in METHODS_OF or bool(re.search(rf"\b{leaf.name}\b", body))


def imports(needs, place, item, body):
    """The imports of an item that are needed, a line for each module."""
    groups = {}
    for leaf in item.file.uses.values():
        if leaf.item is item and leaf in needs.leaves and is_said(leaf, body):
            path = place.in_rust(item.file, leaf.path) or leaf.path
            *front, last = "::".join(path).split("::")
            groups.setdefault("::".join(front), []).append(last if leaf.name in (last, "*") else f"{last} as {leaf.name}")
    lines = []
    for front, names in groups.items():
        path = names[0] if len(names) == 1 else "{" + ", ".join(names) + "}"
        lines.append(f"{shown(item)}use {front}::{path};\n" if front else f"{shown(item)}use {path};\n")
    before = place.comment(item.file, item.tokens[0].before)
    above = before.strip("\n") + "\n" if "//" in before else ""
    return ("\n" if "\n\n" in before else "") + above + "".join(lines) if lines else ""


def by_hand(needs, file, body):
    """The imports of what Rattle has without one."""
    words = needs.words_in.get(file, set())
    taken = {*file.own, *file.uses}
    lines = [line for name, line in PRELUDE.items() if name in words and name.removesuffix("::") not in taken]
    if "use core::str;" in lines and not re.search(r"(?<![\w:])str::", body):
        lines.remove("use core::str;")
    lines += [line for name, line in EXTENSIONS.items() if f".{name}(" in body]
    return "".join(f"{it}\n" for it in lines)
