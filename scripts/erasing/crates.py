"""Crates, and what is needed of them."""

from typing import NamedTuple

from erasing.items import File, words_of
from erasing.kit import GONE_TRAITS, METHODS_OF, stands_for
from erasing.tokens import Refused


class Crate:
    """The sources of a crate, by the paths of their modules."""

    def __init__(self, name, folder):
        self.name, self.folder, self.files = name, folder, {}
        self.read((), folder / ("main.rt" if (folder / "main.rt").exists() else "lib.rt"))

    def read(self, module, path):
        """Reads a file and those of its modules, in the folder of the module's name."""
        file = File(self, module, path.relative_to(self.folder), path.read_text(encoding="utf-8"))
        self.files[module] = file
        inner = self.folder.joinpath(*module)
        for name in sorted(file.modules):
            found = [it for it in (inner / f"{name}.rt", inner / name / "mod.rt") if it.exists()]
            if not found:
                raise Refused(f"{file.name}: no file of the module {name}")
            self.read((*module, name), found[0])


class Found(NamedTuple):
    """What a path leads to: items, how many of its words lead there, and the imports that it passes."""

    items: list
    length: int
    leaves: list


class Needs:
    """What some roots need of crates: the items that are kept, and the imports that are needed."""

    def __init__(self, crates):
        self.crates = crates
        self.files = [file for crate in crates.values() for file in crate.files.values()]
        self.impls = [it for file in self.files for it in file.items if it.kind == "impl" and not it.is_test]
        # The items that roots name.
        self.named = set()
        # What is kept, and the tokens of those whose words are still to be looked at.
        self.kept, self.waiting = set(), []
        # The imports that are needed, and the items that the heads of impls name.
        self.leaves, self.names = set(), {}
        # The names of methods, fields and variants: of all files, and of each; and the other words of each.
        self.said, self.said_in, self.words_in = set(), {}, {}

    def find(self, roots):
        """Keeps what some paths need, as CRATE::NAME, CRATE::NAME::METHOD or CRATE::*."""
        for root in roots:
            crate, *path = root.split("::")
            if crate not in self.crates:
                raise Refused(f"{root}: no crate {crate}")
            top = self.crates[crate].files[()]
            for names in exported(top) if path == ["*"] else [path]:
                self.need(top, ["crate", *names], root, set())
            self.named.update(top.own.get(path[0], ()))
        size = -1
        while size != (size := len(self.kept) + len(self.said)):
            while self.waiting:
                self.keep_words(*self.waiting.pop())
            for impl in self.impls:
                self.try_impl(impl)
            for file in self.files:
                self.bring_traits(file)

    def follow(self, file, path, where, passed=()):
        """What a path leads to, or None where it does not lead into these crates. That of an import, which is the last
        that was passed, begins at no other import."""
        first, at, here = path[0], 1, file
        if first == "crate":
            here = file.crate.files[()]
        elif first == "super":
            at = next((i for i, it in enumerate(path) if it != "super"), len(path))
            here = file.crate.files[file.module[: len(file.module) - at]]
        elif begins_here(file, path) or (first in file.uses and not passed):
            at = 0
        elif first in self.crates and not stands_for(path):
            here = self.crates[first].files[()]
        elif first != "self":
            return None
        while at < len(path):
            name = path[at]
            if name in here.modules and (at + 1 < len(path) or not (name in here.own or name in here.uses)):
                here, at = here.crate.files[(*here.module, name)], at + 1
            elif name in here.own:
                return Found(here.own[name], at + 1, [])
            elif name in here.uses:
                return self.follow_leaf(here, here.uses[name], path, at, (*passed, here.uses[name]))
            else:
                raise Refused(f"{where}: {'::'.join(path)}, of which {here.name} has no {name}")
        return Found([], at, [])

    def follow_leaf(self, file, leaf, path, at, passed):
        """The same through an import, which is the word at a place of the path."""
        where = leaf.item.where()
        if leaf in passed[:-1]:
            raise Refused(f"{where}: the import {'::'.join(leaf.path)} leads to itself")
        found = self.follow(file, leaf.path + path[at + 1 :], where, passed)
        if found is None:
            return Found([], at + 1, [leaf])
        return Found(found.items, at + 1 + max(0, found.length - len(leaf.path)), [leaf, *found.leaves])

    def need(self, file, path, where, said):
        """Keeps what a path leads to. What is behind that are methods, variants or constants of it."""
        found = self.follow(file, path, where)
        rest = path[found.length :] if found else path[1:]
        said.update(rest)
        self.said.update(rest)
        for leaf in found.leaves if found else ():
            self.bring(leaf)
        for it in found.items if found else ():
            self.keep(it)

    def bring(self, leaf):
        """Keeps the import of a name."""
        if leaf.path[0] not in (*self.crates, *leaf.item.file.modules, "crate", "super", "self") and not stands_for(leaf.path):
            raise Refused(f"{leaf.item.where()}: the import {'::'.join(leaf.path)}")
        self.leaves.add(leaf)

    def keep(self, item):
        """Keeps an item and what it names."""
        if item not in self.kept:
            self.kept.add(item)
            self.waiting.append((item.file, item.tokens))

    def keep_words(self, file, tokens):
        """Keeps what some tokens of a file name."""
        said, words = self.said_in.setdefault(file, set()), self.words_in.setdefault(file, set())
        passed = -1
        for at, word in words_of(tokens):
            if at <= passed and tokens[at].kind == "word":
                continue
            if tokens[at].kind == "word" and at and tokens[at - 1].text in (".", "::"):
                said.add(word)
                self.said.add(word)
                continue
            path = path_at(tokens, at) if tokens[at].kind == "word" else [word]
            passed = at + 2 * len(path) - 2
            words.update([word, f"{word}::"] if len(path) > 1 else [word])
            self.need(file, path, f"{file.name}:{tokens[at].line}", said)

    def try_impl(self, impl):
        """Keeps an impl of a trait if its trait and its types are kept, and of a type the methods that are named."""
        head = behind_parameters(impl)
        if is_of_trait(impl) and full_path(impl.file, path_at(head, 0)) in GONE_TRAITS:
            return
        if not all(any(it in self.kept for it in items) for items in self.named_by(impl, head)):
            return
        if is_of_trait(impl):
            self.keep(impl)
            return
        for member in impl.members:
            if member.name in self.said and member not in self.kept:
                if impl not in self.kept:
                    self.kept.add(impl)
                    self.waiting.append((impl.file, impl.head))
                self.keep(member)

    def named_by(self, impl, head):
        """The items of these crates that the head of an impl names, behind its parameters."""
        if impl not in self.names:
            paths = [path_at(head, at) for at, _ in words_of(head) if not at or head[at - 1].text != "::"]
            found = [self.follow(impl.file, path, impl.where()) for path in paths]
            self.names[impl] = [it.items for it in found if it and it.items]
        return self.names[impl]

    def bring_traits(self, file):
        """Keeps the imports of traits whose methods a file names, and these traits."""
        said = self.said_in.get(file)
        for leaf in file.uses.values() if said else ():
            if leaf in self.leaves or leaf.item.visibility:
                continue
            methods = METHODS_OF.get("::".join(leaf.path))
            if methods is not None:
                self.leaves.update([leaf] if methods & (said | self.words_in[file]) else [])
            elif not stands_for(leaf.path):
                found = self.follow(file, leaf.path, leaf.item.where(), (leaf,))
                methods = {it.name for trait in found.items if trait.kind == "trait" for it in trait.members} if found else ()
                if said.intersection(methods):
                    self.need(file, [leaf.name], leaf.item.where(), said)


def exported(file):
    """The paths of what a file shows to other crates."""
    own = [name for name, items in file.own.items() if any(it.visibility for it in items)]
    return [[it] for it in own + [name for name, leaf in file.uses.items() if leaf.item.visibility]]


def begins_here(file, path):
    """Whether a path begins with an item or a module of the file; in front of others no function is meant."""
    own = [it for it in file.own.get(path[0], ()) if len(path) == 1 or it.kind not in ("fn", "const", "static")]
    return bool(own) or path[0] in file.modules


def full_path(file, path):
    """A path behind its import, if it begins with one."""
    leaf = file.uses.get(path[0])
    return "::".join(leaf.path + path[1:] if leaf else path)


def path_at(tokens, at):
    """The words of a path that begins at a place."""
    path = [tokens[at].text]
    while at + 2 < len(tokens) and tokens[at + 1].text == "::" and tokens[at + 2].kind == "word":
        at += 2
        path.append(tokens[at].text)
    return path


def behind_parameters(impl):
    """The head of an impl behind `impl<..>`, without its `where`."""
    at = impl.at + 1
    depth = 0
    while impl.head[at].text == "<" or depth:
        depth += {"<": 1, ">": -1}.get(impl.head[at].text, 0)
        at += 1
    end = next((i for i, it in enumerate(impl.head) if it.text == "where"), len(impl.head) - 1)
    return impl.head[at:end]


def is_of_trait(impl):
    head = behind_parameters(impl)
    return any(it.text == "for" and after.text != "<" for it, after in zip(head, [*head[1:], impl.head[-1]]))
