"""Joins the modules of the page, and those of the package that it imports, in one script, so that a first visit fetches
fewer bytes."""
import re

IMPORT = re.compile(r'^import \{ ([^}]*) \} from "\./([\w.]+)";\n', re.M)
EXPORT = re.compile(r"^export (?=(?:async )?(?:function\*?|class|const) (\w+))", re.M)
LEFT_OVER = re.compile(r"^(?:import|export)\b.*", re.M)


def without_comments(text):
    """A script or a style without the lines that are comments, and without indents."""
    return re.sub(r"^[ \t]*(?://[^\n]*|/\*.*?\*/[ \t]*)\n|^[ \t]+", "", text, flags=re.M | re.S)


def order_of(name, texts, found):
    """The modules that a module imports, each behind those that it imports itself, and then the module."""
    for _, imported in IMPORT.findall(texts[name]):
        if imported not in found:
            order_of(imported, texts, found)
    found.append(name)
    return found


def bundled(main, texts):
    """A script that does what the module `main` does. Each other module is a function of its own, which returns its
    exports."""
    order, made, exported = order_of(main, texts, []), [], {}
    for name in order:
        text = texts[name]
        for names, imported in IMPORT.findall(text):
            absent = set(names.split(", ")) - exported[imported]
            if absent:
                raise ValueError(f"{name} imports {absent} of {imported}")
        body = without_comments(IMPORT.sub("", text))
        exported[name] = set(EXPORT.findall(body))
        body = EXPORT.sub("", body)
        if LEFT_OVER.search(body):
            raise ValueError(f"{name} has {LEFT_OVER.search(body)[0]}")
        names = ",".join(sorted(exported[name]))
        made.append(f"const {{{names}}}=(()=>{{\n{body}return{{{names}}}}})();\n" if names else body)
    every = [it for names in exported.values() for it in names]
    if len(every) != len(set(every)):
        raise ValueError("two modules export one name")
    return "".join(made)
