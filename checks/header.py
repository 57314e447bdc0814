"""The numbers, types and calls of include/lbk.h compared with the definitions and the code.

The numbers of kinds, rules, files and causes come from specs/, the sizes and fields of types and the parameters of
calls from src/. They become C assertions, which are compiled with the header, as C and as C++.
"""

import re
import tempfile
from pathlib import Path

from checks import c_programs
from checks.harness import TOP, CannotRun

# The functions of specs/ that number something, and what the header calls the numbers.
NUMBERS = {
    "kind_number": ("lbk_uax14/specs/Codes.antt", {"No": "LBK_NO", "May": "LBK_MAY", "Must": "LBK_MUST"}),
    "rule_number": ("lbk_uax14/specs/Codes.antt", lambda name: "LBK_RULE_" + name.removeprefix("Lb").upper()),
    "file_number": (
        "lbk_c/specs/Faults.antt",
        {"LineBreak": "LBK_LINE_BREAK", "EastAsianWidth": "LBK_EAST_ASIAN", "Category": "LBK_CATEGORY",
            "Emoji": "LBK_EMOJI"},
    ),
    "cause_number": (
        "lbk_c/specs/Faults.antt",
        lambda name: "LBK_CAUSE_" + {"Memory": "OUT_OF_MEMORY"}.get(name,
            re.sub(r"(?<=.)(?=[A-Z])", "_", name).upper()),
    ),
    "refusal_number": (
        "lbk_calls/specs/Refused.antt",
        {"Foreign": "LBK_CAUSE_NOT_PACKED", "Version": "LBK_CAUSE_OTHER_LAYOUT", "Damaged": "LBK_CAUSE_DAMAGED"},
    ),
    "profile_number": ("lbk_bytes/specs/Profiles.antt", {"First": "LBK_FIRST", "Second": "LBK_SECOND"}),
}
# Definitions with numbers in them, and what the header calls these.
WITH_NUMBERS = [
    ("lbk_bytes/specs/Profiles.antt", r"^goes_on number = number == (\d+) \|\| number == (\d+)$",
        ["LBK_FIRST + LBK_GOES_ON", "LBK_SECOND + LBK_GOES_ON"]),
    ("lbk_c/specs/Faults.antt", r"^no_fault = record \{ file = (\d+); line = 0; cause = (\d+) \}$",
        ["LBK_NO_FILE", "LBK_CAUSE_NONE"]),
    ("lbk_c/specs/Faults.antt", r"^unmade_fault = record \{ file = (\d+); line = 0; cause = (\d+) \}$",
        ["LBK_NO_FILE", "LBK_CAUSE_OUT_OF_MEMORY"]),
    ("lbk_c/specs/Faults.antt", r"^unpublished_fault which = record \{ .*; cause = (\d+) \}$",
        ["LBK_CAUSE_NOT_PUBLISHED"]),
    ("lbk_c/specs/Texts.antt", r"number == (\d+) then cut_text$", ["LBK_CAUSE_CUT"]),
]
VERSION = re.compile(r'^version = codes "(.*)"$', re.M)
# The names that differ between the code and the header.
TYPES = {"FlatTable": "table", "FlatStep": "step", "RawBreak": "break"}
CODE_TYPES = {"usize": "size_t", "bool": "bool"} | {f"u{size}": f"uint{size}_t" for size in (8, 16, 32, 64)}

STRUCT = re.compile(r"^#\[repr\(C\)\]\n(?:#\[.*\]\n)*pub struct (\w+) \{\n((?:    .*\n)*)\}", re.M)
FIELD = re.compile(r"^    (?:pub(?:\(\w+\))? )?(\w+): (.+),$", re.M)
CONST = re.compile(r"pub(?:\(crate\))? const ([A-Z_]+): \w+ = (\w+);")
CALL = re.compile(r'pub extern "C" fn (lbk_\w+)\((.*?)\)(?: -> (\w+))?\s*(?:ensures|\{)', re.S)
DECLARED = re.compile(r"^(\w+) (lbk_\w+)\(([^;{]*)\);", re.M)


def sources(crates):
    """The texts of all source files of these crates."""
    return [path.read_text() for path in sorted(TOP.glob(f"crates/{crates}/src/**/*.rt"))]


def header_type(name):
    """The header's name of a type of the code."""
    if name in CODE_TYPES:
        return CODE_TYPES[name]
    return "lbk_" + TYPES.get(name, re.sub(r"(?<=.)(?=[A-Z])", "_", name).lower())


def numbers():
    """Pairs of a name of the header and its value in specs/, as an expression."""
    for function, (file, named) in NUMBERS.items():
        found = re.findall(rf"^{function} (\w+) = ([\d *+]+)$", (TOP / "crates" / file).read_text(), re.M)
        for name, number in found:
            yield (named[name] if isinstance(named, dict) else named(name)), number
    for file, form, names in WITH_NUMBERS:
        found = re.search(form, (TOP / "crates" / file).read_text(), re.M)
        if not found:
            raise CannotRun(f"{file} has no line of the form {form}")
        yield from zip(names, found.groups())


def field(name, kind, structs):
    """The C declarations of a field; a struct without a type in the header is declared field by field."""
    lengths = ""
    while array := re.fullmatch(r"\[(.+); (\w+)\]", kind):
        kind, lengths = array[1], f"{lengths}[{array[2]}]"
    if kind in structs and kind not in CODE_TYPES and not is_in_header(kind):
        return [it for inner in structs[kind] for it in field(*inner, structs)]
    return [(name, f"{header_type(kind)} {name}{lengths};")]


def is_in_header(kind):
    """Whether the header has a type of this one of the code, and not of another with that name."""
    is_of_another = kind not in TYPES and header_type(kind).removeprefix("lbk_") in TYPES.values()
    return not is_of_another and f"}} {header_type(kind)};" in (TOP / "include/lbk.h").read_text()


def layout(name, fields, structs):
    """C that declares a struct of the code and holds it against the header's."""
    ours, theirs = f"of_{name}", header_type(name)
    parts = [part for it in fields for part in field(*it, structs)]
    yield f"typedef struct {{ {' '.join(text for _, text in parts)} }} {ours};"
    yield f"HOLDS(sizeof({ours}) == sizeof({theirs}));"
    for part, _ in parts:
        yield f"HOLDS(offsetof({ours}, {part}) == offsetof({theirs}, {part}));"
        yield f"HOLDS(sizeof((({ours} *)0)->{part}) == sizeof((({theirs} *)0)->{part}));"


def parameters(text):
    """The types of a call's parameters in C, as the code has them: a slice is a pointer and a size."""
    for name, kind in re.findall(r"(\w+): ([^,]+)", text):
        if name == "alloc":
            continue
        slice_of = re.fullmatch(r"&(mut )?\[(\w+)\]", kind)
        one = re.fullmatch(r"&(mut )?(\w+)", kind)
        const = "" if (slice_of or one or ["", "mut "])[1] else "const "
        if slice_of:
            yield from (f"{const}{'char' if slice_of[2] == 'u8' else header_type(slice_of[2])} *", "size_t")
        else:
            yield f"{const}{header_type(one[2])} *" if one else header_type(kind)


def calls(texts):
    """What the code exports: the type that each call returns, and those of its parameters."""
    return {
        name: (header_type(returned) if returned else "void", list(parameters(text)))
        for source in texts
        for name, text, returned in CALL.findall(source)
    }


def declared():
    """The same as the header declares it, where bytes are `char` or `void`."""
    found = {}
    for returned, name, text in DECLARED.findall((TOP / "include/lbk.h").read_text()):
        types = [re.sub(r"\s*\b\w+$", " ", it.strip()).strip() for it in text.split(",")] if text != "void" else []
        found[name] = returned, [it.replace("void", "char") for it in types]
    return found


def run(tally, _arguments):
    texts = sources("lbk_*")
    structs = {name: FIELD.findall(text) for source in texts for name, text in STRUCT.findall(source)}
    constants = dict(pair for source in texts for pair in CONST.findall(source))
    ours = list(numbers())
    lines = ["#include <lbk.h>", "#ifdef __cplusplus", "#define HOLDS(it) static_assert(it, #it)", "#else"]
    lines += ["#define HOLDS(it) _Static_assert(it, #it)", "#endif"]
    lines += [f"enum {{ {name} = {constants[name].replace('_', '')} }};" for name in ("STEPS", "CODES")
        if name in constants]
    lines += [f"HOLDS({name} == {number});" for name, number in ours]
    lines += [f"HOLDS(LBK_LAYOUT == {constants['LAYOUT']});", "HOLDS(LBK_CODES == CODES);"]
    shared = {name: fields for name, fields in structs.items() if is_in_header(name)}
    for name, fields in shared.items():
        lines += layout(name, fields, structs)
    tally.tell("numbers and types are found", None if len(ours) > 50 and len(shared) > 10
        else f"{len(ours)}, {len(shared)}")
    with tempfile.TemporaryDirectory() as room:
        for compiler, ending in (("cc", "c"), ("c++", "cc")):
            source = Path(room) / f"holds.{ending}"
            source.write_text("\n".join([*lines, ""]))
            c_programs.build(source, Path(room) / "holds.o", "-c", "-I", TOP / "include", compiler=compiler)
            tally.tell(f"{sum('HOLDS(' in it for it in lines) - 2} numbers, sizes and offsets, compiled by {compiler}")
    in_code = VERSION.search((TOP / "crates/lbk_c/specs/Texts.antt").read_text())[1]
    in_header = dict(re.findall(r"^#define LBK_VERSION_?(\w*) (.*)$", (TOP / "include/lbk.h").read_text(), re.M))
    parts = ".".join(in_header[it] for it in ("MAJOR", "MINOR", "PATCH"))
    tally.equal("the version, and its parts", [in_header[""], parts], [f'"{in_code}"', in_code])
    exported = calls(sources("lbk_c"))
    for name, types in sorted(declared().items()):
        tally.equal(f"the types of {name}", types, exported.get(name))
    tally.equal("the calls", sorted(declared()), sorted(exported))
