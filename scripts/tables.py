"""Tables as text of Rattle, for the scripts that write them."""

COLUMNS = 120


def array(name, item, numbers, per_line, form, is_constant=False):
    """A table of numbers, this many a line."""
    kind = "const" if is_constant else "static"
    lines = [f"#[rattlefmt::skip]\npub(crate) {kind} {name}: [{item}; {len(numbers)}] = [\n"]
    for at in range(0, len(numbers), per_line):
        lines.append("    " + ", ".join(form.format(it) for it in numbers[at : at + per_line]) + ",\n")
    return "".join([*lines, "];\n"])


def wrapped(name, item, entries):
    """A table of entries, as many a line as fit."""
    lines = [""]
    for entry in entries:
        if len(lines[-1]) + len(entry) + 2 > COLUMNS - 4:
            lines.append("")
        lines[-1] += entry + ", "
    body = "".join(f"    {line.rstrip()}\n" for line in lines)
    return f"#[rattlefmt::skip]\npub(crate) static {name}: [{item}; {len(entries)}] = [\n{body}];\n"
