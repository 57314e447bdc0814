"""Long lines of a test file."""

ONE = "× 0061 ".encode()
DIVIDE = "÷".encode()
AGREES = b"T 1 1 0 0\n"
LENGTH = 25_000_000

# A name, the parts of a line, one of them repeated, the status, and the output.
LINES = [
    ("a comment", [b"#"], 0, b"T 0 0 0 0\n"),
    ("white space", [b" "], 0, b"T 0 0 0 0\n"),
    ("scalars that agree", [ONE, DIVIDE], 0, AGREES),
    ("digits", ["× ".encode(), b"0"], 3, b"R 1 7\nT 1 0 0 1\n"),
    ("marks only", ["×".encode()], 3, b"R 1 2\nT 1 0 0 1\n"),
]


def parts_of(parts, length):
    """The line of some length: its first part repeated and then its last, or its last part repeated after its first."""
    if len(parts) == 1:
        return [(parts[0], length)]
    if parts[0] == ONE:
        return [(ONE, length // len(ONE) * len(ONE)), (DIVIDE, len(DIVIDE))]
    return [(parts[0], len(parts[0])), (parts[1], length)]


def run(hostile):
    for name, parts, status, text in LINES:

        def fits(ran, _length, status=status, text=text):
            return ran.fault(status) or (None if ran.front == text else f"it wrote {ran.front[:60]}")

        of = lambda length, parts=parts: parts_of(parts, length)
        hostile.grows(f"replay, one line of {name}", hostile.words("replay"), of, LENGTH, fits)
