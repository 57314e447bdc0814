"""Arguments of each number, each option by what it decides, and what is said of mistakes."""

from checks.files_and_pipes.place import CATEGORY, LIMIT, LINE_BREAK, words_of
from checks.program import run as run_program
from checks.unicode_files import OPTIONS

AB = "× 0061 × 0062 !\t# 2 28 3\n".encode()


TWICE = "the argument '{}' cannot be used multiple times"
INVALID = "invalid value '{}' for '{}': {}"
VALUE = "a value is required for '{}' but none was supplied"
UNEXPECTED = "unexpected argument '{0}' found\n\n  tip: to pass '{0}' as a value, use '-- {0}'"
NUMBERS = """
Numbers are decimal digits: --limit 1 to 16777216, --from and --to 0 to
4294967295, --profile 1 or 2.
"""
NUMBERS_OF_MARK = """
Numbers are decimal digits: --limit 1 to 16777216, perhaps in K (1024) or M
(1048576), --from and --to 0 to 4294967295, --profile 1 or 2.
"""
NUMBERS_OF_CHUNKS = """
Numbers are decimal digits: --most and --limit 1 to 16777216, --least and
--overlap 0 to 16777216, perhaps in K (1024) or M (1048576), --words 1 to
16777216, --from and --to 0 to 4294967295, --profile 1 or 2.
"""
NUMBERS_OF = {"mark": NUMBERS_OF_MARK, "chunk": NUMBERS_OF_CHUNKS}
LIMIT_OPTION, FROM_OPTION = "--limit <NUMBER>", "--from <BYTE>"
SIGN = "--sign <TEXT> must be 1 to 8 bytes of UTF-8 without a line end"

# The way that the usage shows, of the subcommands that need one.
WAYS = dict.fromkeys(("show", "segment", "replay"), " --unicode 15.0")
# Arguments behind those that name the files, and what is said of them, as the library clap words it for Rust; whether
# the usage follows.
MISTAKES = [
    ("show", "--limit 9 --limit 9", TWICE.format(LIMIT_OPTION), True),
    ("mark", "--profile 1 --profile=2", TWICE.format("--profile <NUMBER>"), True),
    ("segment", "--emoji M", TWICE.format("--emoji <FILE>"), True),
    ("replay", "--kinds --kinds", TWICE.format("--kinds"), True),
    ("mark", "--limit 16777217", INVALID.format("16777217", LIMIT_OPTION, "16777217 is not in 1..=16777216"), False),
    ("show", "--limit=0", INVALID.format("0", LIMIT_OPTION, "0 is not in 1..=16777216"), False),
    ("show", "--limit=", INVALID.format("", LIMIT_OPTION, "cannot parse integer from empty string"), False),
    ("show", "--limit １", INVALID.format("１", LIMIT_OPTION, "invalid digit found in string"), False),
    ("mark", "--from 4294967296", INVALID.format("4294967296", FROM_OPTION, "4294967296 is not in 0..=4294967295"),
        False),
    ("segment", "--limit", VALUE.format(LIMIT_OPTION), False),
    ("replay", "--ucd", VALUE.format("--ucd <FOLDER>"), False),
    ("mark", "--names --names", TWICE.format("--names"), True),
    ("segment", "--names=1", "unexpected value '1' for '--names' found; no more were expected", True),
    ("replay", "--kinds=1", "unexpected value '1' for '--kinds' found; no more were expected", True),
    ("replay", "--from 1", UNEXPECTED.format("--from"), True),
    ("mark", "--from -1", UNEXPECTED.format("-1"), True),
    ("segment", "--limit 64K", INVALID.format("64K", LIMIT_OPTION, "invalid digit found in string"), False),
    ("show", "--limit=1e6", INVALID.format("1e6", LIMIT_OPTION, "invalid digit found in string"), False),
    ("mark", "--limit -1", UNEXPECTED.format("-1"), True),
    ("mark", "--no\x1b[1m", UNEXPECTED.format("--no\\u{1b}[1m"), True),
    ("mark", "--from=\u2066\u061c1", INVALID.format("\\u{2066}\\u{61c}1", FROM_OPTION, "invalid digit found in string"),
        False),
    ("mark", "--version", UNEXPECTED.format("--version"), True),
    ("segment", "-é", UNEXPECTED.format("-é"), True),
    ("show", "--from 5 --to 4", "--from <BYTE> is greater than --to <BYTE>", True),
    ("mark", "--sign ninebytes", SIGN, True),
    ("mark", "--sign=", SIGN, True),
    ("segment", "--sign +", UNEXPECTED.format("--sign"), True),
    ("show", "--limit 64k", INVALID.format("64k", LIMIT_OPTION, "invalid digit found in string"), False),
    ("mark", "--limit 17M", INVALID.format("17M", LIMIT_OPTION, "17M is not in 1..=16777216"), False),
    ("mark", "--limit K", INVALID.format("K", LIMIT_OPTION, "cannot parse integer from empty string"), False),
    ("mark", "--limit 1KK", INVALID.format("1KK", LIMIT_OPTION, "invalid digit found in string"), False),
    ("chunk", "--most 4G", INVALID.format("4G", "--most <NUMBER>", "invalid digit found in string"), False),
    ("chunk", "--most 4096M", INVALID.format("4096M", "--most <NUMBER>", "4096M is not in 1..=16777216"), False),
    ("chunk", "--most 4 --least 20m", INVALID.format("20m", "--least <NUMBER>", "20m is not in 0..=16777216"), False),
    ("chunk", "--most 4 --overlap x", INVALID.format("x", "--overlap <NUMBER>", "invalid digit found in string"), False),
    ("chunk", "--words 1K", INVALID.format("1K", "--words <NUMBER>", "invalid digit found in string"), False),
    ("chunk", "--most 0", INVALID.format("0", "--most <NUMBER>", "0 is not in 1..=16777216"), False),
    ("chunk", "--words=1e6", INVALID.format("1e6", "--words <NUMBER>", "invalid digit found in string"), False),
    ("chunk", "--most 4 --overlap -1", UNEXPECTED.format("-1"), True),
    ("chunk", "--most 4 --least 5", "--least <NUMBER> is greater than --most <NUMBER>", True),
    ("chunk", "--most 5 --overlap 3", "--overlap <NUMBER> is more than half of --most <NUMBER>", True),
]


def mistakes(place):
    """Each kind of mistake, and operands that look like options, which are none behind `--`."""
    for task, more, told, has_usage in MISTAKES:
        most = " --most <NUMBER>" if task == "chunk" else ""
        usage = f"\nUsage: lbk {task}{WAYS.get(task, '')}{most} [OPTIONS] [FILE]...\n" if has_usage else ""
        hint = NUMBERS_OF.get(task, NUMBERS) if told.startswith("invalid value") or "'-1'" in told else ""
        err = f"lbk: {told}\n{usage}\nFor more information, try '--help'.\n{hint}".encode()
        place.row(f"{task} {more}", words_of(task, more=more.split()), b"ab", 2, b"", err)
    place.write("--limit", b"a a")
    err = "lbk: --help: cannot be read: no such file\nlbk: -é: cannot be read: no such file\n".encode()
    operands = ["--", "--limit", "--help", "-é", "-"]
    place.row("mark: operands behind --", words_of("mark", more=operands), b"in", 1, "a ÷a\nin\n".encode(), err)
    for task in ((), ("mark",), ("show",), ("segment",), ("replay",)):
        text = run_program([place.program, *task, "--help"]).out
        for words in ([*task, "-h"], ["help", *task]):
            place.row(" ".join(words), words, b"ab", 0, text)
    version = run_program([place.program, "--version"]).out
    place.row("-V", ["-V"], b"ab", 0, version)


def accepted(task, number):
    """Arguments of this number that are accepted: some options with their values in one, the later ones in two."""
    values = list(zip(OPTIONS, "LECM"))
    for more in ([], [("--limit", "9")], [("--limit", "9"), ("--profile", "2")]):
        options = values + more
        apart = number - 1 - len(options)
        if 0 <= apart <= len(options):
            joined = len(options) - apart
            words = [f"{option}={value}" for option, value in options[:joined]]
            return [task, *words, *(word for pair in options[joined:] for word in pair)]
    return None


def each_number(place):
    """Each number of arguments, those that are accepted and others."""
    missing_file = b"lbk: x: cannot be read: no such file\n"
    for task, out in (("show", AB), ("mark", b"ab\n")):
        usage = f"""lbk: property values are required: pass --unicode 15.0, the built-in ones,
or --ucd <FOLDER>, or each of
  --line-break <FILE>
  --east-asian <FILE>
  --category <FILE>
  --emoji <FILE>

Usage: lbk {task}{WAYS.get(task, "")} [OPTIONS] [FILE]...

For more information, try '--help'.
""".encode()
        for number in range(5, 14):
            place.row(f"{task}: {number} arguments that are accepted", accepted(task, number), b"ab", 0, out)
        help_text = run_program([place.program, task, "--help"]).out
        for number in range(3, 70):
            told = (2, usage) if task in WAYS else (1, missing_file * (number - 1))
            place.row(f"{task}: {number} arguments x", [task, *["x"] * (number - 1)], b"ab", told[0], b"", told[1])
            helped = [task, "--help", *["x"] * (number - 2)]
            place.row(f"{task}: --help and {number - 2} arguments", helped, b"ab", 0, help_text)
            if number > 13:
                given = [*accepted(task, 13), *["x"] * (number - 13)]
                place.row(f"{task}: {number} arguments, missing files", given, b"ab", 1, b"", missing_file * (number - 13))


def all_at_once(place):
    """All arguments at once; each option alone decides the output."""
    quoted = "a\u2019\u0301,".encode()
    place.write("Q", LINE_BREAK + b"002C;IS\n0301;CM\n2019;QU\n")
    place.write("F", CATEGORY + b"2019;Pf\n")
    names = ["Q", "E", "F", "M"]
    more = ["--limit", "4", "--profile", "2"]
    long = "lbk: standard input: byte 0: the paragraph that starts here has more than 4 bytes; "
    long += f"--limit allows up to {LIMIT}\n"
    shows = "× 0061 × 2019 × 0301 × 002C !\t# 2 15b 9 13 3\n".encode()
    for task, out in (("show", shows), ("mark", quoted + b"\n")):
        place.row(f"{task}: all arguments", words_of(task, names, more), quoted, 1, b"", long.encode())
        place.row(f"{task}: all in another order", [task, *more, *words_of("", names)[1:]], quoted, 1, b"",
            long.encode())
        for limit in ("7", "65536"):
            given = words_of(task, names, ["--limit", limit, "--profile", "2"])
            place.row(f"{task}: all arguments, limit {limit}", given, quoted, 0, out)
    line = "× 0061 × 2019 × 0301 × 002C !\n".encode()
    given = words_of("replay", names, ["--kinds", "--profile", "2"])
    place.row("replay: all arguments", given, line, 0, b"T 1 1 0 0\n")


def run(place):
    each_number(place)
    all_at_once(place)
    mistakes(place)
