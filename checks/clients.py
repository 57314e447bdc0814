"""Other people's programs, unchanged, over the drop-ins: where libass wraps lines, and textwrap's tests.

It is not part of the gate, because apt-get fetches the source of libass, by a list of its own in a temporary folder. In
addition to what c-library needs, it needs Debian's packages libfribidi-dev, libfreetype-dev, libharfbuzz-dev, nasm,
fonts-dejavu-core, librust-textwrap-dev and librust-termion-dev.
"""

import os
import re
import shutil
import subprocess
import tempfile
from pathlib import Path

from checks.harness import TOP, built_program, has

FONT = Path("/usr/share/fonts/truetype/dejavu/DejaVuSans.ttf")
CRATES = Path("/usr/share/cargo/registry")
KEYS = "/usr/share/keyrings/debian-archive-keyring.gpg"
# `\N` is how libass reads a line feed.
LINES = [
    "The price is $5 (or 4.50 EUR/kg), see p. 7:\\N“quote” and well-known e-mail.",
    "Où est-il ? « Ici », dit-elle ; c’est à 15 % près !",
    "Das Straßen-Café „Zum Löwen“ öffnet um 10:30 Uhr, nicht wahr?",
    "¿Dónde está? ¡Aquí! El 3,5 % no es mucho…",
    "Он сказал: «Нет — это № 5», и ушёл из-за дождя.",
    "日本語の文章は、どこでも改行できる。ただし「括弧」や小さい「ッ」は別だ。",
    "中文文本可以在大多数字符之间换行，但标点符号“除外”。",
    "한국어는 띄어쓰기가 있고, (괄호)와 쉼표도 있다.",
    "हिन्दी में पंक्ति शब्दों के बीच टूटती है।",
    'שלום, עולם! מחיר: 5 ש"ח (בערך).',
    "مرحبا بالعالم، السعر 5٫50 دينار (تقريبا)؟",
    "Ελληνικά: «γειά σου», κόσμε· 100 € ή λιγότερα;",
]


def done(words, log, **options):
    """Whether a command ended with status 0. What it wrote is in the log."""
    with open(log, "ab") as out:
        ran = subprocess.run(list(map(str, words)), stdin=subprocess.DEVNULL, stdout=out, stderr=out, check=False,
            **options)
    return ran.returncode == 0


def last_lines(path):
    return "\n".join(path.read_text(encoding="utf-8", errors="replace").splitlines()[-12:])


def fetched(room):
    """The folder of libass out of Debian's source package, or None where it cannot be had."""
    lists = room / "sources.list"
    lists.write_text(f"deb-src [signed-by={KEYS}] http://deb.debian.org/debian bookworm main\n", encoding="utf-8")
    for folder in ("lists/partial", "cache/archives/partial", "source"):
        (room / folder).mkdir(parents=True)
    apt = ["apt-get", "-q", "-o", f"Dir::Etc::sourcelist={lists}", "-o", "Dir::Etc::sourceparts=/dev/null", "-o",
        f"Dir::State::lists={room}/lists", "-o", f"Dir::Cache={room}/cache", "-o", "APT::Sandbox::User=root"]
    log = room / "log"
    if done([*apt, "update"], log) and done([*apt, "source", "libass"], log, cwd=room / "source"):
        return next((it for it in (room / "source").iterdir() if it.is_dir()), None)
    return None


def wanted_breaks(line):
    """The breaks inside of a line by `lbk segment`: the scalars before each, and whether the line must end there."""
    text = line.replace("\\N", "\n").encode()
    ran = subprocess.run([built_program(), "segment", "--unicode", "15.0"], input=text, capture_output=True, check=True)
    found = re.findall(rb"^S \d+ (\d+) (\w+)", ran.stdout, re.M)
    return {(len(text[: int(at)].decode()), kind == b"Must") for at, kind in found if int(at) < len(text)}


def built_wraps(room, prefix, source, paths):
    """Builds the drop-in, libass over it, and checks/c/wraps.c. Returns which step failed, or None."""
    program = 'cc -O2 -Wall -Wextra "$0" $(pkg-config --static --cflags --libs libass) -o "$1"'
    options = ["--quiet", "--disable-fontconfig", "--disable-require-system-font-provider", "--enable-libunibreak",
        "--disable-shared"]
    steps = [
        ([TOP / "packages/unibreak/build", room / "unibreak"], TOP),
        (["./configure", *options, f"--prefix={prefix}"], source),
        (["make", "--silent", "install"], source),
        (["sh", "-c", program, TOP / "checks/c/wraps.c", room / "wraps"], TOP),
    ]
    log = room / "libass.log"
    return next((f"{words[0]}: {last_lines(log)}" for words, folder in steps if not done(words, log, env=paths,
        cwd=folder)), None)


def try_libass(tally, room, prefix):
    """libass has to wrap each line where `lbk segment` has a break, and in some frame at each of them."""
    headers = [it for it in ("harfbuzz", "fribidi", "freetype2") if done(["pkg-config", "--exists", it], room / "log")]
    if len(headers) < 3 or not FONT.exists() or not has("apt-get", "nasm", "make"):
        tally.leave_out(f"libass, which needs nasm, make, {FONT} and the headers of harfbuzz, fribidi and freetype2")
        return
    source = fetched(room)
    if source is None:
        tally.leave_out("libass, whose source apt-get cannot fetch")
        return
    drop_in = room / "unibreak/lib"
    paths = {**os.environ, "PKG_CONFIG_PATH": f"{prefix}/lib/pkgconfig:{drop_in}/pkgconfig",
        "LD_LIBRARY_PATH": str(drop_in)}
    if not tally.tell(f"{source.name} is built over the drop-in", built_wraps(room, prefix, source, paths)):
        return
    ran = subprocess.run([room / "wraps", FONT], input="\n".join(LINES).encode(), capture_output=True, env=paths,
        check=True)
    found = re.findall(r"^(\d+) (\d+)( forced)?$", ran.stdout.decode(), re.M)
    for number, line in enumerate(LINES, 1):
        wraps = {(int(at), bool(forced)) for of, at, forced in found if int(of) == number}
        tally.equal(f"where it wraps: {line}", sorted(wraps), sorted(wanted_breaks(line)))


def try_textwrap(tally, room):
    """The tests of textwrap, as Debian has it, have to pass over the crate in the place of unicode-linebreak."""
    packed = sorted(CRATES.glob("textwrap-*"))
    if not packed or not list(CRATES.glob("termion-*")) or not has("cargo"):
        tally.leave_out("textwrap, which needs cargo, and Debian's librust-textwrap-dev and librust-termion-dev")
        return
    folder, log, ours = room / "textwrap", room / "textwrap.log", TOP / "packages/linebreak"
    shutil.copytree(packed[-1], folder)
    manifest = folder / "Cargo.toml"
    # (it names a later termion than Debian has)
    text = re.sub(r'(termion\]\nversion = )"[^"]*"', r'\1"*"', manifest.read_text(encoding="utf-8"))
    manifest.write_text(f'{text}\n[patch.crates-io]\nunicode-linebreak = {{ path = "{ours}" }}\n', encoding="utf-8")
    (folder / ".cargo").mkdir()
    source = f'[source.crates-io]\nreplace-with = "debian"\n[source.debian]\ndirectory = "{CRATES}"\n'
    (folder / ".cargo/config.toml").write_text(source, encoding="utf-8")
    environment = {**os.environ, "CARGO_TARGET_DIR": str(room / "target")}
    is_done = done(["cargo", "test", "--offline"], log, cwd=folder, env=environment)
    text = log.read_text(encoding="utf-8", errors="replace")
    counts = [int(it) for it in re.findall(r"test result: ok\. (\d+) passed", text)]
    tally.tell(f"{packed[-1].name}: {sum(counts)} tests", None if is_done and sum(counts) > 0 else last_lines(log))
    tally.tell("they are over this crate", None if f"({ours})" in text else last_lines(log))


def run(tally, _arguments):
    with tempfile.TemporaryDirectory() as name:
        room = Path(name)
        prefix = room / "prefix"
        # (which says on standard error how far it is)
        subprocess.run([TOP / "scripts/prove", "lbk_c"], check=True)
        if not done([TOP / "scripts/install-library", prefix], room / "log"):
            tally.tell("install-library", last_lines(room / "log"))
            return
        os.environ["PKG_CONFIG_PATH"] = f"{prefix}/lib/pkgconfig"
        try_libass(tally, room, prefix)
        try_textwrap(tally, room)
