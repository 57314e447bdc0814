"""The packages with Rust alone: no kit, no sources of this project, no file of Unicode. What cargo says of them, and the tests
of textwrap over the crate that replaces unicode-linebreak."""

import os
import re
import shutil
import subprocess

from checks.harness import TOP, has

# In a namespace of its own these folders are empty.
HIDDEN = ["/usr/share/unicode", str(TOP)]
HIDE = 'for folder in $HIDDEN; do [ ! -d "$folder" ] || mount -t tmpfs none "$folder" || exit; done; exec "$@"'
CRATES = "/usr/share/cargo/registry"
CLIPPY = ("clippy", "--all-targets")
NO_WARNINGS = ("--", "-Dwarnings")
COMMANDS = [
    ("test", "--workspace"),
    ("test", "-p", "lbk", "--features", "tables"),
    ("test", "-p", "lbk", "--no-default-features", "--lib", "--tests"),
    (*CLIPPY, "--workspace", *NO_WARNINGS),
    (*CLIPPY, "-p", "lbk", "--features", "tables", *NO_WARNINGS),
    ("clippy", "-p", "lbk", "--no-default-features", *NO_WARNINGS),
    ("doc", "--workspace", "--no-deps"),
    ("doc", "-p", "lbk", "--no-deps", "--features", "tables"),
    ("package", "--allow-dirty", "-p", "lbk", "-p", "unicode-linebreak"),
    ("package", "--allow-dirty", "-p", "lbk-cli", "-p", "lbk-c"),
]


def hidden():
    """The words before a command that sees neither the kit nor this project; None where no namespace can be made."""
    kit = shutil.which("rt")
    folders = [*HIDDEN, *([os.path.dirname(os.path.dirname(os.path.realpath(kit)))] if kit else [])]
    for options in ("-m", "-rm"):
        words = ["unshare", options, "env", f"HIDDEN={' '.join(folders)}", "sh", "-c", HIDE, "sh"]
        if has("unshare") and subprocess.run([*words, "true"], capture_output=True, check=False).returncode == 0:
            return words
    return None


def run_cargo(words, folder):
    """Runs cargo, behind the words that come first, and returns what it says, and the fault or None."""
    env = {**os.environ, "RUSTDOCFLAGS": "-Dwarnings", "CARGO_PROFILE_DEV_DEBUG": "0"}
    words = [*words[0], "cargo", words[1], "--offline", *words[2:]]
    ran = subprocess.run(words, cwd=folder, capture_output=True, text=True, env=env, check=False)
    return ran.stdout, None if ran.returncode == 0 else (ran.stdout + ran.stderr)[-3000:]


def copied(folder, room):
    """A copy of the packages, which may be published as soon as a licence is chosen."""
    work = room / "alone"
    shutil.copytree(folder, work, ignore=shutil.ignore_patterns("target"))
    for it in work.glob("*/Cargo.toml"):
        it.write_text(it.read_text(encoding="utf-8").replace("publish = false\n", ""), encoding="utf-8")
    return work


def run(tally, room, folder):
    bare = hidden()
    if bare is None:
        tally.leave_out("cargo with Rust alone, since unshare makes no mount namespace here (Debian's package util-linux)")
        return
    work = copied(folder, room)
    for words in COMMANDS:
        if words[0] == "clippy" and not has("cargo-clippy"):
            tally.leave_out(f"cargo {' '.join(words)} (Debian's package rust-clippy)")
            continue
        _, fault = run_cargo((bare, *words), work)
        tally.tell(f"alone: cargo {' '.join(words)}", fault)
    run_textwrap(tally, room, work)


def run_textwrap(tally, room, work):
    """The tests of textwrap, in which `[patch.crates-io]` names the crate of the packages."""
    found = [it for it in sorted(os.listdir(CRATES)) if it.startswith("textwrap-")] if os.path.isdir(CRATES) else []
    if not found or not any(it.startswith("termion-") for it in os.listdir(CRATES)):
        tally.leave_out("textwrap's tests (Debian's packages librust-textwrap-dev and librust-termion-dev)")
        return
    folder = room / "textwrap"
    shutil.copytree(f"{CRATES}/{found[-1]}", folder)
    (folder / ".cargo").mkdir()
    (folder / ".cargo/config.toml").write_text(
        f'[source.crates-io]\nreplace-with = "debian"\n[source.debian]\ndirectory = "{CRATES}"\n', encoding="utf-8")
    manifest = folder / "Cargo.toml"
    # (Debian has an older termion, with what the tests call)
    text = re.sub(r'(\.termion\]\nversion = )"[^"]*"', r'\1"*"', manifest.read_text(encoding="utf-8"))
    patch = f'\n[patch.crates-io]\nunicode-linebreak = {{ path = "{work}/unicode-linebreak" }}\n\n[workspace]\n'
    manifest.write_text(text + patch, encoding="utf-8")
    said, fault = run_cargo(([], "test", "--lib", "--tests"), folder)
    counts = [int(it) for it in re.findall(r"test result: ok\. (\d+) passed", said)]
    tally.tell(f"{found[-1]}: its {sum(counts)} tests over unicode-linebreak of the packages", fault if sum(counts) else fault or said)
    tree, fault = run_cargo(([], "tree", "--edges", "normal"), folder)
    tally.tell(f"{found[-1]}: lbk is what it uses", fault if "── lbk v" in tree else fault or tree)
