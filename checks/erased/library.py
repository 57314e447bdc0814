"""The calls of the packages beside those of the proved library: texts, tables and states are drawn, and digests compared."""

import os
import shutil
import subprocess

from checks.erased import older
from checks.harness import TOP, CannotRun, has

TWINS = TOP / "checks/erased/twins"
POSITIONS = 5_000_000
# How the packages are built: what it is, words for rustc, and the profile.
FORMS = [
    ("x86-64-v2", "-Ctarget-cpu=x86-64-v2", "release"),
    ("plain x86-64", "", "release"),
    ("no vectors", "--cfg plain", "release"),
    ("with overflow checks", "", "checked"),
]
# What makes of the lanes those of a processor without SSE4.1, in which a look-up of bytes or a choice ends the program.
LACKING = [
    ("__cpuid(1) }.ecx >> 19 & 1;", "__cpuid(1) }.ecx >> 19 & 0;"),
    ('"pshufb {0}, {1}"', '"ud2 # {0} {1}"'),
    ('"pblendvb {0}, {1}, xmm0"', '"ud2 # {0} {1}"'),
]
# Texts of which parts are taken; others are drawn.
TEXTS = ["README.md", "docs/guide.md", "docs/rattle.md", "page/characters.js", "page/examples.js"]


def seed():
    """A number that each commit has of its own."""
    named = subprocess.run(["git", "rev-parse", "HEAD"], cwd=TOP, capture_output=True, text=True, check=True).stdout
    return int(named[:12], 16)


def workspace(room, folder):
    """A copy of the packages, with the program that compares beside them."""
    work = room / "twins"
    shutil.copytree(folder, work, ignore=shutil.ignore_patterns("target"))
    shutil.copytree(TWINS, work / "twins")
    manifest = work / "Cargo.toml"
    manifest.write_text(manifest.read_text(encoding="utf-8").replace("members = [", 'members = ["twins", '), encoding="utf-8")
    # (the program calls the symbols of `lbk-c`, and has the crate `lbk` too)
    manifest = work / "lbk-c/Cargo.toml"
    text = manifest.read_text(encoding="utf-8").replace('[lib]\nname = "lbk"', '[lib]\nname = "lbk_c"')
    manifest.write_text(text.replace('crate-type = ["staticlib", "cdylib"]', 'crate-type = ["rlib"]'), encoding="utf-8")
    return work


def built(work, feature, flags, profile, *words, cargo="cargo", env=None):
    """The program over the proved library or the erased ones, built in this way."""
    words = ["build", "--offline", "--quiet", "--profile", profile, "-p", "twins", "--features", feature, *words]
    env = {**os.environ, "RUSTFLAGS": flags, "CARGO_TARGET_DIR": str(work / f"{feature}{flags}{profile}".replace(" ", "")),
        **(env or {})}
    ran = subprocess.run([cargo, *words], cwd=work, capture_output=True, env=env, check=False)
    if ran.returncode != 0:
        raise CannotRun(ran.stderr.decode(errors="replace")[-3000:])
    return env["CARGO_TARGET_DIR"], profile


def without_sse41(work):
    """The packages, as they run on a processor without SSE4.1."""
    for path in work.glob("*/src/simd.rs"):
        text = path.read_text(encoding="utf-8")
        for old, new in LACKING:
            if text.count(old) != 1:
                raise CannotRun(f"{old!r} stands {text.count(old)} times in {path}")
            text = text.replace(old, new)
        path.write_text(text, encoding="utf-8")
    return work


def told(words, number, positions):
    """What the program writes."""
    texts = [TOP / it for it in TEXTS]
    ran = subprocess.run([*words, str(number), str(positions), *texts], capture_output=True, text=True, check=False)
    return ran.stdout.splitlines() if ran.returncode == 0 else [ran.stderr[-2000:]]


def difference(got, wanted):
    """Where two outputs first differ, or None."""
    for one, other in zip(got, wanted, strict=False):
        if one != other:
            return f"{one}, not {other}"
    return None if len(got) == len(wanted) and wanted else f"{len(got)} lines, not {len(wanted)}"


def try_form(tally, program, name, number, positions, wanted):
    """The positions of a program beside those of the proved library."""
    tally.tell(f"{name}: {positions} positions from {number}", difference(told([program], number, positions), wanted))


def try_narrow(tally, work, reference, number, positions):
    """The same on a target of 32 bits, wasm32, by Debian's rustc and Node."""
    if not older.version() or not has("node") or not older.has_target("wasm32-wasi"):
        tally.leave_out("32 bits, which need Debian's packages rustc, cargo, libstd-rust-dev-wasm32 and nodejs")
        return
    older.fit(work)
    folder, _ = built(work, "erased", "", "release", "--target", "wasm32-wasi", cargo=older.CARGO, env=older.settings())
    (work / "wasi.mjs").write_text(older.WASI, encoding="utf-8")
    words = ["node", "--no-warnings", work / "wasi.mjs", f"{folder}/wasm32-wasi/release/twins.wasm"]
    wanted = told([reference], f"{number}/32", positions)
    tally.tell(f"32 bits: {positions} positions from {number}", difference(told(words, f"{number}/32", positions), wanted))


def run(tally, room, folder, positions):
    """Compares each form with the proved library over so many positions."""
    subprocess.run([TOP / "scripts/prove", "lbk_c"], check=True)
    subprocess.run([TOP / "scripts/build-library", room / "proved"], check=True, stdout=subprocess.DEVNULL)
    work = workspace(room, folder)
    made, profile = built(work, "proved", "", "release", env={"LBK_LIB_DIR": str(room / "proved/lib")})
    reference, number = f"{made}/{profile}/twins", seed()
    wanted = told([reference], number, positions)
    for name, flags, profile in FORMS:
        made, profile = built(work, "erased", flags, profile)
        try_form(tally, f"{made}/{profile}/twins", name, number, positions, wanted)
    made, profile = built(without_sse41(workspace(room / "lacking", folder)), "erased", "", "release")
    try_form(tally, f"{made}/{profile}/twins", "a processor without SSE4.1", number, positions, wanted)
    try_narrow(tally, work, reference, number, positions)
