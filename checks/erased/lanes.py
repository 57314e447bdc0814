"""The lanes beside plain arrays, over all bytes, in each form of a build, without SSE4.1, and with valgrind."""

import json
import os
import subprocess

from checks.erased.library import FORMS
from checks.harness import CannotRun, has


def built(folder, flags):
    """The program of the tests of the lanes, built in this way."""
    env = {**os.environ, "RUSTFLAGS": flags, "CARGO_PROFILE_DEV_OPT_LEVEL": "1"}
    words = ["cargo", "test", "--offline", "-p", "lbk", "--test", "lanes", "--no-run", "--message-format", "json"]
    words += ["--target-dir", f"{folder}/target/lanes{flags}".replace(" ", "")]
    ran = subprocess.run(words, cwd=folder, capture_output=True, text=True, env=env, check=False)
    if ran.returncode != 0:
        raise CannotRun(ran.stderr[-3000:])
    told = map(json.loads, ran.stdout.splitlines())
    return next(it["executable"] for it in told if it.get("executable") and it["target"]["name"] == "lanes")


def try_lanes(tally, name, words):
    ran = subprocess.run(words, capture_output=True, text=True, check=False)
    is_right = ran.returncode == 0 and "test result: ok. 8 passed" in ran.stdout
    tally.tell(f"lanes: {name}", None if is_right else (ran.stdout + ran.stderr)[-3000:])


def run(tally, folder):
    for name, flags, profile in FORMS:
        if profile == "release":
            try_lanes(tally, name, [built(folder, flags)])
    plain = built(folder, "")
    if has("qemu-x86_64"):
        try_lanes(tally, "a processor without SSE4.1", ["qemu-x86_64", "-cpu", "qemu64", plain])
    else:
        tally.leave_out("lanes without SSE4.1 (Debian's package qemu-user)")
    if has("valgrind"):
        try_lanes(tally, "valgrind", ["valgrind", "--quiet", "--error-exitcode=9", plain, "--test-threads", "1"])
    else:
        tally.leave_out("lanes under valgrind (Debian's package valgrind)")
