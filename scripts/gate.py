"""What `rt ci` proved: of a program by the results that it keeps next to the kit, for each crate the digests of its
files; of libraries, where the kit keeps nothing, by the files that it left.

The kit's own `rt`, imported as a module, computes the name of a crate's entry from the kit, HANDLES, the crate's line
and sources, and its dependencies as built. So an entry is found only if `rt ci` itself would accept it. Anything else,
such as a kit with another format, counts as no entry.
"""
import contextlib
import hashlib
import importlib.machinery
import importlib.util
import io
import json
import os
import shutil
import stat
from pathlib import Path
from types import SimpleNamespace


def proved(top, name):
    """The name of the entry for a program's present sources, and the SHA-256 digest of the program; or None."""
    try:
        with contextlib.redirect_stderr(io.StringIO()):
            return find(read_rt(), os.path.realpath(top), name)
    # (any code of another kit may run here, and stop in any way)
    except (Exception, SystemExit):
        return None


def label_libraries(top, names, began):
    """Labels the libraries that `rt ci` left as built of the present sources, so that other commands of `rt` take them.
    Returns whether it did.

    Kits before 13f leave them without a label, as a library fits only those that it was built over. So all must have
    been made since `rt ci` began, at this time in nanoseconds: those of earlier checks, which may be of other sources,
    it puts back when it ends."""
    try:
        rt = read_rt()
        libraries = [it for it in rt.rtlib.crates_below(os.path.realpath(top)) if it.name in names]
        labels = [Path(it.folder, "out/rlib/stamp") for it in libraries]
        is_old = any(os.stat(it.rlib).st_mtime_ns < began for it in libraries)
        if hasattr(rt, "STORE") or is_old or any(it.exists() for it in labels):
            return False
        for it, label in zip(libraries, labels):
            label.write_text(it.stamp(), encoding="utf-8")
        return True
    except (Exception, SystemExit):
        return False


def read_rt():
    """The kit's command `rt` as a module."""
    loader = importlib.machinery.SourceFileLoader("rt", os.path.realpath(shutil.which("rt")))
    module = importlib.util.module_from_spec(importlib.util.spec_from_loader("rt", loader))
    loader.exec_module(module)
    return module


def find(rt, top, name):
    store = os.lstat(rt.STORE)
    if not stat.S_ISDIR(store.st_mode) or store.st_uid != os.geteuid() or store.st_mode & 0o077:
        return None
    rt.Crate.allowed = rt.handles_of(top)
    program = next(it for it in rt.crates_of(top) if it.name == name)
    kept = SimpleNamespace(at=rt.STORE, rlibs={})
    for crate in [*program.below(), program]:
        key = rt.Kept.key(kept, crate)
        entry = rt.Kept.place(kept, crate, False, key)
        with open(f"{entry}/made.json", encoding="utf-8") as it:
            made = json.load(it)
        files = [(path, digest) for path, digest in made["files"]]
        if made["key"] != key:
            return None
        # (as `rt` notes the sum of a library for the keys of those above)
        kept.rlibs[crate.name] = hashlib.sha256(repr(files).encode()).hexdigest()
    return os.path.basename(entry), dict(files)[name]
