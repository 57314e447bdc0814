"""Builds the package with the library in it:

    LBK_PREFIX=PREFIX python3 -m pip wheel --no-build-isolation --no-deps .

PREFIX is where scripts/install-library put include/lbk.h and lib/liblbk.a. Without it cargo builds
the library from the folder lbk-c, which a source distribution has. The wheel fits CPython from 3.11
on.
"""

import os
import re
import shutil
import subprocess
import sys
from pathlib import Path

from setuptools import Extension, setup
from setuptools.command.build_ext import build_ext
from setuptools.command.build_py import build_py

try:
    from wheel.bdist_wheel import bdist_wheel
except ImportError:  # (a build that makes no wheel)
    from setuptools import Command as bdist_wheel

CRATE = Path(__file__).resolve().parent / "lbk-c"
PREFIX = Path(os.environ["LBK_PREFIX"]).resolve() if "LBK_PREFIX" in os.environ else None
INCLUDE = (PREFIX or CRATE) / "include"
LIBRARY = PREFIX / "lib/liblbk.a" if PREFIX else CRATE / "target/release/liblbk.a"
if not (INCLUDE / "lbk.h").exists():
    raise SystemExit("set LBK_PREFIX to the folder that has include/lbk.h and lib/liblbk.a")
HEADER = (INCLUDE / "lbk.h").read_text(encoding="utf-8")
VERSION = re.search(r'^#define LBK_VERSION "([^"]+)"', HEADER, re.M)[1]
CALLS = Path("src", "calls")

# The classes of the package that are enumerations of lbk.h: a class, its base, the field that the
# enumeration's comment names, what its constants begin with, and its docstring.
CLASSES = (
    ("Rule", "Labelled", "rule", "LBK_RULE_",
        "A rule of UAX #14, section 6. As a str it is its label in the standard, as 8a."),
    ("File", "enum.IntEnum", "file", "LBK_", "Which of the four property files a `Fault` is in."),
    ("Cause", "enum.IntEnum", "cause", "LBK_CAUSE_",
        "Why a property file is refused. The text of a `Fault` says it in words."),
)


def constants(text):
    """The names of the constants in a part of the header."""
    return re.findall(r"^\s+(LBK_\w+) =", text, re.M)


def enumeration(field):
    """The part of the header with the constants of a field, as `lbk_break.kind`."""
    return re.search(rf"/\* lbk_\w+\.{field}\b(?:[^*]|\*(?!/))*\*/\s*enum \{{(.*?)\}};", HEADER, re.S)[1]


def numbers_module():
    """The source of the module that has the classes. Their numbers are those of the compiled
    module."""
    lines = ['"""Numbers of lbk.h. setup.py makes this module."""', "", "import enum", ""]
    lines += ["from . import _calls", "from ._labels import Labelled"]
    for name, base, field, begin, text in CLASSES:
        lines += ["", "", f"class {name}({base}):", f'    """{text}"""', ""]
        for constant in constants(enumeration(field)):
            if constant.startswith(begin):
                rest = constant.removeprefix(begin)
                member = "LB" + rest.lower() if name == "Rule" else rest
                lines.append(f"    {member} = _calls.{constant}")
    return "\n".join(lines) + "\n"


class BuildPy(build_py):
    def run(self):
        super().run()
        folder = Path(self.build_lib) / "lbk"
        folder.mkdir(parents=True, exist_ok=True)
        (folder / "_numbers.py").write_text(numbers_module(), encoding="utf-8")
        stub = (CALLS / "calls.pyi").read_text(encoding="utf-8") + "\n"
        (folder / "_calls.pyi").write_text(stub + "".join(f"{name}: int\n" for name in constants(HEADER)),
            encoding="utf-8")


class BuildExt(build_ext):
    def run(self):
        folder = Path(self.build_temp)
        folder.mkdir(parents=True, exist_ok=True)
        (folder / "constants.inc").write_text("".join(f'{{"{name}", {name}}},\n' for name in constants(HEADER)))
        self.include_dirs += [str(folder), str(INCLUDE)]
        if not PREFIX:
            subprocess.run(["cargo", "build", "--release", "--offline"], cwd=CRATE, check=True)
        super().run()


# The libraries that each Linux with glibc has, of those that a wheel for it may need (PEP 600).
SYSTEM = {"libc.so.6", "libm.so.6", "libpthread.so.0", "ld-linux-x86-64.so.2", "ld-linux-aarch64.so.1"}


def manylinux(library, platform):
    """The platform for a library as PEP 600 names it, by the version of glibc that it needs. Where that is not seen, or
    the library needs others, too, it is the one that is given."""
    if shutil.which("objdump") is None:
        return platform
    said = subprocess.run(["objdump", "-p", library], capture_output=True, text=True, check=True).stdout
    versions = re.findall(r"\bGLIBC_2\.(\d+)", said)
    if not versions or not set(re.findall(r"NEEDED\s+(\S+)", said)) <= SYSTEM:
        return platform
    return platform.replace("linux_", f"manylinux_2_{max(5, *map(int, versions))}_", 1)


class BdistWheel(bdist_wheel):
    def get_tag(self):
        python, abi, platform = super().get_tag()
        build = self.get_finalized_command("build_ext")
        (library,) = build.get_outputs()
        return python, abi, manylinux(library, platform) if os.path.exists(library) else platform


setup(
    version=VERSION,
    cmdclass={"build_py": BuildPy, "build_ext": BuildExt, "bdist_wheel": BdistWheel},
    # Made with the stable interface of CPython 3.11, and so for each later one.
    options={"bdist_wheel": {"py_limited_api": "cp311"}},
    ext_modules=[
        Extension(
            "lbk._calls",
            sources=[str(file) for file in sorted(CALLS.glob("*.c"))],
            depends=[str(file) for file in sorted(CALLS.glob("*.h"))] + ([str(LIBRARY)] if PREFIX else []),
            define_macros=[("Py_LIMITED_API", "0x030b0000")],
            py_limited_api=True,
            extra_compile_args=["-std=c11", "-O3", "-Wall", "-Wextra", "-Werror=implicit-function-declaration",
                "-fvisibility=hidden"],
            extra_objects=[str(LIBRARY)],
            extra_link_args=["-Wl,--exclude-libs,ALL"] if sys.platform == "linux" else [],
        )
    ],
)
