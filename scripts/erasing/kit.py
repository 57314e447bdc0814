"""What stands for the names of Rattle's std, and of crates that are written by hand here, in the module `kit`."""

# Paths, and what they are in Rust. HERE is the module of the crate, `simd` the one beside it.
STANDS = {
    "std::alloc": "crate::kit",
    "std::array": "core::array",
    "std::cell": "core::cell",
    "std::char": "core::char",
    "std::cmp": "core::cmp",
    "std::collections": "crate::kit::collections",
    "std::convert::AsStr": "crate::kit::AsStr",
    "std::env": "crate::kit::env",
    "std::fmt": "core::fmt",
    "std::fs": "crate::kit::fs",
    "std::io": "crate::kit::io",
    "std::iter": "core::iter",
    "std::marker::PhantomData": "core::marker::PhantomData",
    "std::mem": "core::mem",
    "std::num": "core::num",
    "std::num::nearest_u64_to_f64": "crate::kit::nearest_u64_to_f64",
    "std::ops": "core::ops",
    "std::os": "crate::kit::os",
    "std::process": "crate::kit::process",
    "std::simd::Simd": "SIMD::Simd",
    "std::simd::prelude": "SIMD",
    "std::slice": "core::slice",
    "std::str": "core::str",
    "arrayvec": "crate::kit",
    "bstr::ByteSlice": "crate::kit::ByteSlice",
    "itoa": "crate::kit",
    "memchr": "crate::kit",
    "sha2": "crate::kit",
    "simdutf8": "crate::kit::simdutf8",
}
# Traits, and the import of all of `simd`, that are brought in for these names.
METHODS_OF = {
    "bstr::ByteSlice": {"find", "starts_with_str"},
    "std::convert::AsStr": {"as_str"},
    "std::env::Env": {"arg"},
    "std::io::IsTerminal": {"is_terminal"},
    "std::io::Read": {"read"},
    "std::io::Write": {"write", "flush"},
    "std::os::unix::fs::MetadataExt": {"dev", "ino"},
    "std::simd::prelude::*": {"u8x16", "Simd"},
}
# Names that Rattle has without an import.
PRELUDE = {name: f"use crate::kit::{name};" for name in ("Vec", "String", "Box", "HostRuntime")} | {
    "str::": "use core::str;"
}
# Methods that are of traits in Rust.
EXTENSIONS = {
    "collect_in": "use crate::kit::CollectIn;",
    "try_clone": "use crate::kit::TryClone;",
    "replace_in": "use crate::kit::ReplaceIn;",
    "write_char": "use core::fmt::Write as _;",
    # (older versions of std lack these)
    "as_flattened": "#[allow(unused_imports)]\nuse crate::kit::AsFlattened;",
    "floor_char_boundary": "#[allow(unused_imports)]\nuse crate::kit::FloorCharBoundary;",
    "trim_ascii_end": "#[allow(unused_imports)]\nuse crate::kit::TrimAsciiEnd;",
}
# Traits that only proofs need, and one that gives messages which no program prints. Their impls go.
GONE_TRAITS = {"std::marker::Model", "std::error::Error"}


def stands_for(path):
    """The path in Rust of a path of std or of a crate by hand; None where there is none."""
    for length in (3, 2, 1):
        front = STANDS.get("::".join(path[:length])) if len(path) >= length else None
        if front:
            return [*front.split("::"), *path[length:]]
    return None
