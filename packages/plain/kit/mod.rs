//! What the modules that are erased from proved sources use of Rattle's std and of its crates, over Rust's std and plain
//! code. It is written by hand, and trusted.

mod bytes;
mod digest;
mod files;
pub mod io;
mod later;
mod lists;
mod proved;
mod system;
mod texts;

pub use bytes::{memchr, ByteSlice};
pub use digest::Sha256;
pub use later::{AsFlattened, FloorCharBoundary, TrimAsciiEnd};
pub use lists::{
    collections, AllocError, AllocFailed, Allocator, Box, CollectIn, Global, TryClone, Vec,
};
pub use proved::{proved_scalar, proved_text};
pub use system::HostRuntime;
pub use texts::{
    nearest_u64_to_f64, simdutf8, write_digits, ArrayString, AsStr, Buffer, ReplaceIn, String,
};

pub mod fs {
    pub use super::files::{metadata, File, Metadata};
}

pub mod os {
    pub mod unix {
        pub mod fs {
            pub use crate::kit::files::MetadataExt;
        }
    }
}

pub mod env {
    pub use super::system::{args, Env};
}

pub mod process {
    pub use std::process::ExitCode;
}

macro_rules! format {
    (in $alloc:expr; $($arg:tt)+) => { $crate::kit::String::format($alloc, format_args!($($arg)+)) };
}
macro_rules! vec {
    (in $alloc:expr; $item:expr; $count:expr) => {
        $crate::kit::Vec::from_elem($alloc, $item, $count)
    };
}
macro_rules! print {
    ($rt:expr; $($arg:tt)+) => { $rt.print(format_args!($($arg)+)) };
}
macro_rules! eprint {
    ($rt:expr; $($arg:tt)+) => { $rt.eprint(format_args!($($arg)+)) };
}
macro_rules! eprintln {
    ($rt:expr; $($arg:tt)+) => { $rt.eprint(format_args!("{}\n", format_args!($($arg)+))) };
}
