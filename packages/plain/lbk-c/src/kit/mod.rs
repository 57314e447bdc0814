//! What the modules that are erased from proved sources use of Rattle's std and of its crates, over Rust's std and plain
//! code. It is written by hand, and trusted.
#![allow(unused_imports)]

mod bytes;
mod digest;
mod later;
mod lists;
mod texts;

pub use bytes::{memchr, ByteSlice};
pub use digest::Sha256;
pub use later::{AsFlattened, TrimAsciiEnd};
pub use lists::{AllocError, Allocator, Global, Vec};
pub use texts::{write_digits, ArrayString, AsStr, Buffer, String};
