//! What the modules that are erased from proved sources use of Rattle's std and of its crates. It is written by hand, and
//! trusted. Without the feature `tables` there is no memory, and each growth of a list is refused.

#[allow(dead_code)]
mod later;
#[cfg(feature = "tables")]
#[allow(dead_code, missing_debug_implementations, clippy::should_implement_trait)]
mod lists;
#[cfg(not(feature = "tables"))]
mod none;

#[allow(unused_imports)]
pub use later::{AsFlattened, TrimAsciiEnd};
#[cfg(feature = "tables")]
pub use lists::{AllocError, Global, Vec};
#[cfg(not(feature = "tables"))]
pub use none::{AllocError, Global, Vec};

/// The index of a byte in bytes.
pub fn memchr(byte: u8, bytes: &[u8]) -> Option<usize> {
    bytes.iter().position(|&one| one == byte)
}
