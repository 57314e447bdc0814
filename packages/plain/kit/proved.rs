//! What the proofs say of values, and the compiler is told. A build with debug assertions tests it.
#![allow(unsafe_code)]

/// The text of bytes that are proved to be well-formed.
#[inline(always)]
pub fn proved_text(bytes: &[u8]) -> &str {
    debug_assert!(core::str::from_utf8(bytes).is_ok());
    // SAFETY: each caller is erased from a function in which it is proved.
    unsafe { core::str::from_utf8_unchecked(bytes) }
}

/// The scalar of a code that is proved to be one.
#[inline(always)]
pub fn proved_scalar(code: u32) -> char {
    debug_assert!(char::from_u32(code).is_some());
    // SAFETY: each caller is erased from a function in which it is proved.
    unsafe { char::from_u32_unchecked(code) }
}
