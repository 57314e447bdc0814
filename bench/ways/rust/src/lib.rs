//! Breaks by the iterators of Rust crates: each function goes through all breaks of a text, cut into pieces of so many
//! bytes, adds up their places and kinds, and returns how many there are. The crate lbk has its table itself, and leaves
//! that of the other ways alone.

use lbk::{Breaker, Kind, Limits};
use std::{slice, str};
use unicode_linebreak::{linebreaks, BreakOpportunity};

/// # Safety
/// The text is as long as is said.
#[no_mangle]
pub unsafe extern "C" fn rust_texts(
    _table: *const u8,
    text: *const u8,
    size: usize,
    piece: usize,
    total: &mut usize,
) -> usize {
    let mut count = 0;
    for piece in slice::from_raw_parts(text, size).chunks(piece) {
        for found in Breaker::new().breaks_utf8(piece) {
            count += 1;
            *total = total.wrapping_add(found.at + 1 + (found.kind == Kind::Must) as usize);
        }
    }
    count
}

/// # Safety
/// The text is as long as is said, and each piece of it is UTF-8.
#[no_mangle]
pub unsafe extern "C" fn linebreak_texts(
    text: *const u8,
    size: usize,
    piece: usize,
    total: &mut usize,
) -> usize {
    let mut count = 0;
    for piece in slice::from_raw_parts(text, size).chunks(piece) {
        for (at, kind) in linebreaks(str::from_utf8_unchecked(piece)) {
            count += 1;
            *total = total.wrapping_add(at + 1 + (kind == BreakOpportunity::Mandatory) as usize);
        }
    }
    count
}

/// # Safety
/// The text is as long as is said.
#[no_mangle]
pub unsafe extern "C" fn rust_words(
    _table: *const u8,
    text: *const u8,
    size: usize,
    _none: usize,
    total: &mut usize,
) -> usize {
    let mut count = 0;
    for found in lbk::word_ranges(slice::from_raw_parts(text, size)) {
        count += 1;
        *total = total.wrapping_add(found.end);
    }
    count
}

/// # Safety
/// The text is as long as is said, and UTF-8.
#[no_mangle]
pub unsafe extern "C" fn rust_passages(
    _table: *const u8,
    text: *const u8,
    size: usize,
    _none: usize,
    total: &mut usize,
) -> usize {
    let mut count = 0;
    for found in lbk::paragraphs(str::from_utf8_unchecked(slice::from_raw_parts(text, size))) {
        count += lbk::segments(found.text).count();
        *total = total.wrapping_add(found.start);
    }
    count
}

/// # Safety
/// The text is as long as is said, and UTF-8.
#[no_mangle]
pub unsafe extern "C" fn rust_chunks(
    _table: *const u8,
    text: *const u8,
    size: usize,
    overlap: usize,
    total: &mut usize,
) -> usize {
    let text = str::from_utf8_unchecked(slice::from_raw_parts(text, size));
    let mut count = 0;
    for found in lbk::chunks(text, Limits::new(500).overlap(overlap)) {
        count += 1;
        *total = total.wrapping_add(found.start);
    }
    count
}
