//! Line breakers and words of Rust, as calls of C. Each takes a text that is UTF-8, which is not looked at again, and
//! hands each break to nobody or to `found`: the byte that it stands before, and 1 for a break that may be or 2 for one
//! that must.

use std::{slice, str};
use unicode_linebreak::{linebreaks, BreakOpportunity};
use unicode_segmentation::UnicodeSegmentation;
use xi_unicode::LineBreakIterator;

type Found = extern "C" fn(usize, u8);

/// # Safety
/// The text is UTF-8, and as long as is said.
unsafe fn text<'a>(at: *const u8, size: usize) -> &'a str {
    str::from_utf8_unchecked(slice::from_raw_parts(at, size))
}

fn sum(breaks: impl Iterator<Item = (usize, u8)>, total: &mut usize) -> usize {
    let mut count = 0;
    for (at, kind) in breaks {
        count += 1;
        *total = total.wrapping_add(at + kind as usize);
    }
    count
}

fn xi(text: &str) -> impl Iterator<Item = (usize, u8)> + '_ {
    LineBreakIterator::new(text).map(|(at, is_hard)| (at, 1 + is_hard as u8))
}

fn linebreak(text: &str) -> impl Iterator<Item = (usize, u8)> + '_ {
    linebreaks(text).map(|(at, kind)| (at, 1 + (kind == BreakOpportunity::Mandatory) as u8))
}

/// How many breaks xi-unicode finds; their places and kinds are added to a total, so that all are computed.
///
/// # Safety
/// The text is UTF-8, and as long as is said.
#[no_mangle]
pub unsafe extern "C" fn xi_count(at: *const u8, size: usize, total: &mut usize) -> usize {
    sum(xi(text(at, size)), total)
}

/// How many breaks unicode-linebreak finds; their places and kinds are added to a total, so that all are computed.
///
/// # Safety
/// The text is UTF-8, and as long as is said.
#[no_mangle]
pub unsafe extern "C" fn linebreak_count(at: *const u8, size: usize, total: &mut usize) -> usize {
    sum(linebreak(text(at, size)), total)
}

/// Each break of xi-unicode.
///
/// # Safety
/// The text is UTF-8, and as long as is said.
#[no_mangle]
pub unsafe extern "C" fn xi_each(at: *const u8, size: usize, found: Found) {
    xi(text(at, size)).for_each(|(at, kind)| found(at, kind));
}

/// Each break of unicode-linebreak.
///
/// # Safety
/// The text is UTF-8, and as long as is said.
#[no_mangle]
pub unsafe extern "C" fn linebreak_each(at: *const u8, size: usize, found: Found) {
    linebreak(text(at, size)).for_each(|(at, kind)| found(at, kind));
}

/// How many words unicode-segmentation finds; their lengths are added to a total, so that all are computed.
///
/// # Safety
/// The text is UTF-8, and as long as is said.
#[no_mangle]
pub unsafe extern "C" fn segmentation_words(at: *const u8, size: usize, total: &mut usize) -> usize {
    sum(text(at, size).unicode_words().map(|word| (word.len(), 0)), total)
}
