//! Finds where a line of text may end and where it must, by the Unicode Line Breaking Algorithm ([UAX #14], Unicode
//! 15.0); and a text's segments, paragraphs, words and chunks.
//!
//! ```
//! use lbk::Kind::{May, Must};
//!
//! let found: Vec<_> = lbk::breaks("See p. 7\nand 8").map(|found| (found.at, found.kind)).collect();
//! assert_eq!(found, [(4, May), (7, May), (9, Must), (13, May), (14, Must)]);
//!
//! for segment in lbk::segments("to be,\nor not") {
//!     println!("{:?} {:?} {}", segment.text, segment.kind, segment.rule);
//! }
//! // "to " May 18
//! // "be,\n" Must 5
//! // "or " May 18
//! // "not" Must 3
//! ```
//!
//! # Which call
//!
//! | You have, or want | Call |
//! |---|---|
//! | each place where a line may or must end | [`breaks`] |
//! | the text between them | [`segments`] |
//! | the text between line ends | [`paragraphs`] |
//! | a reason for each position, also where no line ends | [`positions`] |
//! | words, for search | [`words`] |
//! | pieces of a limited size, for an index | [`chunks`] |
//! | bytes, UTF-16, UTF-32, other rules for quotation marks | [`Breaker`] |
//! | a text that arrives in pieces, or a rope | [`Stream`] |
//! | to divide a text among threads | [`next_paragraph`] |
//! | to break only the end of a text that grows | [`Breaker::safe_break`] |
//! | the values of another Unicode | `Table` (feature `tables`) |
//!
//! # What it does not do
//!
//! It knows no widths, no grapheme clusters and no dictionaries: between the letters of a Thai, Lao, Khmer or Burmese
//! word run no line breaks (UAX #14 leaves these to others). Where not even one segment fits in a line, break between
//! grapheme clusters.
//!
//! The rules are those of the text of UAX #14. Of the 7,654 lines of Unicode's own break test 34 expect a tailoring of rule
//! LB25, which is not here; all others agree.
//!
//! # Costs
//!
//! Nothing is read or built when a program starts, and no call allocates or takes a lock. Any thread may call anything
//! at any time.
//!
//! # Features
//!
//! | Feature | What it adds |
//! |---|---|
//! | `std` (default) | [`Breaker::breaks_of_reader`]; errors are `std::error::Error` |
//! | `tables` | `Table`: the values of other files, in memory (`alloc`) |
//! | `proved` | the same calls by the proved library `liblbk.a`, which `build.rs` links (`std`, `alloc`) |
//!
//! Without features the crate is `no_std` and needs no allocator.
//!
//! # Proofs
//!
//! The sources are proved, in the language Rattle, to give the breaks of the first rule that matches, for `usize` of 64
//! bits. This crate is those sources without their contracts, compiled by rustc: it is not proved itself. It is compared
//! with the proved library over millions of positions. On targets of 32 bits it is tested, not proved. The feature
//! `proved` links the proved machine code itself, for x86-64 and 64-bit ARM under Linux; its table is made at the first
//! call.
//!
//! # Versions
//!
//! Rust 1.65; with `proved` 1.70. A later Unicode is a new minor version of the crate, and is told in the change log; the
//! answers of a patch version are those of the one before.
//!
//! [UAX #14]: https://www.unicode.org/reports/tr14/tr14-49.html
#![no_std]
#![deny(unsafe_code)]
#![warn(missing_docs, missing_debug_implementations)]
#![cfg_attr(docsrs, feature(doc_cfg))]

#[cfg(target_pointer_width = "16")]
compile_error!("lbk needs a `usize` of 32 bits or more");

#[cfg(all(feature = "tables", not(feature = "proved")))]
extern crate alloc;
#[cfg(any(feature = "std", feature = "proved", test))]
extern crate std;

#[forbid(unsafe_code)]
mod api;
mod engine;
#[cfg(not(feature = "proved"))]
#[allow(dead_code)]
mod kit;
#[cfg(not(feature = "proved"))]
#[allow(dead_code)]
mod simd;
#[cfg(feature = "proved")]
mod symbols;

/// Modules that are erased from the proved sources.
#[cfg(not(feature = "proved"))]
macro_rules! erased {
    ($($name:ident)*) => { $(
        #[forbid(unsafe_code)]
        #[allow(dead_code, unused, missing_docs, missing_debug_implementations, clippy::all)]
        mod $name;
    )* };
}
#[cfg(not(feature = "proved"))]
erased! { bstr bytes c calls chunks masks rules scalars streams uax14 ucd ucd_table units values words }

/// Whether callers of `simd` asked what the processor has. These do, where they take masks.
#[cfg(not(feature = "proved"))]
#[allow(dead_code)]
const ASKED_BEFORE: bool = true;

pub use api::*;

/// The version of Unicode of the breaks.
pub const UNICODE_VERSION: (u8, u8, u8) = (15, 0, 0);

/// The version of Unicode of the words.
pub const WORDS_UNICODE_VERSION: (u8, u8, u8) = (18, 0, 0);

/// The breaks of a text, in order. Each is between two characters, or at the end, which is the last one; an empty text
/// has none.
///
/// ```
/// let ends: Vec<usize> = lbk::breaks("may break").map(|found| found.at).collect();
/// assert_eq!(ends, [4, 9]);
/// ```
#[inline]
#[doc(alias = "linebreaks")]
pub fn breaks(text: &str) -> Breaks<'_> {
    Breaker::new().breaks(text)
}

/// All positions of a text, in order: one before each character and one at the end, each with the rule that decided.
///
/// ```
/// let why: Vec<String> = lbk::positions("a-b").map(|position| position.rule.to_string()).collect();
/// assert_eq!(why, ["2", "21", "31", "3"]);
/// ```
#[inline]
pub fn positions(text: &str) -> Positions<'_> {
    Breaker::new().positions(text)
}

/// The segments of a text between its breaks, in order. Joined, they are the text.
///
/// ```
/// let parts: Vec<&str> = lbk::segments("may break").map(|segment| segment.text).collect();
/// assert_eq!(parts, ["may ", "break"]);
/// ```
#[inline]
pub fn segments(text: &str) -> Segments<'_> {
    Breaker::new().segments(text)
}

/// The paragraphs of a text: it is cut after each required break. Joined, they are the text.
///
/// ```
/// let parts: Vec<&str> = lbk::paragraphs("one\r\ntwo\u{2029}").map(|paragraph| paragraph.text).collect();
/// assert_eq!(parts, ["one\r\n", "two\u{2029}"]);
/// ```
pub fn paragraphs(text: &str) -> Paragraphs<'_> {
    Breaker::new().paragraphs(text)
}

/// The words of a text, in order, each with its offset: the parts between word boundaries ([UAX #29]) that have a letter
/// or a number.
///
/// ```
/// let found: Vec<(usize, &str)> = lbk::words("So, 3 words.").collect();
/// assert_eq!(found, [(0, "So"), (4, "3"), (6, "words")]);
/// ```
///
/// [UAX #29]: https://www.unicode.org/reports/tr29/
#[inline]
#[doc(alias = "unicode_word_indices")]
pub fn words(text: &str) -> Words<'_> {
    Words { text, ranges: word_ranges(text.as_bytes()) }
}

/// The byte range of each word of a text, in order. Ill-formed bytes are read as by `String::from_utf8_lossy`.
#[inline]
pub fn word_ranges(text: &[u8]) -> WordRanges<'_> {
    WordRanges::new(text)
}

/// The text cut for search and retrieval, always at breaks outside words ([`words`]). Without overlap the chunks,
/// joined, are the text.
///
/// ```
/// let parts: Vec<&str> = lbk::chunks("one two. three four", lbk::Limits::new(12)).map(|chunk| chunk.text).collect();
/// assert_eq!(parts, ["one two. ", "three four"]);
/// ```
pub fn chunks(text: &str, limits: Limits) -> Chunks<'_> {
    Breaker::new().chunks(text, limits)
}

/// The first offset at or after `at` where a paragraph begins, or the text's length. See [`Breaker::next_paragraph`].
#[must_use]
pub fn next_paragraph(text: &str, at: usize) -> usize {
    Breaker::new().next_paragraph(text, at)
}

// What a program may rely on.
const _: () = {
    const fn shared<T: Send + Sync + Clone + core::fmt::Debug>() {}
    shared::<Breaks<'_>>();
    shared::<Segments<'_>>();
    shared::<Words<'_>>();
    shared::<Chunks<'_>>();
    shared::<Stream<'_>>();
    shared::<Breaker<'_>>();
};
