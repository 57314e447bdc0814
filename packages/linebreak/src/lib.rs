//! The interface of the crate unicode-linebreak over lbk (UAX #14, Unicode 15.0). Two lines of `Cargo.toml` replace that
//! crate in a program and in its dependencies:
//!
//! ```text
//! [patch.crates-io]
//! unicode-linebreak = { path = "unicode-linebreak" }
//! ```
//!
//! In a program that has a `Cargo.lock`, `cargo update -p unicode-linebreak` takes the crate; without it cargo says that
//! the patch was not used, and builds the old one. `cargo tree -i unicode-linebreak` shows the folder of that which is
//! built.
//!
//! ```
//! use unicode_linebreak::{linebreaks, BreakOpportunity::{Allowed, Mandatory}};
//!
//! let breaks: Vec<_> = linebreaks("See p. 7\nand 8").collect();
//! assert_eq!(breaks, [(4, Allowed), (7, Allowed), (9, Mandatory), (13, Allowed), (14, Mandatory)]);
//! ```
#![no_std]
#![forbid(unsafe_code)]
#![deny(missing_docs, missing_debug_implementations)]

mod classes;
mod unresolved;

pub use classes::{break_property, BreakClass};
pub use lbk::UNICODE_VERSION;

/// Whether a line may or must end at a break.
#[derive(Copy, Clone, PartialEq, Eq, Debug)]
pub enum BreakOpportunity {
    /// It must.
    Mandatory,
    /// It may.
    Allowed,
}

/// The breaks of a text, in order: the offset of each, and whether the line must end there. The last one is the text's
/// length, where the line must end (rule LB3). An empty text has none.
#[inline]
pub fn linebreaks(s: &str) -> impl Iterator<Item = (usize, BreakOpportunity)> + Clone + '_ {
    lbk::breaks(s).map(|found| match found.kind {
        lbk::Kind::Must => (found.at, BreakOpportunity::Mandatory),
        lbk::Kind::May => (found.at, BreakOpportunity::Allowed),
    })
}

/// Divides a text so that the breaks of the second part are those of the text after the first part, also if more text
/// follows.
///
/// It divides at the last break before the end of the text, or else before the whole text. The crate unicode-linebreak
/// divides by pairs of classes, also at other offsets.
///
/// ```
/// use unicode_linebreak::split_at_safe;
///
/// assert_eq!(split_at_safe("See p. 7, or so"), ("See p. 7, or ", "so"));
/// ```
pub fn split_at_safe(s: &str) -> (&str, &str) {
    s.split_at(lbk::Breaker::new().safe_break(s))
}
