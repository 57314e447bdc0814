//! The rules and the data by which texts are broken.

use core::fmt;

use super::breaks::{Breaks, BreaksUtf16, BreaksUtf32, Positions, PositionsUtf16, PositionsUtf32};
use super::chunks::{Chunks, Limits};
use super::found::Found;
use super::labels::{Class, Profile};
use super::segments::{Paragraphs, Segments};
use super::stream::Stream;
#[cfg(feature = "tables")]
use super::table::Table;
use crate::engine::{self, Source};

/// The rules and the data by which texts are broken. It is small, and copied. The functions of this crate, such as
/// [`breaks`](crate::breaks), are those of `Breaker::new()`: Unicode 15.0, the first profile, UTF-8 in a `str`.
///
/// ```
/// use lbk::{Breaker, Profile};
///
/// const QUOTES: Breaker = Breaker::new().profile(Profile::Second);
/// let text = "vis-à-vis »le« chat";
/// assert_eq!(QUOTES.breaks(text).count(), 5);
/// assert_eq!(lbk::breaks(text).count(), 5);
/// ```
#[derive(Clone, Copy)]
pub struct Breaker<'t> {
    pub(crate) source: Source<'t>,
    pub(crate) profile: Profile,
}

impl Breaker<'static> {
    /// The data of Unicode 15.0 and the first profile.
    #[must_use]
    pub const fn new() -> Breaker<'static> {
        Breaker { source: Source(None), profile: Profile::First }
    }
}

impl<'t> Breaker<'t> {
    /// The same with the data of a table.
    #[cfg(feature = "tables")]
    #[must_use]
    pub const fn table(self, table: &Table) -> Breaker<'_> {
        Breaker { source: Source(Some(&table.0)), profile: self.profile }
    }

    /// The same in another profile.
    #[must_use]
    pub const fn profile(self, profile: Profile) -> Breaker<'t> {
        Breaker { profile, ..self }
    }

    /// The class of a character.
    #[must_use]
    pub fn class_of(self, character: char) -> Class {
        Class(engine::class(self.source, character))
    }

    /// The breaks of a text, in order. Each is between two characters, or at the end.
    #[inline]
    pub fn breaks<'a>(self, text: &'a str) -> Breaks<'a>
    where
        't: 'a,
    {
        self.breaks_utf8(text.as_bytes())
    }

    /// The breaks of bytes, in order. Ill-formed bytes are read as by `String::from_utf8_lossy`; offsets count the given
    /// bytes.
    #[inline]
    pub fn breaks_utf8<'a>(self, text: &'a [u8]) -> Breaks<'a>
    where
        't: 'a,
    {
        Breaks(Found::new(self, false, text))
    }

    /// The breaks of a part of a text that goes on after it, in order. The part's end is a break only if a line must end
    /// there; a CR at its end counts as one that no LF follows. Offsets count from the part's start.
    #[inline]
    pub fn breaks_of_part<'a>(self, part: &'a str) -> Breaks<'a>
    where
        't: 'a,
    {
        Breaks(Found::new(self, true, part.as_bytes()))
    }

    /// The breaks of a text in UTF-16, in order. A lone surrogate is read as U+FFFD, as by `String::from_utf16_lossy`.
    #[inline]
    pub fn breaks_utf16<'a>(self, text: &'a [u16]) -> BreaksUtf16<'a>
    where
        't: 'a,
    {
        BreaksUtf16(Found::new(self, false, text))
    }

    /// The breaks of numbers of characters, in order. One that is not a scalar value is read as U+FFFD.
    #[inline]
    pub fn breaks_utf32<'a>(self, text: &'a [u32]) -> BreaksUtf32<'a>
    where
        't: 'a,
    {
        BreaksUtf32(Found::new(self, false, text))
    }

    /// All positions of a text, in order: one before each character and one at the end, each with the rule that
    /// decided.
    #[inline]
    pub fn positions<'a>(self, text: &'a str) -> Positions<'a>
    where
        't: 'a,
    {
        self.positions_utf8(text.as_bytes())
    }

    /// All positions of bytes, in order. They are read as by [`breaks_utf8`](Breaker::breaks_utf8).
    #[inline]
    pub fn positions_utf8<'a>(self, text: &'a [u8]) -> Positions<'a>
    where
        't: 'a,
    {
        Positions(Found::new(self, false, text))
    }

    /// All positions of a text in UTF-16, in order. It is read as by [`breaks_utf16`](Breaker::breaks_utf16).
    #[inline]
    pub fn positions_utf16<'a>(self, text: &'a [u16]) -> PositionsUtf16<'a>
    where
        't: 'a,
    {
        PositionsUtf16(Found::new(self, false, text))
    }

    /// All positions of numbers of characters, in order. They are read as by [`breaks_utf32`](Breaker::breaks_utf32).
    #[inline]
    pub fn positions_utf32<'a>(self, text: &'a [u32]) -> PositionsUtf32<'a>
    where
        't: 'a,
    {
        PositionsUtf32(Found::new(self, false, text))
    }

    /// The segments of a text between its breaks, in order. Joined, they are the text.
    #[inline]
    pub fn segments<'a>(self, text: &'a str) -> Segments<'a>
    where
        't: 'a,
    {
        Segments { text, start: 0, breaks: self.breaks(text) }
    }

    /// The paragraphs of a text: it is cut after each required break. Joined, they are the text.
    pub fn paragraphs<'a>(self, text: &'a str) -> Paragraphs<'a>
    where
        't: 'a,
    {
        Paragraphs { breaker: self, text, start: 0 }
    }

    /// The text cut for search and retrieval, always at breaks outside words (UAX #29). Without overlap the chunks,
    /// joined, are the text.
    pub fn chunks<'a>(self, text: &'a str, limits: Limits) -> Chunks<'a>
    where
        't: 'a,
    {
        Chunks::new(self, text, limits)
    }

    /// The start of a text that arrives in pieces.
    #[must_use]
    pub fn stream(self) -> Stream<'t> {
        Stream::new(self)
    }

    /// The last break before the end of a text, or 0 if there is none. The breaks after it are those of the text that
    /// begins there, also if more text follows. Only the last paragraph is read.
    ///
    /// ```
    /// let text = "See p. 7, or so";
    /// assert_eq!(lbk::Breaker::new().safe_break(text), 13);
    /// ```
    #[must_use]
    #[doc(alias = "split_at_safe")]
    pub fn safe_break(self, text: &str) -> usize {
        engine::safe_break(self.source, self.profile as u8, text.as_bytes())
    }

    /// The last offset at or before `at` where a paragraph begins: one with a required break, or 0.
    #[must_use]
    pub fn paragraph_start(self, text: &str, at: usize) -> usize {
        engine::cut_before(self.source, text.as_bytes(), at)
    }

    /// The first offset at or after `at` where a paragraph begins, or the text's length. A text may be divided there, as
    /// for threads: the breaks of the parts are those of the text.
    #[must_use]
    pub fn next_paragraph(self, text: &str, at: usize) -> usize {
        engine::cut(self.source, text.as_bytes(), at)
    }
}

impl Default for Breaker<'static> {
    fn default() -> Self {
        Breaker::new()
    }
}

impl fmt::Debug for Breaker<'_> {
    fn fmt(&self, f: &mut fmt::Formatter<'_>) -> fmt::Result {
        f.debug_struct("Breaker").field("profile", &self.profile).finish_non_exhaustive()
    }
}
