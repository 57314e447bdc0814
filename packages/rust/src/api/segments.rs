//! Segments and paragraphs.

use core::iter::FusedIterator;

use super::breaker::Breaker;
use super::breaks::Breaks;
use super::labels::{Class, Kind, Rule};

/// A part of a text between two breaks.
#[derive(Clone, Copy, PartialEq, Eq, PartialOrd, Ord, Hash, Debug)]
pub struct Segment<'a> {
    /// Its offset in the text, in bytes.
    pub start: usize,
    /// The part.
    pub text: &'a str,
    /// The kind of the break at its end.
    pub kind: Kind,
    /// The rule that decided the break at its end.
    pub rule: Rule,
}

impl<'a> Segment<'a> {
    /// The offset of its end in the text.
    #[inline]
    #[must_use]
    pub fn end(&self) -> usize {
        self.start + self.text.len()
    }

    /// Its text, and the spaces and line end behind that (by their classes in Unicode 15.0), whose width does not count
    /// at the end of a line. A no-break space counts.
    ///
    /// ```
    /// let parts: Vec<_> = lbk::segments("to \u{a0}be\n").map(|segment| segment.content_and_space()).collect();
    /// assert_eq!(parts, [("to", " "), ("\u{a0}be", "\n")]);
    /// ```
    #[must_use]
    pub fn content_and_space(&self) -> (&'a str, &'a str) {
        let is_space = |c| {
            matches!(
                Class::of(c),
                Class::SP | Class::ZW | Class::BK | Class::CR | Class::LF | Class::NL
            )
        };
        self.text.split_at(self.text.trim_end_matches(is_space).len())
    }
}

/// The segments of a text between its breaks, in order. [`segments`](crate::segments) makes it.
#[derive(Clone, Debug)]
#[must_use = "iterators are lazy"]
pub struct Segments<'a> {
    pub(crate) text: &'a str,
    pub(crate) start: usize,
    pub(crate) breaks: Breaks<'a>,
}

impl<'a> Segments<'a> {
    /// The text that is left.
    #[inline]
    #[must_use]
    pub fn rest(&self) -> &'a str {
        &self.text[self.start..]
    }
}

impl<'a> Iterator for Segments<'a> {
    type Item = Segment<'a>;

    #[inline]
    fn next(&mut self) -> Option<Segment<'a>> {
        let found = self.breaks.next()?;
        let start = self.start;
        self.start = found.at;
        Some(Segment {
            start,
            text: &self.text[start..found.at],
            kind: found.kind,
            rule: found.rule,
        })
    }

    #[inline]
    fn size_hint(&self) -> (usize, Option<usize>) {
        self.breaks.size_hint()
    }

    #[inline]
    fn fold<B, F: FnMut(B, Segment<'a>) -> B>(self, start: B, mut each: F) -> B {
        let (text, mut from) = (self.text, self.start);
        self.breaks.fold(start, |all, found| {
            let segment = Segment {
                start: from,
                text: &text[from..found.at],
                kind: found.kind,
                rule: found.rule,
            };
            from = found.at;
            each(all, segment)
        })
    }
}

impl FusedIterator for Segments<'_> {}

/// A paragraph with its line end: a part of a text up to a required break. Its breaks are its own.
#[derive(Clone, Copy, PartialEq, Eq, Hash, Debug)]
pub struct Paragraph<'a> {
    /// Its offset in the text, in bytes.
    pub start: usize,
    /// The paragraph.
    pub text: &'a str,
}

/// The paragraphs of a text. [`paragraphs`](crate::paragraphs) makes it.
#[derive(Clone, Debug)]
#[must_use = "iterators are lazy"]
pub struct Paragraphs<'a> {
    pub(crate) breaker: Breaker<'a>,
    pub(crate) text: &'a str,
    pub(crate) start: usize,
}

impl<'a> Iterator for Paragraphs<'a> {
    type Item = Paragraph<'a>;

    fn next(&mut self) -> Option<Paragraph<'a>> {
        if self.start == self.text.len() {
            return None;
        }
        let start = self.start;
        self.start = self.breaker.next_paragraph(self.text, start + 1);
        Some(Paragraph { start, text: &self.text[start..self.start] })
    }
}

impl FusedIterator for Paragraphs<'_> {}
