//! Words.

use core::fmt;
use core::iter::FusedIterator;
use core::ops::Range;

use crate::engine::{self, Word};

/// How many words a call fetches.
const ROOM: usize = 16;

/// The words of a text. [`words`](crate::words) makes it.
#[derive(Clone, Debug)]
#[must_use = "iterators are lazy"]
pub struct Words<'a> {
    pub(crate) text: &'a str,
    pub(crate) ranges: WordRanges<'a>,
}

impl<'a> Iterator for Words<'a> {
    type Item = (usize, &'a str);

    #[inline]
    fn next(&mut self) -> Option<(usize, &'a str)> {
        let range = self.ranges.next()?;
        Some((range.start, &self.text[range]))
    }

    #[inline]
    fn size_hint(&self) -> (usize, Option<usize>) {
        self.ranges.size_hint()
    }

    #[inline]
    fn fold<B, F: FnMut(B, (usize, &'a str)) -> B>(self, start: B, mut each: F) -> B {
        let text = self.text;
        self.ranges.fold(start, |all, range| each(all, (range.start, &text[range])))
    }
}

impl FusedIterator for Words<'_> {}

/// The byte range of each word of a text. [`word_ranges`](crate::word_ranges) makes it.
#[derive(Clone)]
#[must_use = "iterators are lazy"]
pub struct WordRanges<'a> {
    next: usize,
    count: usize,
    at: usize,
    text: &'a [u8],
    block: [Word; ROOM],
}

impl<'a> WordRanges<'a> {
    #[inline]
    pub(crate) fn new(text: &'a [u8]) -> WordRanges<'a> {
        WordRanges {
            next: ROOM,
            count: ROOM,
            at: 0,
            text,
            block: [Word { start: 0, end: 0 }; ROOM],
        }
    }

    #[inline]
    fn refill(&mut self) {
        let (count, at) = engine::words(self.text, self.at, &mut self.block);
        (self.next, self.count, self.at) = (0, count.min(ROOM), at);
    }
}

impl Iterator for WordRanges<'_> {
    type Item = Range<usize>;

    #[inline]
    fn next(&mut self) -> Option<Range<usize>> {
        if self.next == self.count {
            if self.count == ROOM {
                self.refill();
            }
            if self.next == self.count {
                return None;
            }
        }
        let Word { start, end } = self.block[self.next];
        self.next += 1;
        Some(start..end)
    }

    #[inline]
    fn size_hint(&self) -> (usize, Option<usize>) {
        let held = self.count - self.next;
        (held, Some(held + self.text.len().saturating_sub(self.at)))
    }

    #[inline]
    fn fold<B, F: FnMut(B, Range<usize>) -> B>(mut self, start: B, mut each: F) -> B {
        let mut all = start;
        loop {
            for one in &self.block[self.next..self.count] {
                all = each(all, one.start..one.end);
            }
            if self.count != ROOM {
                return all;
            }
            self.refill();
        }
    }
}

impl FusedIterator for WordRanges<'_> {}

impl fmt::Debug for WordRanges<'_> {
    fn fmt(&self, f: &mut fmt::Formatter<'_>) -> fmt::Result {
        f.debug_struct("WordRanges").field("text", &self.text).finish_non_exhaustive()
    }
}
