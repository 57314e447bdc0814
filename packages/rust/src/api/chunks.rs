//! Chunks.

use core::fmt;
use core::iter::FusedIterator;

use super::breaker::Breaker;
use super::breaks::Break;
use super::labels::{Kind, Rule};
use crate::engine::{self, ChunkState, RawBreak, RawChunk, RawLimits, Source};

/// How many chunks a call fetches.
const ROOM: usize = 4;

/// The limits of a chunk. A value is always within its range: what is given beyond counts as the nearest.
///
/// ```
/// use lbk::Limits;
///
/// const LIMITS: Limits = Limits::new(500).overlap(100);
/// assert_eq!(LIMITS, Limits::new(500).least(250).words(0).overlap(100));
/// assert_eq!(Limits::new(500).overlap(400), Limits::new(500).overlap(250));
/// ```
#[derive(Clone, Copy, PartialEq, Eq, Hash, Debug)]
pub struct Limits {
    most: usize,
    words: usize,
    least: usize,
    overlap: usize,
}

impl Limits {
    /// At most this many bytes, 1 or more. By default any number of words, half of these bytes as `least`, and no
    /// overlap.
    #[must_use]
    pub const fn new(most: usize) -> Limits {
        let most = if most == 0 { 1 } else { most };
        Limits { most, words: 0, least: most / 2, overlap: 0 }
    }

    /// At most this many words; 0 for any number.
    #[must_use]
    pub const fn words(self, words: usize) -> Limits {
        Limits { words, ..self }
    }

    /// A chunk may end early, at a required break, once this many of its bytes are in no earlier chunk: at most as many
    /// as a chunk may have.
    #[must_use]
    pub const fn least(self, least: usize) -> Limits {
        let least = if least < self.most { least } else { self.most };
        Limits { least, ..self }
    }

    /// The next chunk repeats at most this many bytes of this one, and at most half of it.
    #[must_use]
    pub const fn overlap(self, overlap: usize) -> Limits {
        let overlap = if overlap < self.most / 2 { overlap } else { self.most / 2 };
        Limits { overlap, ..self }
    }
}

/// A part of a text that ends at a break outside words.
#[derive(Clone, Copy, PartialEq, Eq, PartialOrd, Ord, Hash, Debug)]
pub struct Chunk<'a> {
    /// Its offset in the text, in bytes.
    pub start: usize,
    /// The part.
    pub text: &'a str,
    /// How many words it has.
    pub words: usize,
    /// The kind of the break at its end.
    pub kind: Kind,
    /// The rule that decided the break at its end.
    pub rule: Rule,
    /// Whether it exceeds the limits, because it has no cut within them.
    pub alone: bool,
}

/// The chunks of a text, in order. [`chunks`](crate::chunks) makes it.
#[derive(Clone)]
#[must_use = "iterators are lazy"]
pub struct Chunks<'a> {
    source: Source<'a>,
    text: &'a str,
    limits: RawLimits,
    state: ChunkState,
    next: usize,
    count: usize,
    block: [RawChunk; ROOM],
}

impl<'a> Chunks<'a> {
    pub(crate) fn new(breaker: Breaker<'a>, text: &'a str, limits: Limits) -> Chunks<'a> {
        let Limits { most, words, least, overlap } = limits;
        let none = RawChunk { start: 0, end: 0, words: 0, kind: 0, rule: 0, alone: false };
        Chunks {
            source: breaker.source,
            text,
            limits: RawLimits { most, words, least, overlap },
            state: engine::chunks_start(breaker.profile as u8),
            next: ROOM,
            count: ROOM,
            block: [none; ROOM],
        }
    }
}

impl<'a> Iterator for Chunks<'a> {
    type Item = Chunk<'a>;

    fn next(&mut self) -> Option<Chunk<'a>> {
        if self.next == self.count {
            if self.count == ROOM {
                let (limits, state, text) = (&self.limits, &mut self.state, self.text.as_bytes());
                let found = engine::chunks(self.source, limits, state, text, &mut self.block);
                self.count = found.min(ROOM);
                self.next = 0;
            }
            if self.next == self.count {
                return None;
            }
        }
        let RawChunk { start, end, words, kind, rule, alone } = self.block[self.next];
        self.next += 1;
        let Break { kind, rule, .. } = Break::from(RawBreak { at: end, kind, rule });
        Some(Chunk { start, text: &self.text[start..end], words, kind, rule, alone })
    }
}

impl FusedIterator for Chunks<'_> {}

impl fmt::Debug for Chunks<'_> {
    fn fmt(&self, f: &mut fmt::Formatter<'_>) -> fmt::Result {
        f.debug_struct("Chunks").field("text", &self.text).finish_non_exhaustive()
    }
}
