//! Breaks of a text that arrives in pieces.

use core::fmt;
use core::iter::FusedIterator;

use super::breaker::Breaker;
use super::breaks::Break;
use crate::engine::{self, RawBreak, Source, NO_BREAK};

/// How many breaks a call fetches.
const ROOM: usize = 32;

/// A text that arrives in pieces, cut anywhere, even inside a character. It allocates nothing and keeps no text.
///
/// ```
/// let mut stream = lbk::Breaker::new().stream();
/// let mut found = Vec::new();
/// for piece in ["a li", "ne that arr", "ives"] {
///     found.extend(stream.feed(piece.as_bytes()).map(|found| found.at));
/// }
/// found.extend(stream.finish().map(|found| found.at));
/// assert_eq!(found, [2_u64, 7, 12, 19]);
/// ```
#[derive(Clone)]
pub struct Stream<'t> {
    source: Source<'t>,
    state: engine::Stream,
}

impl<'t> Stream<'t> {
    pub(crate) fn new(breaker: Breaker<'t>) -> Stream<'t> {
        let state = engine::stream_start(breaker.profile as u8);
        Stream { source: breaker.source, state }
    }

    /// Takes the next piece, and gives the breaks that it settles. Their offsets count from the start of the text. A
    /// piece is taken as a whole, even if not all of its breaks are asked for.
    pub fn feed<'s>(&'s mut self, piece: &'s [u8]) -> Feed<'s, 't> {
        Feed { stream: self, piece, settled: Settled::none() }
    }

    /// Ends the text, and gives the breaks that are left.
    pub fn finish(self) -> Finish<'t> {
        Finish { stream: self, settled: Settled::none() }
    }

    /// Fetches a block, and returns how much of the piece was taken.
    fn fetch(&mut self, piece: &[u8], last: bool, settled: &mut Settled) -> usize {
        settled.from = Origin::of(&self.state);
        let fed = engine::feed(self.source, &mut self.state, piece, last, &mut settled.block);
        settled.next = 0;
        settled.count = fed.count.min(ROOM);
        settled.ended = fed.count < ROOM;
        fed.taken
    }
}

impl fmt::Debug for Stream<'_> {
    fn fmt(&self, f: &mut fmt::Formatter<'_>) -> fmt::Result {
        f.debug_struct("Stream").field("at", &self.state.at).finish_non_exhaustive()
    }
}

/// Where a stream was before a call. By this the breaks of that call have places of 64 bits, also where a call gives
/// the low 32 of them.
#[derive(Clone, Copy)]
struct Origin {
    at: u64,
    /// The place that waits for what follows, if one does.
    held_at: Option<u64>,
}

impl Origin {
    fn of(state: &engine::Stream) -> Origin {
        let held_at = if state.held_code == 0 { None } else { Some(state.held_at) };
        Origin { at: state.at, held_at }
    }

    /// The place whose low bits a call gave: that which waited, or one at or after that of the stream.
    #[allow(clippy::cast_possible_truncation)]
    fn place(self, low: usize) -> u64 {
        match self.held_at {
            Some(held_at) if held_at as usize == low => held_at,
            _ => self.at + low.wrapping_sub(self.at as usize) as u64,
        }
    }
}

/// Breaks of one call, and whether no other call has more of them.
struct Settled {
    from: Origin,
    next: usize,
    count: usize,
    ended: bool,
    block: [RawBreak; ROOM],
}

impl Settled {
    fn none() -> Settled {
        let from = Origin { at: 0, held_at: None };
        Settled { from, next: 0, count: 0, ended: false, block: [NO_BREAK; ROOM] }
    }

    fn next(&mut self) -> Option<Break<u64>> {
        let found = *self.block[..self.count].get(self.next)?;
        self.next += 1;
        let Break { at, kind, rule } = Break::from(found);
        Some(Break { at: self.from.place(at), kind, rule })
    }

    /// The next break; a call fetches others where there is none.
    fn next_or(&mut self, mut fetch: impl FnMut(&mut Settled)) -> Option<Break<u64>> {
        loop {
            let found = self.next();
            if found.is_some() || self.ended {
                return found;
            }
            fetch(self);
        }
    }
}

/// The breaks that a piece settles. [`Stream::feed`] makes it.
pub struct Feed<'s, 't> {
    stream: &'s mut Stream<'t>,
    piece: &'s [u8],
    settled: Settled,
}

/// Fetches a block of breaks, and cuts off what was taken of the piece.
fn fetch_of(stream: &mut Stream<'_>, piece: &mut &[u8], settled: &mut Settled) {
    let taken = stream.fetch(piece, false, settled);
    *piece = &piece[taken..];
}

impl Iterator for Feed<'_, '_> {
    type Item = Break<u64>;

    fn next(&mut self) -> Option<Break<u64>> {
        let Feed { stream, piece, settled } = self;
        settled.next_or(|settled| fetch_of(stream, piece, settled))
    }
}

impl FusedIterator for Feed<'_, '_> {}

impl Drop for Feed<'_, '_> {
    fn drop(&mut self) {
        while !self.settled.ended {
            fetch_of(self.stream, &mut self.piece, &mut self.settled);
        }
    }
}

impl fmt::Debug for Feed<'_, '_> {
    fn fmt(&self, f: &mut fmt::Formatter<'_>) -> fmt::Result {
        f.debug_struct("Feed").field("piece", &self.piece).finish_non_exhaustive()
    }
}

/// The breaks that are left at the end of a text. [`Stream::finish`] makes it.
#[must_use = "the end of the text is a break"]
pub struct Finish<'t> {
    stream: Stream<'t>,
    settled: Settled,
}

impl Iterator for Finish<'_> {
    type Item = Break<u64>;

    fn next(&mut self) -> Option<Break<u64>> {
        let Finish { stream, settled } = self;
        settled.next_or(|settled| {
            stream.fetch(&[], true, settled);
        })
    }
}

impl FusedIterator for Finish<'_> {}

impl fmt::Debug for Finish<'_> {
    fn fmt(&self, f: &mut fmt::Formatter<'_>) -> fmt::Result {
        f.debug_struct("Finish").finish_non_exhaustive()
    }
}

#[cfg(test)]
mod tests {
    use super::*;
    use crate::Profile;

    /// A stream that has got so far is one of which nothing else is known.
    #[test]
    fn places_pass_the_fourth_gigabyte() {
        let text = "a b \u{bb}  c\n\u{bb}d e";
        for profile in [Profile::First, Profile::Second] {
            let breaker = Breaker::new().profile(profile);
            let whole = std::vec::Vec::from_iter(breaker.breaks(text));
            for before in 0..2 * text.len() as u64 {
                let start = (1 << 32) - before;
                for size in 1..=text.len() {
                    let mut stream = breaker.stream();
                    stream.state.at = start;
                    let mut given = std::vec::Vec::new();
                    for piece in text.as_bytes().chunks(size) {
                        given.extend(stream.feed(piece));
                    }
                    given.extend(stream.finish());
                    let moved = whole.iter().map(|one| start + one.at as u64);
                    assert!(given.iter().map(|one| one.at).eq(moved), "{before} {size}");
                }
            }
        }
    }
}
