//! The calls, over the erased sources. Each is compiled here, once, and not in each crate that iterates.

#[cfg(feature = "tables")]
pub(crate) use super::table::{cause, Table};
use super::Source;
pub(crate) use crate::bytes::RawBreak;
pub(crate) use crate::calls::State;
use crate::calls::{give_breaks, next_of, rule_text};
use crate::chunks::Place;
pub(crate) use crate::chunks::{Chunk as RawChunk, ChunkState, Limits as RawLimits};
use crate::rules::{KindSource, Rule, UnicodeCells};
pub(crate) use crate::streams::{Fed, Stream};
use crate::units::{Breaks, Positions};
pub(crate) use crate::words::Word;

/// Calls its body with the source of the kinds, whatever it is.
macro_rules! with_kinds {
    ($source:expr, $kinds:ident => $body:expr) => {
        match $source.0 {
            None => {
                let $kinds = &UnicodeCells;
                $body
            }
            #[cfg(feature = "tables")]
            Some(table) => {
                let $kinds = &table.kinds();
                $body
            }
            #[cfg(not(feature = "tables"))]
            Some(none) => match *none {},
        }
    };
}

#[inline(never)]
pub(crate) fn breaks(
    source: Source<'_>,
    state: &mut State,
    text: &[u8],
    out: &mut [RawBreak],
) -> usize {
    with_kinds!(source, kinds => give_breaks::<true, _>(kinds, state, text, out))
}

/// Calls that all go over a text by steps alone.
macro_rules! calls {
    ($($name:ident gives $given:ident over $unit:ty;)*) => { $(
        #[inline(never)]
        pub(crate) fn $name(
            source: Source<'_>,
            state: &mut State,
            text: &[$unit],
            out: &mut [RawBreak],
        ) -> usize {
            with_kinds!(source, kinds => next_of::<$given, $unit, _>(kinds, state, text, out))
        }
    )* };
}

calls! {
    breaks_utf16 gives Breaks over u16;
    breaks_utf32 gives Breaks over u32;
    positions gives Positions over u8;
    positions_utf16 gives Positions over u16;
    positions_utf32 gives Positions over u32;
}

#[inline(never)]
pub(crate) fn feed(
    source: Source<'_>,
    stream: &mut Stream,
    piece: &[u8],
    last: bool,
    out: &mut [RawBreak],
) -> Fed {
    with_kinds!(source, kinds => crate::streams::feed::<u8, _>(kinds, stream, piece, last, out))
}

/// Writes the words from a byte on, and returns how many they are and from where the others come.
#[inline(never)]
pub(crate) fn words(text: &[u8], at: usize, out: &mut [Word]) -> (usize, usize) {
    let filled = crate::words::fill::<true>(text, at, out);
    (filled.count, filled.at)
}

pub(crate) fn chunks_start(profile: u8) -> ChunkState {
    let breaks = super::state_at(0, profile);
    let word = Word { start: 0, end: 0 };
    let place = Place { breaks, from: 0, word, words: 0 };
    ChunkState { place, start: 0, told: 0 }
}

#[inline(never)]
pub(crate) fn chunks(
    source: Source<'_>,
    limits: &RawLimits,
    state: &mut ChunkState,
    text: &[u8],
    out: &mut [RawChunk],
) -> usize {
    with_kinds!(source, kinds => crate::chunks::chunks(kinds, limits, state, text, out))
}

pub(crate) fn cut(source: Source<'_>, text: &[u8], at: usize) -> usize {
    with_kinds!(source, kinds => crate::streams::cut(kinds, text, at))
}

pub(crate) fn cut_before(source: Source<'_>, text: &[u8], at: usize) -> usize {
    with_kinds!(source, kinds => crate::streams::cut_before(kinds, text, at))
}

pub(crate) fn safe_break(source: Source<'_>, profile: u8, text: &[u8]) -> usize {
    with_kinds!(source, kinds => crate::c::safe_break(kinds, profile, text))
}

/// The number of a character's class, in the order of their names.
pub(crate) fn class(source: Source<'_>, character: char) -> u8 {
    with_kinds!(source, kinds => kinds.cell_by_kind(character).class as u8)
}

/// What the rule of a number says; nothing for a number that no rule has.
pub(crate) fn rule(number: u8) -> &'static str {
    Rule::numbered(number).map_or("", rule_text)
}
