//! What a call finds in a text, a block at a time.

use super::breaker::Breaker;
use crate::engine::{self, RawBreak, Source, State, GOES_ON, NO_BREAK};

/// How many a call fetches.
pub(crate) const ROOM: usize = 32;

type Block = [RawBreak; ROOM];

/// What is found in a text of some units: its breaks, or all its positions.
pub(crate) trait Sought<U> {
    /// Finds the next of them, and returns how many.
    fn find(source: Source<'_>, state: &mut State, text: &[U], out: &mut Block) -> usize;
}

/// Breaks are sought.
#[derive(Clone, Copy)]
pub(crate) struct ForBreaks;

/// Positions are sought.
#[derive(Clone, Copy)]
pub(crate) struct ForPositions;

macro_rules! sought {
    ($($sought:ident over $unit:ident by $call:ident;)*) => { $(
        impl Sought<$unit> for $sought {
            #[inline]
            fn find(source: Source<'_>, state: &mut State, text: &[$unit], out: &mut Block) -> usize {
                engine::$call(source, state, text, out).min(ROOM)
            }
        }
    )* };
}

sought! {
    ForBreaks over u8 by breaks;
    ForBreaks over u16 by breaks_utf16;
    ForBreaks over u32 by breaks_utf32;
    ForPositions over u8 by positions;
    ForPositions over u16 by positions_utf16;
    ForPositions over u32 by positions_utf32;
}

/// What a call finds in a text, in order.
#[derive(Clone)]
pub(crate) struct Found<'a, S, U> {
    /// The index of the next one in the block.
    next: u32,
    /// How many the block has. If it is not full, they are the last ones.
    count: u32,
    state: State,
    source: Source<'a>,
    pub(crate) text: &'a [U],
    sought: core::marker::PhantomData<S>,
    block: Block,
}

#[allow(clippy::cast_possible_truncation)]
impl<'a, S: Sought<U>, U> Found<'a, S, U> {
    #[inline]
    pub(crate) fn new(breaker: Breaker<'a>, goes_on: bool, text: &'a [U]) -> Self {
        let profile = breaker.profile as u8 + if goes_on { GOES_ON } else { 0 };
        Found {
            // As after a full block.
            next: ROOM as u32,
            count: ROOM as u32,
            state: engine::state_at(0, profile),
            source: breaker.source,
            text,
            sought: core::marker::PhantomData,
            block: [NO_BREAK; ROOM],
        }
    }

    #[inline]
    fn refill(&mut self) {
        self.next = 0;
        self.count = S::find(self.source, &mut self.state, self.text, &mut self.block) as u32;
    }

    #[inline]
    pub(crate) fn next(&mut self) -> Option<RawBreak> {
        if self.next == self.count {
            if self.count == ROOM as u32 {
                self.refill();
            }
            if self.next == self.count {
                return None;
            }
        }
        let found = self.block[self.next as usize % ROOM];
        self.next += 1;
        Some(found)
    }

    /// The same for all that are left, with no test between those of a block.
    #[inline]
    pub(crate) fn fold<B>(&mut self, start: B, mut each: impl FnMut(B, RawBreak) -> B) -> B {
        let mut all = start;
        loop {
            for one in &self.block[self.next as usize..self.count as usize] {
                all = each(all, *one);
            }
            if self.count != ROOM as u32 {
                return all;
            }
            self.refill();
        }
    }

    /// How many are held, and the most that can be left.
    #[inline]
    pub(crate) fn left(&self) -> (usize, Option<usize>) {
        let held = (self.count - self.next) as usize;
        if self.state.ended != 0 {
            return (held, Some(held));
        }
        // One before each of the units left, and one at the end.
        (held, Some(held + self.text.len().saturating_sub(self.state.at) + 1))
    }
}
