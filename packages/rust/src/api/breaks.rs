//! Breaks and positions.

use core::fmt;
use core::iter::FusedIterator;

use super::found::{ForBreaks, ForPositions, Found};
use super::labels::{Kind, Rule};
use crate::engine::{RawBreak, MUST, NO};

/// An offset in a text where a line may or must end. The offsets of a text in memory are `usize`; those of a text that
/// arrives in pieces are `u64`.
///
/// ```
/// use lbk::{Break, Kind, Rule};
///
/// let found: Vec<Break> = lbk::breaks("a b\n").collect();
/// assert_eq!(found[0], Break { at: 2, kind: Kind::May, rule: Rule::LB18 });
/// assert_eq!(found[1], Break { at: 4, kind: Kind::Must, rule: Rule::LB3 });
/// ```
#[derive(Clone, Copy, PartialEq, Eq, PartialOrd, Ord, Hash, Debug)]
pub struct Break<Place = usize> {
    /// The offset of the byte after it, or the text's length.
    pub at: Place,
    /// Whether a line may or must end there.
    pub kind: Kind,
    /// The rule that decided.
    pub rule: Rule,
}

impl<Place> Break<Place> {
    /// Whether a line must end there.
    #[inline]
    #[must_use]
    pub fn is_required(&self) -> bool {
        self.kind == Kind::Must
    }

    /// Whether it is the end of the text (rule LB3), and no line end need be before it.
    #[inline]
    #[must_use]
    pub fn is_end_of_text(&self) -> bool {
        self.rule == Rule::LB3
    }
}

impl From<RawBreak> for Break {
    #[inline]
    fn from(found: RawBreak) -> Break {
        let kind = if found.kind == MUST { Kind::Must } else { Kind::May };
        Break { at: found.at, kind, rule: Rule(found.rule) }
    }
}

/// A position in a text: before one of its characters, or at its end.
#[derive(Clone, Copy, PartialEq, Eq, PartialOrd, Ord, Hash, Debug)]
pub struct Position {
    /// The offset of the byte after it, or the text's length.
    pub at: usize,
    /// `None` if a line does not break there.
    pub kind: Option<Kind>,
    /// The rule that decided.
    pub rule: Rule,
}

impl From<RawBreak> for Position {
    #[inline]
    fn from(found: RawBreak) -> Position {
        Position {
            at: found.at,
            kind: (found.kind != NO).then(|| Break::from(found).kind),
            rule: Rule(found.rule),
        }
    }
}

macro_rules! iterators {
    ($($(#[$doc:meta])* $name:ident of $sought:ident gives $item:ident over $unit:ty;)*) => { $(
        $(#[$doc])*
        #[derive(Clone)]
        #[must_use = "iterators are lazy"]
        pub struct $name<'a>(pub(crate) Found<'a, $sought, $unit>);

        impl Iterator for $name<'_> {
            type Item = $item;

            #[inline]
            fn next(&mut self) -> Option<$item> {
                self.0.next().map($item::from)
            }

            #[inline]
            fn size_hint(&self) -> (usize, Option<usize>) {
                self.0.left()
            }

            #[inline]
            fn fold<B, F: FnMut(B, $item) -> B>(mut self, start: B, mut each: F) -> B {
                self.0.fold(start, |all, found| each(all, $item::from(found)))
            }
        }

        impl FusedIterator for $name<'_> {}

        impl fmt::Debug for $name<'_> {
            fn fmt(&self, f: &mut fmt::Formatter<'_>) -> fmt::Result {
                f.debug_struct(stringify!($name)).field("text", &self.0.text).finish_non_exhaustive()
            }
        }
    )* };
}

iterators! {
    /// The breaks of a text, in order. [`breaks`](crate::breaks) makes it. Copies are independent.
    Breaks of ForBreaks gives Break over u8;
    /// All positions of a text, in order. [`positions`](crate::positions) makes it.
    Positions of ForPositions gives Position over u8;
    /// The breaks of a text in UTF-16, in order. Offsets count units.
    BreaksUtf16 of ForBreaks gives Break over u16;
    /// All positions of a text in UTF-16, in order. Offsets count units.
    PositionsUtf16 of ForPositions gives Position over u16;
    /// The breaks of a text in UTF-32, in order. Offsets count units.
    BreaksUtf32 of ForBreaks gives Break over u32;
    /// All positions of a text in UTF-32, in order. Offsets count units.
    PositionsUtf32 of ForPositions gives Position over u32;
}
