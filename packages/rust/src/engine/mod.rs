//! What finds breaks, words and chunks: the modules that are erased from the proved sources, or the proved library
//! itself. Both have the same items, and nothing else in this crate knows which of them it is.

#[cfg(not(feature = "proved"))]
mod erased;
#[cfg(feature = "proved")]
#[clippy::msrv = "1.70"]
mod proved;
#[cfg(all(feature = "tables", not(feature = "proved")))]
mod table;

#[cfg(not(feature = "proved"))]
pub(crate) use erased::*;
#[cfg(feature = "proved")]
pub(crate) use proved::*;

/// The numbers of `RawBreak::kind`; 1 is that of a break where a line may end.
pub(crate) const NO: u8 = 0;
pub(crate) const MUST: u8 = 2;

/// What is added to the number of a profile where a text goes on after its end.
pub(crate) const GOES_ON: u8 = 2;

/// A break of which nothing is known yet.
pub(crate) const NO_BREAK: RawBreak = RawBreak { at: 0, kind: NO, rule: 0 };

/// A text from a unit on, where nothing is known of what is before.
pub(crate) const fn state_at(at: usize, profile: u8) -> State {
    State { at, row: 0, profile, ended: 0 }
}

/// The start of a text that arrives in pieces.
pub(crate) const fn stream_start(profile: u8) -> Stream {
    Stream { at: 0, held_at: 0, row: 0, held_code: 0, cut: [0; 4], cut_size: 0, profile, ended: 0 }
}

/// Where the kinds of characters come from: a table, or else the values of Unicode 15.0.
#[derive(Clone, Copy)]
pub(crate) struct Source<'t>(pub(crate) Option<&'t Table>);

/// Four files of the Unicode Character Database.
#[cfg(feature = "tables")]
#[derive(Clone, Copy)]
pub(crate) struct RawFiles<'a> {
    pub(crate) line_break: &'a [u8],
    pub(crate) east_asian: &'a [u8],
    pub(crate) category: &'a [u8],
    pub(crate) emoji: &'a [u8],
}

/// The first fault of four files: the number of the file, from 1, the line, and the number of the cause, from 1.
#[cfg(feature = "tables")]
#[repr(C)]
pub(crate) struct RawFault {
    pub(crate) file: u32,
    pub(crate) line: u32,
    pub(crate) cause: u32,
}

/// There are no tables without that feature.
#[cfg(not(feature = "tables"))]
#[derive(Clone)]
pub(crate) enum Table {}
