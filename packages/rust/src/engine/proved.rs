//! The calls of the proved library, `liblbk.a`. `lbk.h` says what each needs and gives; the symbols stand in
//! `symbols.rs`.
#![allow(unsafe_code)]

use std::sync::OnceLock;
use std::vec::Vec;

use super::Source;
#[cfg(feature = "tables")]
use super::{RawFault, RawFiles};
use crate::symbols::{self, RawTable, Text, WordState, TABLE_NUMBERS};
pub(crate) use crate::symbols::{
    ChunkState, Fed, RawBreak, RawChunk, RawLimits, State, Stream, Word,
};

/// The kinds of all characters, in memory, as numbers that only the library reads.
#[derive(Clone)]
pub(crate) struct Numbers(Vec<u64>);

impl Numbers {
    fn none() -> Numbers {
        require_processor();
        Numbers(std::vec![0; TABLE_NUMBERS])
    }

    fn as_table(&self) -> *const RawTable {
        self.0.as_ptr().cast()
    }

    fn as_table_mut(&mut self) -> *mut RawTable {
        self.0.as_mut_ptr().cast()
    }
}

#[cfg(feature = "tables")]
pub(crate) use Numbers as Table;

/// The table of Unicode 15.0.
fn unicode() -> &'static Numbers {
    static TABLE: OnceLock<Numbers> = OnceLock::new();
    TABLE.get_or_init(|| {
        let mut made = Numbers::none();
        // SAFETY: the numbers are those of one table.
        unsafe { symbols::lbk_unicode(made.as_table_mut()) };
        made
    })
}

fn table_of(source: Source<'_>) -> *const RawTable {
    match source.0 {
        None => unicode().as_table(),
        #[cfg(feature = "tables")]
        Some(table) => table.as_table(),
        #[cfg(not(feature = "tables"))]
        Some(none) => match *none {},
    }
}

/// Calls that find breaks or positions of a text.
macro_rules! calls {
    ($($name:ident by $call:ident over $unit:ty;)*) => { $(
        pub(crate) fn $name(
            source: Source<'_>,
            state: &mut State,
            text: &[$unit],
            out: &mut [RawBreak],
        ) -> usize {
            let (table, size, room) = (table_of(source), text.len(), out.len());
            // SAFETY: all are borrowed, the state and the block for writing, with these sizes.
            unsafe { symbols::$call(table, state, text.as_ptr(), size, out.as_mut_ptr(), room) }
        }
    )* };
}

calls! {
    breaks by lbk_breaks over u8;
    breaks_utf16 by lbk_breaks_utf16 over u16;
    breaks_utf32 by lbk_breaks_utf32 over u32;
    positions by lbk_positions over u8;
    positions_utf16 by lbk_positions_utf16 over u16;
    positions_utf32 by lbk_positions_utf32 over u32;
}

pub(crate) fn feed(
    source: Source<'_>,
    stream: &mut Stream,
    piece: &[u8],
    last: bool,
    out: &mut [RawBreak],
) -> Fed {
    let (table, size, room) = (table_of(source), piece.len(), out.len());
    // SAFETY: all are borrowed, the stream and the block for writing, with these sizes.
    unsafe { symbols::lbk_feed(table, stream, piece.as_ptr(), size, last, out.as_mut_ptr(), room) }
}

/// Writes the words from a byte on, and returns how many they are and from where the others come.
pub(crate) fn words(text: &[u8], at: usize, out: &mut [Word]) -> (usize, usize) {
    require_processor();
    let mut state = WordState { at };
    let (size, room) = (text.len(), out.len());
    // SAFETY: all are borrowed, the state and the block for writing, with these sizes.
    let count =
        unsafe { symbols::lbk_words(&mut state, text.as_ptr(), size, out.as_mut_ptr(), room) };
    (count, state.at)
}

pub(crate) fn chunks_start(profile: u8) -> ChunkState {
    ChunkState::new(super::state_at(0, profile))
}

pub(crate) fn chunks(
    source: Source<'_>,
    limits: &RawLimits,
    state: &mut ChunkState,
    text: &[u8],
    out: &mut [RawChunk],
) -> usize {
    let (table, size, room) = (table_of(source), text.len(), out.len());
    // SAFETY: all are borrowed, the state and the block for writing, with these sizes.
    unsafe {
        symbols::lbk_chunks(table, limits, state, text.as_ptr(), size, out.as_mut_ptr(), room)
    }
}

pub(crate) fn cut(source: Source<'_>, text: &[u8], at: usize) -> usize {
    // SAFETY: both are borrowed, and the size is that of the text.
    unsafe { symbols::lbk_cut(table_of(source), text.as_ptr(), text.len(), at) }
}

pub(crate) fn cut_before(source: Source<'_>, text: &[u8], at: usize) -> usize {
    // SAFETY: both are borrowed, and the size is that of the text.
    unsafe { symbols::lbk_cut_before(table_of(source), text.as_ptr(), text.len(), at) }
}

pub(crate) fn safe_break(source: Source<'_>, profile: u8, text: &[u8]) -> usize {
    // SAFETY: both are borrowed, and the size is that of the text.
    unsafe { symbols::lbk_safe_break(table_of(source), profile, text.as_ptr(), text.len()) }
}

/// The number of a character's class, in the order of their names.
pub(crate) fn class(source: Source<'_>, character: char) -> u8 {
    // SAFETY: the table is borrowed, and any number is accepted.
    let label = unsafe { symbols::lbk_class(table_of(source), character.into()) };
    crate::Class::named(symbols::shown(&label.text))
}

/// What the rule of a number says; nothing for a number that no rule has.
pub(crate) fn rule(number: u8) -> &'static str {
    static TEXTS: OnceLock<Vec<Text>> = OnceLock::new();
    let texts = TEXTS.get_or_init(|| {
        require_processor();
        // SAFETY: any number is accepted.
        (0..=u8::MAX).map(|number| unsafe { symbols::lbk_rule_text(number) }).collect()
    });
    symbols::shown(&texts[usize::from(number)].text)
}

/// What the cause of a number says; nothing for another number.
#[cfg(feature = "tables")]
pub(crate) fn cause(number: u32) -> &'static str {
    static TEXTS: OnceLock<Vec<Text>> = OnceLock::new();
    // SAFETY: any number is accepted.
    let texts = TEXTS
        .get_or_init(|| (0..16).map(|number| unsafe { symbols::lbk_cause_text(number) }).collect());
    texts.get(number as usize).map_or("", |text| symbols::shown(&text.text))
}

#[cfg(feature = "tables")]
impl Table {
    /// The table of four files, or their first fault.
    pub(crate) fn read(files: RawFiles<'_>) -> Result<Table, RawFault> {
        let mut table = Table::none();
        let [a, b, c, d] = [files.line_break, files.east_asian, files.category, files.emoji];
        let (p, q, r, s) = (a.as_ptr(), b.as_ptr(), c.as_ptr(), d.as_ptr());
        // SAFETY: the table is borrowed for writing, the files for reading, with these sizes.
        let fault = unsafe {
            symbols::lbk_read(table.as_table_mut(), p, a.len(), q, b.len(), r, c.len(), s, d.len())
        };
        match fault.cause {
            0 => Ok(table),
            _ => Err(fault),
        }
    }
}

/// Panics if the processor lacks an instruction that the library uses: those of x86-64-v2.
fn require_processor() {
    #[cfg(target_arch = "x86_64")]
    assert!(
        std::is_x86_feature_detected!("sse4.2")
            && std::is_x86_feature_detected!("popcnt")
            && std::is_x86_feature_detected!("cmpxchg16b"),
        "the library needs a processor with SSE4.2 (x86-64-v2)"
    );
}
