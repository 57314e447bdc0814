//! The types and calls of `lbk.h`: symbols of the proved library.

use core::mem::size_of;

#[cfg(feature = "tables")]
use crate::engine::RawFault;

/// `lbk_table`, of which this crate has only the address.
#[repr(C)]
pub(crate) struct RawTable {
    numbers: [u64; 0],
}

/// `sizeof(lbk_table)`, in numbers of 8 bytes.
pub(crate) const TABLE_NUMBERS: usize = 139_350;

#[repr(C)]
#[derive(Clone, Copy)]
pub(crate) struct State {
    pub(crate) at: usize,
    pub(crate) row: u16,
    pub(crate) profile: u8,
    pub(crate) ended: u8,
}

#[repr(C)]
#[derive(Clone, Copy)]
pub(crate) struct RawBreak {
    pub(crate) at: usize,
    pub(crate) kind: u8,
    pub(crate) rule: u8,
}

#[repr(C)]
#[derive(Clone, Copy)]
pub(crate) struct Stream {
    pub(crate) at: u64,
    pub(crate) held_at: u64,
    pub(crate) row: u16,
    pub(crate) held_code: u16,
    pub(crate) cut: [u8; 4],
    pub(crate) cut_size: u8,
    pub(crate) profile: u8,
    pub(crate) ended: u8,
}

#[repr(C)]
pub(crate) struct Fed {
    pub(crate) taken: usize,
    pub(crate) count: usize,
}

#[repr(C)]
#[derive(Clone, Copy)]
pub(crate) struct WordState {
    pub(crate) at: usize,
}

#[repr(C)]
#[derive(Clone, Copy)]
pub(crate) struct Word {
    pub(crate) start: usize,
    pub(crate) end: usize,
}

#[repr(C)]
#[derive(Clone, Copy)]
pub(crate) struct RawLimits {
    pub(crate) most: usize,
    pub(crate) words: usize,
    pub(crate) least: usize,
    pub(crate) overlap: usize,
}

#[repr(C)]
#[derive(Clone, Copy)]
pub(crate) struct ChunkState {
    breaks: State,
    from: usize,
    word: Word,
    words: usize,
    start: usize,
    told: usize,
}

impl ChunkState {
    /// The start of a text.
    pub(crate) fn new(breaks: State) -> ChunkState {
        ChunkState { breaks, from: 0, word: Word { start: 0, end: 0 }, words: 0, start: 0, told: 0 }
    }
}

#[repr(C)]
#[derive(Clone, Copy)]
pub(crate) struct RawChunk {
    pub(crate) start: usize,
    pub(crate) end: usize,
    pub(crate) words: usize,
    pub(crate) kind: u8,
    pub(crate) rule: u8,
    pub(crate) alone: bool,
}

#[repr(C)]
#[derive(Clone, Copy)]
pub(crate) struct ClassLabel {
    pub(crate) text: [u8; 4],
}

/// A text without the zeros at its end.
pub(crate) fn shown(text: &[u8]) -> &str {
    let end = text.iter().position(|&byte| byte == 0);
    core::str::from_utf8(&text[..end.unwrap_or(text.len())]).unwrap_or("")
}

#[repr(C)]
#[derive(Clone, Copy)]
pub(crate) struct Text {
    pub(crate) text: [u8; 96],
}

const _: () = assert!(size_of::<Text>() == 96);
const _: () = assert!(size_of::<State>() == 16);
const _: () = assert!(size_of::<RawBreak>() == 16);
const _: () = assert!(size_of::<Stream>() == 32);
const _: () = assert!(size_of::<Fed>() == 16);
const _: () = assert!(size_of::<WordState>() == 8);
const _: () = assert!(size_of::<Word>() == 16);
const _: () = assert!(size_of::<RawLimits>() == 32);
const _: () = assert!(size_of::<ChunkState>() == 64);
const _: () = assert!(size_of::<RawChunk>() == 32);
#[cfg(feature = "tables")]
const _: () = assert!(size_of::<RawFault>() == 12);
const _: () = assert!(size_of::<ClassLabel>() == 4);

extern "C" {
    #[cfg(feature = "tables")]
    pub(crate) fn lbk_read(
        table: *mut RawTable,
        line_break: *const u8,
        line_break_size: usize,
        east_asian: *const u8,
        east_asian_size: usize,
        category: *const u8,
        category_size: usize,
        emoji: *const u8,
        emoji_size: usize,
    ) -> RawFault;
    pub(crate) fn lbk_breaks(
        table: *const RawTable,
        state: *mut State,
        text: *const u8,
        size: usize,
        block: *mut RawBreak,
        room: usize,
    ) -> usize;
    pub(crate) fn lbk_positions(
        table: *const RawTable,
        state: *mut State,
        text: *const u8,
        size: usize,
        block: *mut RawBreak,
        room: usize,
    ) -> usize;
    pub(crate) fn lbk_cut(table: *const RawTable, text: *const u8, size: usize, at: usize)
        -> usize;
    pub(crate) fn lbk_cut_before(
        table: *const RawTable,
        text: *const u8,
        size: usize,
        at: usize,
    ) -> usize;
    pub(crate) fn lbk_safe_break(
        table: *const RawTable,
        profile: u8,
        text: *const u8,
        size: usize,
    ) -> usize;
    pub(crate) fn lbk_feed(
        table: *const RawTable,
        stream: *mut Stream,
        piece: *const u8,
        size: usize,
        last: bool,
        block: *mut RawBreak,
        room: usize,
    ) -> Fed;
    pub(crate) fn lbk_words(
        state: *mut WordState,
        text: *const u8,
        size: usize,
        block: *mut Word,
        room: usize,
    ) -> usize;
    pub(crate) fn lbk_chunks(
        table: *const RawTable,
        limits: *const RawLimits,
        state: *mut ChunkState,
        text: *const u8,
        size: usize,
        block: *mut RawChunk,
        room: usize,
    ) -> usize;
    #[cfg(feature = "tables")]
    pub(crate) fn lbk_cause_text(cause: u32) -> Text;
    pub(crate) fn lbk_rule_text(rule: u8) -> Text;
    pub(crate) fn lbk_unicode(table: *mut RawTable);
    pub(crate) fn lbk_class(table: *const RawTable, scalar: u32) -> ClassLabel;
    pub(crate) fn lbk_breaks_utf16(
        table: *const RawTable,
        state: *mut State,
        text: *const u16,
        size: usize,
        block: *mut RawBreak,
        room: usize,
    ) -> usize;
    pub(crate) fn lbk_breaks_utf32(
        table: *const RawTable,
        state: *mut State,
        text: *const u32,
        size: usize,
        block: *mut RawBreak,
        room: usize,
    ) -> usize;
    pub(crate) fn lbk_positions_utf16(
        table: *const RawTable,
        state: *mut State,
        text: *const u16,
        size: usize,
        block: *mut RawBreak,
        room: usize,
    ) -> usize;
    pub(crate) fn lbk_positions_utf32(
        table: *const RawTable,
        state: *mut State,
        text: *const u32,
        size: usize,
        block: *mut RawBreak,
        room: usize,
    ) -> usize;
}
