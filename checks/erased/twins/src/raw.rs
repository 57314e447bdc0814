//! The types and symbols of `lbk.h`.

#[cfg(feature = "erased")]
use lbk_c as _;

/// How many bytes a table has.
pub const TABLE: usize = 16 + 672 + 0x11_0000;

#[repr(C, align(8))]
pub struct Table(pub [u8; TABLE]);

#[repr(C)]
#[derive(Clone, Copy, Default)]
pub struct State {
    pub at: usize,
    pub row: u16,
    pub profile: u8,
    pub ended: u8,
}

#[repr(C)]
#[derive(Clone, Copy, Default)]
pub struct Break {
    pub at: usize,
    pub kind: u8,
    pub rule: u8,
}

#[repr(C)]
#[derive(Clone, Copy, Default)]
pub struct Segment {
    pub start: usize,
    pub end: usize,
    pub kind: u8,
    pub rule: u8,
}

#[repr(C)]
#[derive(Clone, Copy, Default)]
pub struct SegmentState {
    pub breaks: State,
    pub start: usize,
}

#[repr(C)]
#[derive(Clone, Copy, Default)]
pub struct Stream {
    pub at: u64,
    pub held_at: u64,
    pub row: u16,
    pub held_code: u16,
    pub cut: [u8; 4],
    pub cut_size: u8,
    pub profile: u8,
    pub ended: u8,
}

#[repr(C)]
pub struct Fed {
    pub taken: usize,
    pub count: usize,
}

#[repr(C)]
#[derive(Clone, Copy, Default)]
pub struct Word {
    pub start: usize,
    pub end: usize,
}

#[repr(C)]
#[derive(Clone, Copy, Default)]
pub struct Limits {
    pub most: usize,
    pub words: usize,
    pub least: usize,
    pub overlap: usize,
}

#[repr(C)]
#[derive(Clone, Copy, Default)]
pub struct ChunkState {
    pub breaks: State,
    pub from: usize,
    pub word: Word,
    pub words: usize,
    pub start: usize,
    pub told: usize,
}

#[repr(C)]
#[derive(Clone, Copy, Default)]
pub struct Chunk {
    pub start: usize,
    pub end: usize,
    pub words: usize,
    pub kind: u8,
    pub rule: u8,
    pub alone: bool,
}

/// A name, padded by zeros.
#[repr(C)]
pub struct Label(pub [u8; 4]);

/// A text, padded by zeros.
#[repr(C)]
pub struct Text(pub [u8; 96]);

/// A call that finds breaks or positions of a text.
pub type Finding<U> = unsafe extern "C" fn(*const Table, *mut State, *const U, usize, *mut Break, usize) -> usize;

/// A call that takes a piece of a text.
pub type Feeding<U> = unsafe extern "C" fn(*const Table, *mut Stream, *const U, usize, bool, *mut Break, usize) -> Fed;

/// A call that finds a place where a text may be cut.
pub type Cutting<U> = unsafe extern "C" fn(*const Table, *const U, usize, usize) -> usize;

extern "C" {
    pub fn lbk_breaks(t: *const Table, s: *mut State, p: *const u8, n: usize, b: *mut Break, r: usize) -> usize;
    pub fn lbk_breaks_utf16(t: *const Table, s: *mut State, p: *const u16, n: usize, b: *mut Break, r: usize) -> usize;
    pub fn lbk_breaks_utf32(t: *const Table, s: *mut State, p: *const u32, n: usize, b: *mut Break, r: usize) -> usize;
    pub fn lbk_positions(t: *const Table, s: *mut State, p: *const u8, n: usize, b: *mut Break, r: usize) -> usize;
    pub fn lbk_positions_utf16(
        t: *const Table,
        s: *mut State,
        p: *const u16,
        n: usize,
        b: *mut Break,
        r: usize,
    ) -> usize;
    pub fn lbk_positions_utf32(
        t: *const Table,
        s: *mut State,
        p: *const u32,
        n: usize,
        b: *mut Break,
        r: usize,
    ) -> usize;
    pub fn lbk_marks(t: *const Table, s: *mut State, p: *const u8, n: usize, words: *mut u64, r: usize) -> usize;
    pub fn lbk_segments(
        t: *const Table,
        s: *mut SegmentState,
        p: *const u8,
        n: usize,
        b: *mut Segment,
        r: usize,
    ) -> usize;
    pub fn lbk_feed(
        t: *const Table,
        s: *mut Stream,
        p: *const u8,
        n: usize,
        last: bool,
        b: *mut Break,
        r: usize,
    ) -> Fed;
    pub fn lbk_feed_utf16(
        t: *const Table,
        s: *mut Stream,
        p: *const u16,
        n: usize,
        last: bool,
        b: *mut Break,
        r: usize,
    ) -> Fed;
    pub fn lbk_words(s: *mut usize, p: *const u8, n: usize, b: *mut Word, r: usize) -> usize;
    pub fn lbk_chunks(
        t: *const Table,
        l: *const Limits,
        s: *mut ChunkState,
        p: *const u8,
        n: usize,
        b: *mut Chunk,
        r: usize,
    ) -> usize;
    pub fn lbk_cut(t: *const Table, p: *const u8, n: usize, at: usize) -> usize;
    pub fn lbk_cut_before(t: *const Table, p: *const u8, n: usize, at: usize) -> usize;
    pub fn lbk_cut_utf16(t: *const Table, p: *const u16, n: usize, at: usize) -> usize;
    pub fn lbk_cut_before_utf16(t: *const Table, p: *const u16, n: usize, at: usize) -> usize;
    pub fn lbk_safe_break(t: *const Table, profile: u8, p: *const u8, n: usize) -> usize;
    pub fn lbk_label(rule: u8) -> Label;
    pub fn lbk_rule_text(rule: u8) -> Text;
    pub fn lbk_class(t: *const Table, scalar: u32) -> Label;
    pub fn lbk_check(t: *const Table) -> bool;
    pub fn lbk_pack(t: *const Table, bytes: *mut u8, room: usize) -> usize;
    pub fn lbk_unpack(t: *mut Table, bytes: *const u8, size: usize) -> u32;
    pub fn lbk_unicode(t: *mut Table);
}
