//! The symbols of `lbk.h`: each makes references and slices of what C passes, and calls the function of its name.
#![allow(unsafe_code)]

use core::slice;

use crate::bytes::RawBreak;
use crate::c::{self, Fault, Segment, SegmentState};
use crate::calls::{ClassLabel, RuleLabel, State, Text};
use crate::chunks::{Chunk, ChunkState, Limits};
use crate::kit::Global;
use crate::rules::FlatTable;
use crate::streams::{Fed, Stream};
use crate::words::{Word, WordState};

/// So many items from an address on. Without items the address does not matter.
///
/// # Safety
///
/// There are so many initialized items, and nobody writes them while they are borrowed.
unsafe fn items<'a, T>(front: *const T, size: usize) -> &'a [T] {
    if size == 0 {
        &[]
    } else {
        // SAFETY: the caller says so.
        unsafe { slice::from_raw_parts(front, size) }
    }
}

/// The same for writing.
///
/// # Safety
///
/// There are so many initialized items, and nobody else reads or writes them while they are borrowed.
unsafe fn room<'a, T>(front: *mut T, size: usize) -> &'a mut [T] {
    if size == 0 {
        &mut []
    } else {
        // SAFETY: the caller says so.
        unsafe { slice::from_raw_parts_mut(front, size) }
    }
}

/// A symbol, by the types that its function takes: a slice is an address and a size in C, a reference an address.
macro_rules! symbol {
    ($name:ident $out:ty; ($($from:tt)*) ($($to:tt)*)) => {
        #[no_mangle]
        #[allow(unused_unsafe)]
        pub unsafe extern "C" fn $name($($from)*) -> $out {
            // SAFETY: `lbk.h` asks its caller for valid addresses and sizes, for writing where there is no `const`.
            unsafe { c::$name($($to)*) }
        }
    };
    ($name:ident $out:ty; ($($from:tt)*) ($($to:tt)*) Global, $($rest:tt)*) => {
        symbol! { $name $out; ($($from)*) ($($to)* Global,) $($rest)* }
    };
    ($name:ident $out:ty; ($($from:tt)*) ($($to:tt)*) &mut [$type:ty], $($rest:tt)*) => {
        symbol! { $name $out; ($($from)* front: *mut $type, size: usize,) ($($to)* room(front, size),) $($rest)* }
    };
    ($name:ident $out:ty; ($($from:tt)*) ($($to:tt)*) &[$type:ty], $($rest:tt)*) => {
        symbol! { $name $out; ($($from)* front: *const $type, size: usize,) ($($to)* items(front, size),) $($rest)* }
    };
    ($name:ident $out:ty; ($($from:tt)*) ($($to:tt)*) &mut $type:ty, $($rest:tt)*) => {
        symbol! { $name $out; ($($from)* it: *mut $type,) ($($to)* &mut *it,) $($rest)* }
    };
    ($name:ident $out:ty; ($($from:tt)*) ($($to:tt)*) &$type:ty, $($rest:tt)*) => {
        symbol! { $name $out; ($($from)* it: *const $type,) ($($to)* &*it,) $($rest)* }
    };
    ($name:ident $out:ty; ($($from:tt)*) ($($to:tt)*) $type:ty, $($rest:tt)*) => {
        symbol! { $name $out; ($($from)* it: $type,) ($($to)* it,) $($rest)* }
    };
}

macro_rules! symbols {
    ($(fn $name:ident($($type:tt)*) -> $out:ty;)*) => { $( symbol! { $name $out; () () $($type)* } )* };
}

symbols! {
    fn lbk_breaks(&FlatTable, &mut State, &[u8], &mut [RawBreak],) -> usize;
    fn lbk_breaks_utf16(&FlatTable, &mut State, &[u16], &mut [RawBreak],) -> usize;
    fn lbk_breaks_utf32(&FlatTable, &mut State, &[u32], &mut [RawBreak],) -> usize;
    fn lbk_check(&FlatTable,) -> bool;
    fn lbk_chunks(&FlatTable, &Limits, &mut ChunkState, &[u8], &mut [Chunk],) -> usize;
    fn lbk_cause_text(u32,) -> Text;
    fn lbk_claim_text(u32, &[u8],) -> Text;
    fn lbk_class(&FlatTable, u32,) -> ClassLabel;
    fn lbk_cut(&FlatTable, &[u8], usize,) -> usize;
    fn lbk_cut_before(&FlatTable, &[u8], usize,) -> usize;
    fn lbk_cut_before_utf16(&FlatTable, &[u16], usize,) -> usize;
    fn lbk_cut_utf16(&FlatTable, &[u16], usize,) -> usize;
    fn lbk_feed(&FlatTable, &mut Stream, &[u8], bool, &mut [RawBreak],) -> Fed;
    fn lbk_feed_utf16(&FlatTable, &mut Stream, &[u16], bool, &mut [RawBreak],) -> Fed;
    fn lbk_file_name(u32,) -> Text;
    fn lbk_is_cut(&[u8],) -> bool;
    fn lbk_label(u8,) -> RuleLabel;
    fn lbk_marks(&FlatTable, &mut State, &[u8], &mut [u64],) -> usize;
    fn lbk_pack(&FlatTable, &mut [u8],) -> usize;
    fn lbk_positions(&FlatTable, &mut State, &[u8], &mut [RawBreak],) -> usize;
    fn lbk_positions_utf16(&FlatTable, &mut State, &[u16], &mut [RawBreak],) -> usize;
    fn lbk_positions_utf32(&FlatTable, &mut State, &[u32], &mut [RawBreak],) -> usize;
    fn lbk_read(Global, &mut FlatTable, &[u8], &[u8], &[u8], &[u8],) -> Fault;
    fn lbk_read_published(Global, &mut FlatTable, &[u8], &[u8], &[u8], &[u8],) -> Fault;
    fn lbk_remedy_text() -> Text;
    fn lbk_rule_text(u8,) -> Text;
    fn lbk_safe_break(&FlatTable, u8, &[u8],) -> usize;
    fn lbk_segments(&FlatTable, &mut SegmentState, &[u8], &mut [Segment],) -> usize;
    fn lbk_unicode(&mut FlatTable,) -> ();
    fn lbk_unpack(&mut FlatTable, &[u8],) -> u32;
    fn lbk_version() -> Text;
    fn lbk_words(&mut WordState, &[u8], &mut [Word],) -> usize;
}
