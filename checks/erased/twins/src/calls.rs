//! Calls over whole texts, a block at a time.

use crate::chance::Chance;
use crate::digest::Digest;
use crate::raw::*;
use crate::tables::{self, Tables};

/// A state in which a call may begin: most are the start of a text, the others any numbers.
pub fn state(chance: &mut Chance, size: usize) -> State {
    let mut state = State { profile: chance.one_of(&[0, 0, 0, 1, 1, 2, 3]), ..State::default() };
    if chance.one_in(5) {
        state.at = chance.below(size + 3);
    }
    if chance.one_in(8) {
        state.row = chance.next() as u16;
    }
    if chance.one_in(30) {
        state.profile = chance.next() as u8;
        state.ended = chance.below(3) as u8;
    }
    state
}

pub fn put_state(digest: &mut Digest, state: &State) {
    digest.place(state.at);
    digest.found(u64::from(state.row), state.profile, state.ended);
}

/// Goes over a text by a call that finds breaks or positions.
fn finds<U>(digest: &mut Digest, chance: &mut Chance, call: Finding<U>, table: &Table, text: &[U]) {
    let mut state = state(chance, text.len());
    let room = chance.one_of(&[0, 1, 2, 3, 7, 32, 64, 64, 128, 6000]);
    let mut block = vec![Break::default(); room];
    digest.looked(text.len());
    loop {
        // SAFETY: all are borrowed, the state and the block for writing, with these sizes.
        let count = unsafe { call(table, &mut state, text.as_ptr(), text.len(), block.as_mut_ptr(), room) };
        digest.place(count);
        block[..count].iter().for_each(|one| digest.found(one.at as u64, one.kind, one.rule));
        put_state(digest, &state);
        if count < room || room == 0 {
            return;
        }
    }
}

/// Goes over a text by all calls.
pub fn all(digest: &mut Digest, chance: &mut Chance, tables: &mut Tables, text: &[u8]) {
    let table = tables.draw(chance);
    finds(digest, chance, lbk_breaks, table, text);
    digest.step("lbk_breaks");
    finds(digest, chance, lbk_positions, table, text);
    digest.step("lbk_positions");
    segments(digest, chance, table, text);
    digest.step("lbk_segments");
    marks(digest, chance, table, text);
    digest.step("lbk_marks");
    words(digest, chance, text);
    digest.step("lbk_words");
    chunks(digest, chance, table, text);
    digest.step("lbk_chunks");
    let units = units_of(chance, text);
    finds(digest, chance, lbk_breaks_utf16, table, &units);
    digest.step("lbk_breaks_utf16");
    finds(digest, chance, lbk_positions_utf16, table, &units);
    digest.step("lbk_positions_utf16");
    let codes = codes_of(chance, text);
    finds(digest, chance, lbk_breaks_utf32, table, &codes);
    digest.step("lbk_breaks_utf32");
    finds(digest, chance, lbk_positions_utf32, table, &codes);
    digest.step("lbk_positions_utf32");
    classes(digest, chance, table);
    digest.step("lbk_class");
}

/// A text in UTF-16, sometimes with lone surrogates.
pub fn units_of(chance: &mut Chance, text: &[u8]) -> Vec<u16> {
    let mut units: Vec<u16> = String::from_utf8_lossy(text).encode_utf16().collect();
    if chance.one_in(4) && !units.is_empty() {
        let at = chance.below(units.len());
        units[at] = 0xD800 + chance.below(0x800) as u16;
    }
    units
}

/// A text in UTF-32, sometimes with numbers that are no scalar values.
fn codes_of(chance: &mut Chance, text: &[u8]) -> Vec<u32> {
    let mut codes: Vec<u32> = String::from_utf8_lossy(text).chars().map(u32::from).collect();
    if chance.one_in(4) && !codes.is_empty() {
        let at = chance.below(codes.len());
        codes[at] = chance.one_of(&[0xD800, 0xDFFF, 0x11_0000, 0xFFFF_FFFF, 0x8000_0061]);
    }
    codes
}

fn segments(digest: &mut Digest, chance: &mut Chance, table: &Table, text: &[u8]) {
    let breaks = state(chance, text.len());
    let mut state = SegmentState { breaks, start: breaks.at.saturating_sub(chance.below(9)) };
    let room = chance.one_of(&[1, 3, 32, 65, 6000]);
    let mut block = vec![Segment::default(); room];
    digest.looked(text.len());
    loop {
        // SAFETY: all are borrowed, the state and the block for writing, with these sizes.
        let count = unsafe { lbk_segments(table, &mut state, text.as_ptr(), text.len(), block.as_mut_ptr(), room) };
        for one in &block[..count] {
            digest.place(one.start);
            digest.found(one.end as u64, one.kind, one.rule);
        }
        put_state(digest, &state.breaks);
        digest.place(state.start);
        if count < room {
            return;
        }
    }
}

fn marks(digest: &mut Digest, chance: &mut Chance, table: &Table, text: &[u8]) {
    let mut state = state(chance, text.len());
    let room = chance.one_of(&[1, 2, 9, 100]);
    if room == 1 && digest.is_narrow {
        return;
    }
    let mut words = vec![0; room];
    digest.looked(text.len());
    loop {
        // SAFETY: all are borrowed, the state and the words for writing, with these sizes.
        let places = unsafe { lbk_marks(table, &mut state, text.as_ptr(), text.len(), words.as_mut_ptr(), room) };
        digest.place(places);
        words.iter().for_each(|word| digest.put(*word));
        put_state(digest, &state);
        if places < 64 * room {
            return;
        }
    }
}

fn words(digest: &mut Digest, chance: &mut Chance, text: &[u8]) {
    let mut at = if chance.one_in(4) { chance.below(text.len() + 2) } else { 0 };
    let room = chance.one_of(&[1, 3, 16, 64, 6000]);
    let mut block = vec![Word::default(); room];
    digest.looked(text.len());
    loop {
        // SAFETY: all are borrowed, the state and the block for writing, with these sizes.
        let count = unsafe { lbk_words(&mut at, text.as_ptr(), text.len(), block.as_mut_ptr(), room) };
        for one in &block[..count] {
            digest.place(one.start);
            digest.place(one.end);
        }
        digest.place(at);
        if count < room {
            return;
        }
    }
}

/// Limits, most of them in range.
fn limits(chance: &mut Chance) -> Limits {
    let most = chance.one_of(&[1, 2, 8, 40, 100, 700, usize::MAX]);
    let below = |chance: &mut Chance, bound: usize| chance.below(bound.min(5000) + 1);
    let (least, overlap) = (below(chance, most), below(chance, most / 2));
    let limits = Limits { most, words: chance.one_of(&[0, 0, 1, 3, 20]), least, overlap };
    if chance.one_in(30) {
        return Limits { most: chance.below(3), ..limits };
    }
    limits
}

fn chunks(digest: &mut Digest, chance: &mut Chance, table: &Table, text: &[u8]) {
    let limits = limits(chance);
    let mut state = ChunkState { breaks: state(chance, 0), ..ChunkState::default() };
    if chance.one_in(10) {
        let mut any = || chance.below(text.len() + 3);
        let word = Word { start: any(), end: any() };
        state = ChunkState { from: any(), word, words: any(), start: any(), told: any(), ..state };
        state.breaks.at = any();
    }
    let room = chance.one_of(&[1, 4, 32]);
    let mut block = vec![Chunk::default(); room];
    digest.looked(text.len());
    loop {
        // SAFETY: all are borrowed, the state and the block for writing, with these sizes.
        let count =
            unsafe { lbk_chunks(table, &limits, &mut state, text.as_ptr(), text.len(), block.as_mut_ptr(), room) };
        for one in &block[..count] {
            digest.place(one.start);
            digest.found(one.end as u64, one.kind, one.rule);
            digest.place(one.words);
            digest.place(usize::from(one.alone));
        }
        put_state(digest, &state.breaks);
        [state.from, state.words, state.start, state.told].iter().for_each(|one| digest.place(*one));
        digest.place(state.word.end);
        if count < room {
            return;
        }
    }
}

/// Some classes, and whether the table is whole.
fn classes(digest: &mut Digest, chance: &mut Chance, table: &Table) {
    for _ in 0..8 {
        let bound = chance.one_of(&[0x80, 0x3000, 0x11_0010]);
        let code = chance.below(bound) as u32;
        // SAFETY: the table is borrowed, and any number is accepted.
        digest.bytes(&unsafe { lbk_class(table, code) }.0);
    }
    if chance.one_in(200) {
        let mut bytes = vec![0; 20_000];
        // SAFETY: the table is borrowed, the bytes for writing, with their size.
        let (whole, size) = unsafe { (lbk_check(table), lbk_pack(table, bytes.as_mut_ptr(), bytes.len())) };
        digest.place(usize::from(whole));
        digest.bytes(&bytes[..size.min(bytes.len())]);
        let at = chance.below(size.max(1));
        bytes[at] ^= u8::from(chance.one_in(2));
        let mut again = tables::empty();
        // SAFETY: the table is borrowed for writing, and the size is at most that of the bytes.
        let cause = unsafe { lbk_unpack(&mut *again, bytes.as_ptr(), size.min(bytes.len())) };
        digest.put(u64::from(cause));
        digest.bytes(&again.0[..0x1000]);
    }
}

/// The names of all classes, and what all rules are called and say.
pub fn names(digest: &mut Digest, table: &Table) {
    for rule in 0..=255 {
        // SAFETY: any number is accepted.
        let (label, text) = unsafe { (lbk_label(rule), lbk_rule_text(rule)) };
        digest.bytes(&label.0);
        digest.bytes(&text.0);
    }
    for code in 0..0x11_0010 {
        // SAFETY: the table is borrowed, and any number is accepted.
        let label = unsafe { lbk_class(table, code) };
        digest.put(u64::from(u32::from_le_bytes(label.0)));
    }
}
