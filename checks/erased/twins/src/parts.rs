//! Calls over pieces and parts of texts.

use crate::calls::units_of;
use crate::chance::Chance;
use crate::digest::Digest;
use crate::raw::*;
use crate::tables::Tables;

/// A stream at its start, or with any numbers.
fn stream(chance: &mut Chance) -> Stream {
    let profile = chance.one_of(&[0, 0, 1, 1, 2, 3]);
    if chance.one_in(10) {
        let (at, held_at) = (chance.below(1 << 20) as u64, chance.below(1 << 20) as u64);
        let cut = (chance.next() as u32).to_le_bytes();
        let (row, held_code) = (chance.next() as u16, chance.next() as u16 * chance.below(2) as u16);
        let (cut_size, ended) = (chance.below(6) as u8, u8::from(chance.one_in(9)));
        return Stream { at, held_at, row, held_code, cut, cut_size, profile, ended };
    }
    Stream { profile, ..Stream::default() }
}

fn put_stream(digest: &mut Digest, stream: &Stream) {
    digest.put(stream.at);
    digest.put(stream.held_at * u64::from(stream.held_code != 0));
    digest.found(u64::from(stream.row), stream.profile, stream.ended);
    digest.found(u64::from(stream.held_code), stream.cut_size, 0);
    let size = usize::from(stream.cut_size).min(stream.cut.len());
    digest.bytes(&stream.cut[..size]);
}

/// Goes over a text in pieces.
fn feeds<U: Copy>(digest: &mut Digest, chance: &mut Chance, call: Feeding<U>, table: &Table, text: &[U]) {
    let mut stream = stream(chance);
    let room = chance.one_of(&[1, 2, 5, 32, 200]);
    let longest = chance.one_of(&[1, 2, 3, 7, 64, 300]);
    let mut block = vec![Break::default(); room];
    let mut rest = text;
    let mut pieces = 0;
    digest.looked(text.len());
    while pieces <= 2 * text.len() + 2 {
        let size = chance.below(longest + 1).min(rest.len());
        let last = size == rest.len() && (chance.one_in(2) || size == 0);
        let piece = &rest[..size];
        // SAFETY: all are borrowed, the stream and the block for writing, with these sizes.
        let fed = unsafe { call(table, &mut stream, piece.as_ptr(), size, last, block.as_mut_ptr(), room) };
        digest.place(fed.taken);
        block[..fed.count].iter().for_each(|one| digest.found(one.at as u64, one.kind, one.rule));
        put_stream(digest, &stream);
        rest = &rest[fed.taken..];
        pieces += 1;
        if last && fed.count < room {
            return;
        }
    }
}

/// Places where a text may be cut.
fn cuts<U>(digest: &mut Digest, chance: &mut Chance, calls: [Cutting<U>; 2], table: &Table, text: &[U]) {
    for call in calls {
        for _ in 0..3 {
            let at = if chance.one_in(20) { usize::MAX } else { chance.below(text.len() + 3) };
            // SAFETY: both are borrowed, and the size is that of the text.
            digest.place(unsafe { call(table, text.as_ptr(), text.len(), at) });
        }
    }
    digest.looked(text.len());
}

/// All calls over pieces and parts.
pub fn all(digest: &mut Digest, chance: &mut Chance, tables: &mut Tables, text: &[u8]) {
    let table = tables.draw(chance);
    let units = units_of(chance, text);
    feeds(digest, chance, lbk_feed, table, text);
    digest.step("lbk_feed");
    feeds(digest, chance, lbk_feed_utf16, table, &units);
    digest.step("lbk_feed_utf16");
    cuts(digest, chance, [lbk_cut, lbk_cut_before], table, text);
    cuts(digest, chance, [lbk_cut_utf16, lbk_cut_before_utf16], table, &units);
    digest.step("cuts");
    let profile = chance.one_of(&[0, 1, 2, 3, 200]);
    let size = chance.below(text.len() + 1);
    // SAFETY: both are borrowed, and the size is at most that of the text.
    digest.place(unsafe { lbk_safe_break(table, profile, text.as_ptr(), size) });
    digest.looked(size);
    digest.step("lbk_safe_break");
}
