//! The crate's own interface.

use lbk::{Break, Breaker, Kind, Limits, Profile};

use crate::chance::Chance;
use crate::digest::Digest;

fn kind(kind: Kind) -> u8 {
    if kind == Kind::Must {
        2
    } else {
        1
    }
}

fn put(digest: &mut Digest, found: Break) {
    digest.found(found.at as u64, kind(found.kind), found.rule.number());
}

/// Breaks one by one, and then all that are left at once.
fn breaks(digest: &mut Digest, chance: &mut Chance, mut found: impl Iterator<Item = Break>) {
    for one in found.by_ref().take(chance.below(70)) {
        put(digest, one);
    }
    digest.place(0);
    found.for_each(|one| put(digest, one));
}

fn limits(chance: &mut Chance) -> Limits {
    let bound = chance.one_of(&[10, 100, 1000]);
    let most = chance.below(bound);
    let limits = Limits::new(most).words(chance.one_of(&[0, 0, 1, 5, 30]));
    if chance.one_in(2) {
        return limits;
    }
    limits.least(chance.below(most + 2)).overlap(chance.below(most + 2))
}

/// A text in pieces.
fn pieces(digest: &mut Digest, chance: &mut Chance, breaker: Breaker<'_>, text: &[u8]) {
    let mut stream = breaker.stream();
    for piece in text.chunks(1 + chance.below(100)) {
        let asked = chance.one_of(&[0, 1, 1000, 1000]);
        for one in stream.feed(piece).take(asked) {
            digest.found(one.at, kind(one.kind), one.rule.number());
        }
    }
    stream.finish().for_each(|one| digest.found(one.at, kind(one.kind), one.rule.number()));
    for one in breaker.breaks_of_reader(text) {
        digest.put(one.map_or(u64::MAX, |one| one.at));
    }
}

/// Parts of a text.
fn parts(digest: &mut Digest, chance: &mut Chance, breaker: Breaker<'_>, text: &str) {
    for one in breaker.segments(text) {
        let (content, space) = one.content_and_space();
        digest.found(one.start as u64, kind(one.kind), one.rule.number());
        digest.place(content.len());
        digest.place(space.len());
    }
    breaker.paragraphs(text).for_each(|one| digest.place(one.start));
    for one in breaker.chunks(text, limits(chance)) {
        digest.found(one.start as u64, kind(one.kind), one.rule.number());
        digest.place(one.text.len() * 2 + usize::from(one.alone));
        digest.place(one.words);
    }
    for (at, word) in lbk::words(text) {
        digest.place(at);
        digest.place(word.len());
    }
    let at = chance.below(text.len() + 2);
    digest.place(breaker.next_paragraph(text, at));
    digest.place(breaker.paragraph_start(text, at));
    digest.place(breaker.safe_break(text));
    breaker.breaks_of_part(text).for_each(|one| put(digest, one));
}

/// All of the interface.
pub fn all(digest: &mut Digest, chance: &mut Chance, bytes: &[u8]) {
    let text = String::from_utf8_lossy(bytes);
    let breaker = Breaker::new().profile(chance.one_of(&[Profile::First, Profile::Second]));
    let units: Vec<u16> = text.encode_utf16().collect();
    let codes: Vec<u32> = text.chars().map(u32::from).collect();
    breaks(digest, chance, breaker.breaks(&text));
    breaks(digest, chance, breaker.breaks_utf8(bytes));
    breaks(digest, chance, breaker.breaks_utf16(&units));
    breaks(digest, chance, breaker.breaks_utf32(&codes));
    digest.step("breaks of the crate");
    for one in breaker.positions(&text) {
        digest.found(one.at as u64, one.kind.map_or(0, kind), one.rule.number());
    }
    pieces(digest, chance, breaker, bytes);
    digest.step("pieces of the crate");
    parts(digest, chance, breaker, &text);
    digest.step("parts of the crate");
    text.chars().take(20).for_each(|one| digest.bytes(breaker.class_of(one).name().as_bytes()));
    digest.looked(12 * codes.len());
}
