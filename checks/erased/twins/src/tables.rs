//! Tables: that of Unicode 15.0, others that are whole, and corrupt ones.

use crate::chance::Chance;
use crate::raw::{lbk_unicode, Table, TABLE};

/// Where the kinds begin, and the neighbours.
const KINDS: usize = 16 + 672;
const NEIGHBOURS: usize = 16;

pub struct Tables {
    unicode: Box<Table>,
    other: Box<Table>,
}

/// A table that is all zeros.
pub fn empty() -> Box<Table> {
    let bytes: Box<[u64]> = vec![0_u64; TABLE / 8].into_boxed_slice();
    // SAFETY: a table is so many bytes, aligned as numbers of 64 bits, and may have any.
    unsafe { Box::from_raw(Box::into_raw(bytes).cast::<Table>()) }
}

impl Tables {
    pub fn new() -> Tables {
        let mut unicode = empty();
        // SAFETY: the table is borrowed for writing.
        unsafe { lbk_unicode(&mut *unicode) };
        Tables { unicode, other: empty() }
    }

    pub fn unicode(&self) -> &Table {
        &self.unicode
    }

    /// A table: mostly that of Unicode.
    pub fn draw(&mut self, chance: &mut Chance) -> &Table {
        // (each round draws it by itself, so it is the same whatever was drawn before)
        if !chance.one_in(12) {
            return &self.unicode;
        }
        self.other.0.copy_from_slice(&self.unicode.0);
        match chance.below(4) {
            0 => mixed(chance, &mut self.other.0[KINDS..]),
            1 => spoilt(chance, &mut self.other.0[NEIGHBOURS..KINDS]),
            2 => spoilt(chance, &mut self.other.0[KINDS..KINDS + 0x3000]),
            _ => {
                for byte in &mut self.other.0[NEIGHBOURS..KINDS] {
                    *byte = chance.next() as u8;
                }
            }
        }
        &self.other
    }
}

/// Runs of any kinds for the characters of texts.
fn mixed(chance: &mut Chance, kinds: &mut [u8]) {
    let mut at = 0;
    while at < 0x3200 {
        let end = at + 1 + chance.below(40);
        let kind = if chance.one_in(20) { chance.next() as u8 } else { chance.below(84) as u8 };
        kinds[at..end].fill(kind);
        at = end;
    }
}

/// Some bytes changed.
fn spoilt(chance: &mut Chance, bytes: &mut [u8]) {
    for _ in 0..1 + chance.below(12) {
        let at = chance.below(bytes.len());
        bytes[at] = chance.next() as u8;
    }
}
