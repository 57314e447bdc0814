//! Calls the library with drawn texts, tables and states, and writes a digest of all that it gives. Built over the proved
//! library and over the erased one it has to write the same.
//!
//!     twins SEED[/32] POSITIONS[:ROUND] FILE..
//!
//! With a round, a line is written for each step of that one alone. With `/32` what targets of 32 bits give otherwise is
//! left out: bits of one word (`lbk_marks`), which are kept in a `usize`.
//!
//! Texts are parts of the files, and drawn. A line is written for each 100,000 positions or so: the number of the first
//! round after it, how many positions were looked at in all, and the digest of what was given since the line before.

mod calls;
mod chance;
mod digest;
mod interface;
mod parts;
mod raw;
mod tables;
mod texts;

use chance::Chance;
use digest::Digest;
use tables::Tables;
use texts::Texts;

/// After so many positions a line is written.
const LINE: u64 = 100_000;

fn main() {
    let words: Vec<String> = std::env::args().skip(1).collect();
    if words.len() < 2 {
        eprintln!("usage: twins SEED[/32] POSITIONS[:ROUND] FILE..");
        std::process::exit(2);
    }
    let number = |word: &str| word.parse::<u64>().expect("it is a number");
    let (many, one) = words[1].split_once(':').unwrap_or((&words[1], ""));
    let (seed, positions) = (number(words[0].trim_end_matches("/32")), number(many));
    let texts = Texts::read(&words[2..]);
    let mut tables = Tables::new();
    let mut digest = Digest::default();
    digest.is_narrow = words[0].ends_with("/32");
    let (mut round, mut line) = (0, LINE);
    if one.is_empty() {
        calls::names(&mut digest, tables.unicode());
    } else {
        (digest.tells, round) = (true, number(one));
    }
    while digest.positions < positions && (one.is_empty() || digest.positions == 0) {
        // (each round by itself, so that one can be made again)
        let mut chance = Chance::new(seed.wrapping_mul(0x9E37_79B9_7F4A_7C15) ^ round);
        let text = texts.draw(&mut chance);
        calls::all(&mut digest, &mut chance, &mut tables, &text);
        parts::all(&mut digest, &mut chance, &mut tables, &text);
        interface::all(&mut digest, &mut chance, &text);
        round += 1;
        if line <= digest.positions {
            tell(round, &mut digest);
            line = digest.positions + LINE;
        }
    }
    tell(round, &mut digest);
}

fn tell(round: u64, digest: &mut Digest) {
    let positions = digest.positions;
    println!("{round} {positions} {:016x}", digest.take());
}
