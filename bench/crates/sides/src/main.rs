//! Measures ways over texts, side by side in one process, in turns.
//!
//!     sides ROUNDS LIBRARY:FUNCTION.. -- TEXT..
//!
//! Each library is one that was built of `ways`. For pieces of three sizes a table has a row for each text, with the
//! throughput of each way in MB/s, the best of the rounds, and last the mean of the shares that the first way's
//! throughput is divided into: that of each way by that of the first.

use std::ffi::{c_char, c_int, c_void, CString};
use std::time::Instant;

extern "C" {
    fn dlopen(name: *const c_char, flags: c_int) -> *mut c_void;
    fn dlsym(library: *mut c_void, name: *const c_char) -> *mut c_void;
}

const NOW: c_int = 2;

/// How many bytes of each text are taken.
const SIZE: usize = 500_000;

type Call = unsafe extern "C" fn(*const u8, usize, usize) -> usize;

struct Way {
    name: String,
    call: Call,
}

impl Way {
    fn open(word: &str) -> Way {
        let (library, function) = word.split_once(':').expect("LIBRARY:FUNCTION");
        let (path, symbol) = (CString::new(library).unwrap(), CString::new(function).unwrap());
        // SAFETY: both names end with a zero.
        let found = unsafe { dlsym(dlopen(path.as_ptr(), NOW), symbol.as_ptr()) };
        assert!(!found.is_null(), "{word} is not there");
        let front = library.rsplit('/').next().unwrap_or(library).trim_start_matches("lib");
        let name = format!("{}.{function}", front.trim_end_matches(".so"));
        // SAFETY: `ways` has functions of this type alone.
        Way { name, call: unsafe { std::mem::transmute::<*mut c_void, Call>(found) } }
    }

    /// The seconds for a text, and the sum.
    fn run(&self, text: &str, piece: usize) -> (f64, usize) {
        let start = Instant::now();
        // SAFETY: the text is UTF-8 of this length.
        let sum = unsafe { (self.call)(text.as_ptr(), text.len(), piece) };
        (start.elapsed().as_secs_f64(), sum)
    }
}

fn read(name: &String) -> (String, String) {
    let bytes = std::fs::read(name).unwrap_or_else(|why| panic!("{name}: {why}"));
    let text = String::from_utf8_lossy(&bytes).into_owned();
    let end = (0..=SIZE.min(text.len())).rev().find(|end| text.is_char_boundary(*end));
    let short = name.rsplit('/').next().unwrap_or(name).trim_end_matches(".txt");
    (short.to_string(), text[..end.unwrap_or(0)].to_string())
}

/// The best seconds of each way over a text.
fn best(ways: &[Way], text: &str, piece: usize, rounds: usize) -> Vec<f64> {
    let mut best = vec![f64::MAX; ways.len()];
    for _ in 0..rounds {
        for (best, way) in best.iter_mut().zip(ways) {
            *best = best.min(way.run(text, piece).0);
        }
    }
    best
}

fn main() {
    let words: Vec<String> = std::env::args().skip(1).collect();
    let cut = words.iter().position(|word| word == "--").expect("-- is before the texts");
    let rounds: usize = words[0].parse().expect("the first word is a number");
    let ways: Vec<Way> = words[1..cut].iter().map(|word| Way::open(word)).collect();
    let texts: Vec<_> = words[cut + 1..].iter().map(read).collect();
    for piece in [SIZE, 60, 8] {
        print!("{:10}", if piece == SIZE { "whole".into() } else { format!("{piece} bytes") });
        ways.iter().for_each(|way| print!(" {:>20}", way.name));
        println!("  MB/s");
        let mut shares = vec![0.0; ways.len()];
        for (name, text) in &texts {
            let best = best(&ways, text, piece, rounds);
            print!("{name:10}");
            for (share, seconds) in shares.iter_mut().zip(&best) {
                print!(" {:13.0} ({:4.2})", text.len() as f64 / 1e6 / seconds, best[0] / seconds);
                *share += (best[0] / seconds).ln() / texts.len() as f64;
            }
            println!();
        }
        print!("{:10}", "mean");
        shares.iter().for_each(|share| print!(" {:>20.2}", share.exp()));
        println!();
    }
}
