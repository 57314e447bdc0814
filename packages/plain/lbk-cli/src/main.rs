//! `lbk`: finds where a text may break and where it must. The modules but `kit` and `simd` are proved sources without
//! their contracts.
#![deny(unsafe_code)]

extern crate alloc;

#[macro_use]
mod modules;
// (other crates use more of these two)
#[macro_use]
#[allow(dead_code)]
mod kit;
#[allow(dead_code)]
mod simd;

erased! {
    args bstr bytes chunk_reader chunks clap cmd feed files lbk masks notation passage rules scalars
    strsim uax14 ucd ucd_table values words
}

use std::process::ExitCode;

/// Whether callers of `simd` asked what the processor has. The program does not, so each look-up by bytes does.
const ASKED_BEFORE: bool = false;

/// What Windows gives a program's first thread is too little for a build that is not optimized.
#[cfg(windows)]
const STACK: usize = 8 << 20;

#[cfg(windows)]
fn main() -> ExitCode {
    let run = std::thread::Builder::new()
        .stack_size(STACK)
        .spawn(|| lbk::main(kit::HostRuntime));
    run.ok()
        .and_then(|it| it.join().ok())
        .unwrap_or(ExitCode::from(70))
}

#[cfg(not(windows))]
fn main() -> ExitCode {
    lbk::main(kit::HostRuntime)
}
