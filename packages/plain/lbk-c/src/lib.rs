//! The calls of `include/lbk.h`. The modules but `kit`, `simd` and `symbols` are proved sources without their contracts.
#![deny(unsafe_code)]

extern crate alloc;

#[macro_use]
mod modules;
// (other crates use more of these two)
#[allow(dead_code)]
mod kit;
#[allow(dead_code)]
mod simd;
mod symbols;

erased! {
    bstr bytes c calls chunks masks rules scalars streams uax14 ucd ucd_table units values words
}

/// Whether callers of `simd` asked what the processor has. These do not, so each look-up by bytes does.
const ASKED_BEFORE: bool = false;
