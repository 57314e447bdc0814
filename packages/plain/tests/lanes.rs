//! Sixteen bytes side by side, by whatever the build chooses, beside plain arrays: over all bytes, and pairs of them.

#[allow(dead_code)]
#[path = "../src/simd.rs"]
mod simd;
#[allow(dead_code)]
const ASKED_BEFORE: bool = false;

use core::array::from_fn;
use simd::{u8x16, Mask, Simd};

/// The sixteen bytes, by what compares them.
fn bytes(lanes: u8x16) -> [u8; 16] {
    from_fn(|place| {
        let is_here = |byte: &u8| lanes.simd_eq(u8x16::splat(*byte)).to_bitmask() >> place & 1 == 1;
        (0..=255).find(is_here).expect("one byte is equal")
    })
}

/// The places where a condition holds, as bits.
fn bits(holds: [bool; 16]) -> u64 {
    (0..16).map(|place| u64::from(holds[place]) << place).sum()
}

/// Rows of bytes, in which each byte stands at each place.
fn rows() -> impl Iterator<Item = [u8; 16]> {
    (0..=255_u8).map(|first| from_fn(|place| first.wrapping_add((place * 37) as u8)))
}

fn equal(a: u8x16, b: u8x16) -> Mask {
    a.simd_eq(b)
}

#[test]
fn bytes_are_loaded_and_splat() {
    for row in rows() {
        assert_eq!(bytes(u8x16::from_array(row)), row);
        let longer: Vec<u8> = row.iter().copied().chain([9, 8]).collect();
        assert_eq!(bytes(u8x16::from_slice(&longer)), row);
        assert_eq!(bytes(u8x16::splat(row[0])), [row[0]; 16]);
    }
}

#[test]
#[should_panic(expected = "fewer than 16 bytes")]
fn fewer_bytes_are_refused() {
    u8x16::from_slice(&[0; 15]);
}

#[test]
fn two_bytes_are_compared() {
    for row in rows() {
        for other in 0..=255_u8 {
            let (a, b) = (u8x16::from_array(row), u8x16::splat(other));
            assert_eq!(a.simd_eq(b).to_bitmask(), bits(row.map(|byte| byte == other)));
            assert_eq!(a.simd_ne(b).to_bitmask(), bits(row.map(|byte| byte != other)));
            assert_eq!(a.simd_ge(b).to_bitmask(), bits(row.map(|byte| byte >= other)));
        }
    }
}

#[test]
fn bits_of_bytes() {
    for (row, mask) in rows().zip(rows().skip(85)) {
        let (a, b) = (u8x16::from_array(row), u8x16::from_array(mask));
        assert_eq!(bytes(a & b), from_fn(|place| row[place] & mask[place]));
        assert_eq!(bytes(a >> u8x16::splat(4)), row.map(|byte| byte >> 4));
    }
}

#[test]
fn a_byte_is_looked_up() {
    for row in rows() {
        for first in 0..16_u8 {
            let places = from_fn(|place| (first + place as u8 * 5) % 16);
            let found = u8x16::from_array(row).swizzle_dyn(u8x16::from_array(places));
            assert_eq!(bytes(found), places.map(|place| row[usize::from(place)]));
        }
    }
}

#[test]
fn the_byte_before_each() {
    for (row, next) in rows().zip(rows().skip(1)) {
        let moved = u8x16::from_array(row)
            .shuffle(u8x16::from_array(next), from_fn(|place| 15 + place as u8));
        let wanted = from_fn(|place| if place == 0 { row[15] } else { next[place - 1] });
        assert_eq!(bytes(moved), wanted);
    }
}

#[test]
fn one_of_two_bytes() {
    for (row, other) in rows().zip(rows().skip(7)) {
        let (a, b) = (u8x16::from_array(row), u8x16::from_array(other));
        for byte in [row[0], row[9], other[3]] {
            let chosen = equal(a, u8x16::splat(byte)).select(a, b);
            assert_eq!(
                bytes(chosen),
                from_fn(|place| if row[place] == byte { row[place] } else { other[place] })
            );
        }
    }
}

#[test]
fn any_number_of_items() {
    let mut to = [0_u16; 6];
    Simd::<u16, 4>::from_array([1, 2, 3, 4]).copy_to_slice(&mut to[1..]);
    assert_eq!(to, [0, 1, 2, 3, 4, 0]);
}
