//! Sixteen bytes side by side: what the erased modules use of Rattle's `std::simd`, by SSE2 to SSE4.1, by NEON, or by
//! plain arrays. The features are those of the build; `plain` in `RUSTFLAGS="--cfg plain"` chooses the arrays anywhere.
#![allow(non_camel_case_types)]
use core::ops::{BitAnd, Shr};
use lanes::V;

/// Whether masks are taken. A crate in which this is asked before any look-up of bytes says so by `ASKED_BEFORE`: then it
/// is whether the processor has what `u8x16` needs to be fast. In another crate masks are always taken.
#[inline(always)]
pub(crate) fn are_taken() -> bool {
    !crate::ASKED_BEFORE || lanes::are_here()
}

#[derive(Clone, Copy)]
pub(crate) struct u8x16(V);

/// All bits of a byte set, or none.
#[derive(Clone, Copy)]
pub(crate) struct Mask(V);

#[rustfmt::skip]
impl u8x16 {
    #[inline(always)]
    pub(crate) fn splat(byte: u8) -> u8x16 { u8x16(lanes::splat(byte)) }
    #[inline(always)]
    pub(crate) fn from_array(bytes: [u8; 16]) -> u8x16 { u8x16(lanes::load(&bytes)) }
    #[inline(always)]
    pub(crate) fn from_slice(bytes: &[u8]) -> u8x16 {
        match bytes.get(..16).and_then(|front| front.try_into().ok()) {
            Some(front) => u8x16(lanes::load(front)),
            None => panic!("fewer than 16 bytes"),
        }
    }
    #[inline(always)]
    pub(crate) fn simd_eq(self, other: u8x16) -> Mask { Mask(lanes::eq(self.0, other.0)) }
    #[inline(always)]
    pub(crate) fn simd_ne(self, other: u8x16) -> Mask { Mask(lanes::not(lanes::eq(self.0, other.0))) }
    #[inline(always)]
    pub(crate) fn simd_ge(self, other: u8x16) -> Mask { Mask(lanes::ge(self.0, other.0)) }
    /// The byte of each place, which is below 16.
    #[inline(always)]
    pub(crate) fn swizzle_dyn(self, places: u8x16) -> u8x16 { u8x16(lanes::look(self.0, places.0)) }
    /// The last byte, and the first 15 of others: `places` are 15 to 30.
    #[inline(always)]
    pub(crate) fn shuffle(self, other: u8x16, places: [u8; 16]) -> u8x16 {
        debug_assert!(places[0] == 15 && places.windows(2).all(|two| two[0] + 1 == two[1]));
        u8x16(lanes::behind(self.0, other.0))
    }
}

#[rustfmt::skip]
impl Mask {
    #[inline(always)]
    pub(crate) fn select(self, one: u8x16, other: u8x16) -> u8x16 { u8x16(lanes::select(self.0, one.0, other.0)) }
    #[inline(always)]
    pub(crate) fn to_bitmask(self) -> u64 { u64::from(lanes::bits(self.0)) }
}

impl BitAnd for u8x16 {
    type Output = u8x16;
    #[inline(always)]
    fn bitand(self, other: u8x16) -> u8x16 {
        u8x16(lanes::and(self.0, other.0))
    }
}

/// By 4, which each of the counts is.
impl Shr for u8x16 {
    type Output = u8x16;
    #[inline(always)]
    fn shr(self, counts: u8x16) -> u8x16 {
        debug_assert!(counts.simd_ne(u8x16::splat(4)).to_bitmask() == 0);
        u8x16(lanes::high_halves(self.0))
    }
}

#[cfg(all(target_arch = "x86_64", not(plain)))]
#[allow(unsafe_code)]
#[rustfmt::skip]
mod lanes {
    use core::arch::x86_64::*;
    pub(super) type V = __m128i;
    macro_rules! lanes {
        ($(fn $name:ident($($arg:ident: $kind:ty),*) -> $out:ty $body:block)*) => { $(
            #[inline(always)]
            // SAFETY: x86-64 has SSE2.
            pub(super) fn $name($($arg: $kind),*) -> $out { unsafe { $body } }
        )* };
    }
    lanes! {
        fn splat(byte: u8) -> V { _mm_set1_epi8(byte as i8) }
        fn load(bytes: &[u8; 16]) -> V { _mm_loadu_si128(bytes.as_ptr().cast()) }
        fn and(a: V, b: V) -> V { _mm_and_si128(a, b) }
        fn not(a: V) -> V { _mm_xor_si128(a, _mm_set1_epi8(-1)) }
        fn eq(a: V, b: V) -> V { _mm_cmpeq_epi8(a, b) }
        fn ge(a: V, b: V) -> V { _mm_cmpeq_epi8(_mm_max_epu8(a, b), a) }
        fn bits(mask: V) -> u16 { _mm_movemask_epi8(mask) as u16 }
        fn high_halves(a: V) -> V { _mm_and_si128(_mm_srli_epi16::<4>(a), _mm_set1_epi8(15)) }
        fn behind(a: V, b: V) -> V { _mm_or_si128(_mm_srli_si128::<15>(a), _mm_slli_si128::<1>(b)) }
    }

    /// Whether the processor has SSE4.1, and so SSSE3, for `look` and `select`.
    #[cfg(target_feature = "sse4.1")]
    #[inline(always)]
    pub(super) fn are_here() -> bool { true }

    /// The same where the build does not say so: the processor is asked once.
    #[cfg(not(target_feature = "sse4.1"))]
    #[inline(always)]
    pub(super) fn are_here() -> bool {
        use core::sync::atomic::{AtomicU8, Ordering::Relaxed};
        static KNOWN: AtomicU8 = AtomicU8::new(2);
        #[cold]
        fn ask() -> bool {
            // SAFETY: each processor of x86-64 has CPUID, with leaf 1.
            #[allow(unused_unsafe)]
            let has = unsafe { __cpuid(1) }.ecx >> 19 & 1;
            KNOWN.store(has as u8, Relaxed);
            has == 1
        }
        match KNOWN.load(Relaxed) {
            2 => ask(),
            known => known == 1,
        }
    }

    #[cfg(target_feature = "sse4.1")]
    lanes! {
        fn look(row: V, places: V) -> V { _mm_shuffle_epi8(row, places) }
        fn select(mask: V, a: V, b: V) -> V { _mm_blendv_epi8(b, a, mask) }
    }

    /// By an instruction of SSSE3. Its intrinsic would be a call in each function that is not compiled for SSSE3.
    #[cfg(not(target_feature = "sse4.1"))]
    #[inline(always)]
    pub(super) fn look(row: V, places: V) -> V {
        if !crate::ASKED_BEFORE && !are_here() { return look_by_bytes(row, places); }
        let mut found = row;
        // SAFETY: it writes one register, and the processor has SSSE3.
        unsafe {
            core::arch::asm!("pshufb {0}, {1}", inout(xmm_reg) found, in(xmm_reg) places,
                options(pure, nomem, nostack, preserves_flags));
        }
        found
    }

    /// By one of SSE4.1. In a crate that does not ask before, to ask would take as long as this saves; a test asks.
    #[cfg(not(target_feature = "sse4.1"))]
    #[inline(always)]
    pub(super) fn select(mask: V, a: V, b: V) -> V {
        let is_taken = crate::ASKED_BEFORE || cfg!(test) && are_here();
        if !is_taken { return select_by_bits(mask, a, b); }
        let mut chosen = b;
        // SAFETY: it writes one register, and the processor has SSE4.1.
        unsafe {
            core::arch::asm!("pblendvb {0}, {1}, xmm0", inout(xmm_reg) chosen, in(xmm_reg) a, in("xmm0") mask,
                options(pure, nomem, nostack, preserves_flags));
        }
        chosen
    }

    #[cfg(not(target_feature = "sse4.1"))]
    lanes! {
        fn select_by_bits(mask: V, a: V, b: V) -> V { _mm_or_si128(_mm_and_si128(mask, a), _mm_andnot_si128(mask, b)) }
        fn look_by_bytes(row: V, places: V) -> V {
            let (mut row_bytes, mut bytes) = ([0_u8; 16], [0_u8; 16]);
            _mm_storeu_si128(row_bytes.as_mut_ptr().cast(), row);
            _mm_storeu_si128(bytes.as_mut_ptr().cast(), places);
            load(&bytes.map(|place| row_bytes[usize::from(place & 15)]))
        }
    }
}

#[cfg(all(target_arch = "aarch64", target_feature = "neon", not(plain)))]
#[allow(unsafe_code)]
#[rustfmt::skip]
mod lanes {
    use core::arch::aarch64::*;
    pub(super) type V = uint8x16_t;
    const WEIGHTS: [u8; 16] = [1, 2, 4, 8, 16, 32, 64, 128, 1, 2, 4, 8, 16, 32, 64, 128];
    macro_rules! lanes {
        ($(fn $name:ident($($arg:ident: $kind:ty),*) -> $out:ty $body:block)*) => { $(
            #[inline(always)]
            // SAFETY: the build has NEON.
            pub(super) fn $name($($arg: $kind),*) -> $out { unsafe { $body } }
        )* };
    }
    lanes! {
        fn splat(byte: u8) -> V { vdupq_n_u8(byte) }
        fn load(bytes: &[u8; 16]) -> V { vld1q_u8(bytes.as_ptr()) }
        fn and(a: V, b: V) -> V { vandq_u8(a, b) }
        fn not(a: V) -> V { vmvnq_u8(a) }
        fn eq(a: V, b: V) -> V { vceqq_u8(a, b) }
        fn ge(a: V, b: V) -> V { vcgeq_u8(a, b) }
        fn select(mask: V, a: V, b: V) -> V { vbslq_u8(mask, a, b) }
        fn bits(mask: V) -> u16 {
            let each = vandq_u8(mask, load(&WEIGHTS));
            u16::from(vaddv_u8(vget_low_u8(each))) | u16::from(vaddv_u8(vget_high_u8(each))) << 8
        }
        fn high_halves(a: V) -> V { vshrq_n_u8::<4>(a) }
        fn behind(a: V, b: V) -> V { vextq_u8::<15>(a, b) }
        fn look(row: V, places: V) -> V { vqtbl1q_u8(row, places) }
    }
    #[inline(always)]
    pub(super) fn are_here() -> bool { true }
}

#[cfg(not(all(any(target_arch = "x86_64", all(target_arch = "aarch64", target_feature = "neon")), not(plain))))]
#[rustfmt::skip]
mod lanes {
    use core::array::from_fn;
    pub(super) type V = [u8; 16];
    pub(super) fn are_here() -> bool { false }
    fn mask(holds: bool) -> u8 { if holds { 255 } else { 0 } }
    pub(super) fn splat(byte: u8) -> V { [byte; 16] }
    pub(super) fn load(bytes: &[u8; 16]) -> V { *bytes }
    pub(super) fn and(a: V, b: V) -> V { from_fn(|i| a[i] & b[i]) }
    pub(super) fn not(a: V) -> V { a.map(|byte| !byte) }
    pub(super) fn eq(a: V, b: V) -> V { from_fn(|i| mask(a[i] == b[i])) }
    pub(super) fn ge(a: V, b: V) -> V { from_fn(|i| mask(a[i] >= b[i])) }
    pub(super) fn select(m: V, a: V, b: V) -> V { from_fn(|i| m[i] & a[i] | !m[i] & b[i]) }
    pub(super) fn bits(m: V) -> u16 { (0..16).fold(0, |bits, i| bits | u16::from(m[i] & 1) << i) }
    pub(super) fn high_halves(a: V) -> V { a.map(|byte| byte >> 4) }
    pub(super) fn behind(a: V, b: V) -> V { from_fn(|i| if i == 0 { a[15] } else { b[i - 1] }) }
    pub(super) fn look(row: V, places: V) -> V { places.map(|place| row[usize::from(place & 15)]) }
}

/// Any number of bytes side by side.
pub(crate) struct Simd<T, const N: usize>([T; N]);

impl<T: Copy, const N: usize> Simd<T, N> {
    #[inline(always)]
    pub(crate) fn from_array(items: [T; N]) -> Self {
        Simd(items)
    }

    #[inline(always)]
    pub(crate) fn copy_to_slice(self, to: &mut [T]) {
        to[..N].copy_from_slice(&self.0);
    }
}
