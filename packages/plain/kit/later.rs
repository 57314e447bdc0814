//! Calls that later versions of Rust's std have. Where std has one, it is taken, and not that of these traits.
#![allow(unsafe_code)]

/// Arrays side by side as their items.
pub trait AsFlattened<T> {
    fn as_flattened(&self) -> &[T];
}

impl<T, const SIZE: usize> AsFlattened<T> for [[T; SIZE]] {
    #[inline(always)]
    fn as_flattened(&self) -> &[T] {
        // SAFETY: arrays side by side are their items side by side, and these are as many.
        unsafe { core::slice::from_raw_parts(self.as_ptr().cast(), self.len() * SIZE) }
    }
}

/// Bytes without white space at their end.
pub trait TrimAsciiEnd {
    fn trim_ascii_end(&self) -> &[u8];
}

impl TrimAsciiEnd for [u8] {
    fn trim_ascii_end(&self) -> &[u8] {
        let space = self
            .iter()
            .rev()
            .take_while(|byte| byte.is_ascii_whitespace())
            .count();
        &self[..self.len() - space]
    }
}

/// The last boundary of a character at or before an offset, or the length where that is past it.
pub trait FloorCharBoundary {
    fn floor_char_boundary(&self, at: usize) -> usize;
}

impl FloorCharBoundary for str {
    fn floor_char_boundary(&self, at: usize) -> usize {
        if at >= self.len() {
            return self.len();
        }
        (0..=at)
            .rev()
            .find(|&it| self.is_char_boundary(it))
            .unwrap_or(0)
    }
}

#[cfg(test)]
mod tests {
    use super::{AsFlattened, FloorCharBoundary, TrimAsciiEnd};

    #[test]
    fn they_are_those_of_std() {
        assert_eq!(
            AsFlattened::as_flattened(&[[1, 2], [3, 4]][..]),
            [1, 2, 3, 4]
        );
        assert_eq!(TrimAsciiEnd::trim_ascii_end(&b" a b \t\n"[..]), b" a b");
        assert_eq!(TrimAsciiEnd::trim_ascii_end(&b" \x0b"[..]), b" \x0b");
        let ends = [0, 1, 1, 3, 3, 3, 6, 6, 6, 6, 10, 10];
        for (at, &end) in ends.iter().enumerate() {
            assert_eq!(
                FloorCharBoundary::floor_char_boundary("aé一😀", at),
                end,
                "at {at}"
            );
        }
    }
}
