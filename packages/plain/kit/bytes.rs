//! Searches in bytes.

/// The index of a byte in bytes.
pub fn memchr(byte: u8, bytes: &[u8]) -> Option<usize> {
    bytes.iter().position(|&one| one == byte)
}

pub trait ByteSlice {
    /// Where some bytes, at least one, first are.
    fn find(&self, what: &[u8]) -> Option<usize>;

    fn starts_with_str(&self, front: &[u8]) -> bool;
}

impl ByteSlice for [u8] {
    fn find(&self, what: &[u8]) -> Option<usize> {
        self.windows(what.len()).position(|part| part == what)
    }

    fn starts_with_str(&self, front: &[u8]) -> bool {
        self.starts_with(front)
    }
}
