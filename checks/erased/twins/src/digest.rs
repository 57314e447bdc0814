//! What calls gave, as a number, and how many positions they looked at.

#[derive(Default)]
pub struct Digest {
    pub positions: u64,
    /// Whether what targets of 32 bits give otherwise is left out.
    pub is_narrow: bool,
    /// Whether each step of a round is told.
    pub tells: bool,
    value: u64,
}

impl Digest {
    pub fn put(&mut self, number: u64) {
        self.value = (self.value.rotate_left(23) ^ number).wrapping_mul(0x9E37_79B9_7F4A_7C15);
    }

    pub fn place(&mut self, place: usize) {
        self.put(place as u64);
    }

    pub fn bytes(&mut self, bytes: &[u8]) {
        self.place(bytes.len());
        bytes.iter().for_each(|byte| self.put(u64::from(*byte)));
    }

    /// A break or a position.
    pub fn found(&mut self, at: u64, kind: u8, rule: u8) {
        self.put(at << 16 | u64::from(kind) << 8 | u64::from(rule));
    }

    /// A call looked at so many units.
    pub fn looked(&mut self, units: usize) {
        self.positions += units as u64 + 1;
    }

    /// A step of a round ends.
    pub fn step(&mut self, name: &str) {
        if self.tells {
            println!("{name} {:016x}", self.value);
        }
    }

    /// The digest since it was last taken.
    pub fn take(&mut self) -> u64 {
        std::mem::take(&mut self.value)
    }
}
