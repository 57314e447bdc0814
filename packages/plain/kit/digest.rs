//! SHA-256 (FIPS 180-4).

/// A digest of the bytes that it was given.
pub struct Sha256 {
    state: [u32; 8],
    block: [u8; 64],
    held: usize,
    count: u64,
}

/// The first primes.
const fn primes() -> [u64; 64] {
    let (mut found, mut count, mut number) = ([0; 64], 0, 2);
    while count < 64 {
        let (mut divisor, mut is_prime) = (2, true);
        while divisor * divisor <= number {
            if number % divisor == 0 {
                is_prime = false;
            }
            divisor += 1;
        }
        if is_prime {
            found[count] = number;
            count += 1;
        }
        number += 1;
    }
    found
}

/// The first 32 bits behind the point of a number's square root, or of its cube root: the low bits of the largest
/// number whose power is at most that number with so many zero bits behind it.
const fn root(number: u64, power: u32) -> u32 {
    let (mut low, mut high) = (0u128, 1u128 << 37);
    while high - low > 1 {
        let middle = (low + high) / 2;
        let square = middle * middle;
        let fits = if power == 2 {
            square <= (number as u128) << 64
        } else {
            square * middle <= (number as u128) << 96
        };
        if fits {
            low = middle;
        } else {
            high = middle;
        }
    }
    low as u32
}

const fn constants() -> ([u32; 64], [u32; 8]) {
    let (primes, mut rounds, mut start, mut at) = (primes(), [0; 64], [0; 8], 0);
    while at < 64 {
        rounds[at] = root(primes[at], 3);
        if at < 8 {
            start[at] = root(primes[at], 2);
        }
        at += 1;
    }
    (rounds, start)
}

const CONSTANTS: ([u32; 64], [u32; 8]) = constants();

/// Takes a block into the state.
fn take(state: &mut [u32; 8], block: &[u8; 64]) {
    let mut words = [0u32; 16];
    for (word, four) in words.iter_mut().zip(block.chunks_exact(4)) {
        *word = u32::from_be_bytes([four[0], four[1], four[2], four[3]]);
    }
    let mut s = *state;
    for round in 0..64 {
        let n = round % 16;
        if round >= 16 {
            let (x, y) = (words[(n + 1) % 16], words[(n + 14) % 16]);
            let a = x.rotate_right(7) ^ x.rotate_right(18) ^ (x >> 3);
            let b = y.rotate_right(17) ^ y.rotate_right(19) ^ (y >> 10);
            words[n] = words[n]
                .wrapping_add(a)
                .wrapping_add(words[(n + 9) % 16])
                .wrapping_add(b);
        }
        let e = s[4].rotate_right(6) ^ s[4].rotate_right(11) ^ s[4].rotate_right(25);
        let choice = s[6] ^ (s[4] & (s[5] ^ s[6]));
        let one = s[7]
            .wrapping_add(e)
            .wrapping_add(choice)
            .wrapping_add(CONSTANTS.0[round])
            .wrapping_add(words[n]);
        let a = s[0].rotate_right(2) ^ s[0].rotate_right(13) ^ s[0].rotate_right(22);
        let majority = s[1] ^ ((s[0] ^ s[1]) & (s[1] ^ s[2]));
        let two = one.wrapping_add(a.wrapping_add(majority));
        s = [
            two,
            s[0],
            s[1],
            s[2],
            s[3].wrapping_add(one),
            s[4],
            s[5],
            s[6],
        ];
    }
    for (word, more) in state.iter_mut().zip(s) {
        *word = word.wrapping_add(more);
    }
}

impl Sha256 {
    pub fn new() -> Self {
        Sha256 {
            state: CONSTANTS.1,
            block: [0; 64],
            held: 0,
            count: 0,
        }
    }

    pub fn update(&mut self, mut bytes: &[u8]) {
        self.count += bytes.len() as u64;
        while !bytes.is_empty() {
            let most = bytes.len().min(64 - self.held);
            self.block[self.held..self.held + most].copy_from_slice(&bytes[..most]);
            self.held += most;
            bytes = &bytes[most..];
            if self.held == 64 {
                take(&mut self.state, &self.block);
                self.held = 0;
            }
        }
    }

    pub fn finalize(mut self) -> [u8; 32] {
        let bits = self.count * 8;
        self.update(&[0x80]);
        while self.held != 56 {
            self.update(&[0]);
        }
        self.update(&bits.to_be_bytes());
        let mut digest = [0; 32];
        for (four, word) in digest.chunks_exact_mut(4).zip(self.state) {
            four.copy_from_slice(&word.to_be_bytes());
        }
        digest
    }
}

#[cfg(test)]
mod tests {
    use super::Sha256;

    fn digest_of(bytes: &[u8]) -> [u8; 32] {
        let mut digest = Sha256::new();
        digest.update(bytes);
        digest.finalize()
    }

    /// The vectors of FIPS 180-4 for one block, two blocks and none.
    #[test]
    fn known_digests() {
        let two = b"abcdbcdecdefdefgefghfghighijhijkijkljklmklmnlmnomnopnopq";
        assert_eq!(digest_of(b"abc")[..4], [0xba, 0x78, 0x16, 0xbf]);
        assert_eq!(digest_of(two)[..4], [0x24, 0x8d, 0x6a, 0x61]);
        assert_eq!(digest_of(b"")[..4], [0xe3, 0xb0, 0xc4, 0x42]);
    }

    #[test]
    fn bytes_may_come_in_any_parts() {
        let bytes: [u8; 200] = core::array::from_fn(|at| at as u8);
        for size in [1, 3, 63, 64, 65, 200] {
            let mut digest = Sha256::new();
            bytes.chunks(size).for_each(|part| digest.update(part));
            assert_eq!(digest.finalize(), digest_of(&bytes));
        }
    }
}
