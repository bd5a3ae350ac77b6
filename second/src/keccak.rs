//! Keccak-256: the sponge of FIPS 202 over Keccak-f[1600] at rate 136, with the Keccak team's original padding.

/// Bytes of a block: the part of the state that a message reaches.
pub const RATE: usize = 136;

/// Iota's constants, round by round (FIPS 202, section 3.2.5).
const ROUND_CONSTANTS: [u64; 24] = [
    0x0000000000000001,
    0x0000000000008082,
    0x800000000000808a,
    0x8000000080008000,
    0x000000000000808b,
    0x0000000080000001,
    0x8000000080008081,
    0x8000000000008009,
    0x000000000000008a,
    0x0000000000000088,
    0x0000000080008009,
    0x000000008000000a,
    0x000000008000808b,
    0x800000000000008b,
    0x8000000000008089,
    0x8000000000008003,
    0x8000000000008002,
    0x8000000000000080,
    0x000000000000800a,
    0x800000008000000a,
    0x8000000080008081,
    0x8000000000008080,
    0x0000000080000001,
    0x8000000080008008,
];

/// Rho's rotation of lane (x, y), at 5y + x (FIPS 202, section 3.2.2).
const OFFSETS: [u32; 25] = [
    0, 1, 62, 28, 27, //
    36, 44, 6, 55, 20, //
    3, 10, 43, 25, 39, //
    41, 45, 15, 21, 8, //
    18, 2, 61, 56, 14,
];

/// The hash as it stands between two parts: the state, and how many bytes of the present block are in it.
///
/// A place of 136 or more counts as a fresh sponge, whatever the lanes hold.
#[derive(Clone, Copy, Debug, PartialEq, Eq)]
pub struct Sponge {
    pub lanes: [u64; 25],
    pub place: usize,
}

impl Default for Sponge {
    fn default() -> Self {
        Sponge::new()
    }
}

impl Sponge {
    /// The sponge that has taken nothing.
    #[inline]
    pub const fn new() -> Self {
        Sponge { lanes: [0; 25], place: 0 }
    }

    /// Takes one part of the message; a block is permuted as soon as its last byte is in.
    #[inline]
    pub fn absorb(&mut self, part: &[u8]) {
        self.freshen();
        let mut rest = part;
        if self.place != 0 {
            rest = self.fill(rest);
        }
        let mut blocks = rest.chunks_exact(RATE);
        for block in &mut blocks {
            self.mix_words(0, block);
            permute(&mut self.lanes);
        }
        self.mix(blocks.remainder());
    }

    /// Pads and squeezes the 32 bytes.
    #[inline]
    pub fn finish(mut self) -> [u8; 32] {
        self.freshen();
        self.lanes[self.place / 8] ^= 0x01 << (self.place % 8 * 8);
        self.lanes[RATE / 8 - 1] ^= 0x80 << 56;
        permute(&mut self.lanes);
        let mut digest = [0; 32];
        for (bytes, lane) in digest.chunks_exact_mut(8).zip(self.lanes) {
            bytes.copy_from_slice(&lane.to_le_bytes());
        }
        digest
    }

    #[inline]
    fn freshen(&mut self) {
        if self.place >= RATE {
            *self = Sponge::new();
        }
    }

    /// Goes on with a block already begun, to its end if the part reaches that far; hands back what is left.
    fn fill<'a>(&mut self, part: &'a [u8]) -> &'a [u8] {
        let room = RATE - self.place;
        if part.len() < room {
            self.mix(part);
            return &[];
        }
        let (head, rest) = part.split_at(room);
        self.mix(head);
        permute(&mut self.lanes);
        self.place = 0;
        rest
    }

    /// Adds bytes that stay within the block: single ones up to a lane's edge, whole lanes, single ones.
    #[inline]
    fn mix(&mut self, bytes: &[u8]) {
        let edge = (self.place.wrapping_neg() % 8).min(bytes.len());
        let (head, rest) = bytes.split_at(edge);
        self.mix_bytes(head);
        let words = rest.len() / 8 * 8;
        let (body, tail) = rest.split_at(words);
        self.mix_words(self.place / 8, body);
        self.place += words;
        self.mix_bytes(tail);
    }

    #[inline(always)]
    fn mix_words(&mut self, first: usize, bytes: &[u8]) {
        for (lane, word) in self.lanes[first..].iter_mut().zip(bytes.chunks_exact(8)) {
            *lane ^= u64::from_le_bytes(word.try_into().unwrap());
        }
    }

    #[inline(always)]
    fn mix_bytes(&mut self, bytes: &[u8]) {
        for &byte in bytes {
            self.lanes[self.place / 8] ^= u64::from(byte) << (self.place % 8 * 8);
            self.place += 1;
        }
    }
}

/// Keccak-256 of one message.
#[inline]
pub fn keccak256(message: &[u8]) -> [u8; 32] {
    let mut sponge = Sponge::new();
    sponge.absorb(message);
    sponge.finish()
}

/// Keccak-f[1600]; two rounds a turn, to and fro between two states.
pub fn permute(lanes: &mut [u64; 25]) {
    let mut here = *lanes;
    let mut there = [0; 25];
    for constants in ROUND_CONSTANTS.chunks_exact(2) {
        round(&here, &mut there, constants[0]);
        round(&there, &mut here, constants[1]);
    }
    *lanes = here;
}

/// One round, written out: theta's column sums, then each row from the five lanes that rho and pi bring there.
#[inline(always)]
fn round(a: &[u64; 25], e: &mut [u64; 25], constant: u64) {
    let c0 = a[0] ^ a[5] ^ a[10] ^ a[15] ^ a[20];
    let c1 = a[1] ^ a[6] ^ a[11] ^ a[16] ^ a[21];
    let c2 = a[2] ^ a[7] ^ a[12] ^ a[17] ^ a[22];
    let c3 = a[3] ^ a[8] ^ a[13] ^ a[18] ^ a[23];
    let c4 = a[4] ^ a[9] ^ a[14] ^ a[19] ^ a[24];
    let d0 = c4 ^ c1.rotate_left(1);
    let d1 = c0 ^ c2.rotate_left(1);
    let d2 = c1 ^ c3.rotate_left(1);
    let d3 = c2 ^ c4.rotate_left(1);
    let d4 = c3 ^ c0.rotate_left(1);
    chi(e, 0, [moved(a, 0, d0), moved(a, 6, d1), moved(a, 12, d2), moved(a, 18, d3), moved(a, 24, d4)]);
    e[0] ^= constant;
    chi(e, 5, [moved(a, 3, d3), moved(a, 9, d4), moved(a, 10, d0), moved(a, 16, d1), moved(a, 22, d2)]);
    chi(e, 10, [moved(a, 1, d1), moved(a, 7, d2), moved(a, 13, d3), moved(a, 19, d4), moved(a, 20, d0)]);
    chi(e, 15, [moved(a, 4, d4), moved(a, 5, d0), moved(a, 11, d1), moved(a, 17, d2), moved(a, 23, d3)]);
    chi(e, 20, [moved(a, 2, d2), moved(a, 8, d3), moved(a, 14, d4), moved(a, 15, d0), moved(a, 21, d1)]);
}

#[inline(always)]
fn moved(a: &[u64; 25], from: usize, d: u64) -> u64 {
    (a[from] ^ d).rotate_left(OFFSETS[from])
}

#[inline(always)]
fn chi(e: &mut [u64; 25], row: usize, b: [u64; 5]) {
    e[row] = b[0] ^ (!b[1] & b[2]);
    e[row + 1] = b[1] ^ (!b[2] & b[3]);
    e[row + 2] = b[2] ^ (!b[3] & b[4]);
    e[row + 3] = b[3] ^ (!b[4] & b[0]);
    e[row + 4] = b[4] ^ (!b[0] & b[1]);
}

#[cfg(test)]
mod tests;
