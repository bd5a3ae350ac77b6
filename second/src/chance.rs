//! Chance with a fixed seed, so that every run meets the same cases.

/// SplitMix64.
pub struct Chance(u64);

impl Chance {
    pub fn new(seed: u64) -> Self {
        Chance(seed)
    }

    pub fn word(&mut self) -> u64 {
        self.0 = self.0.wrapping_add(0x9e37_79b9_7f4a_7c15);
        let mut z = self.0;
        z = (z ^ (z >> 30)).wrapping_mul(0xbf58_476d_1ce4_e5b9);
        z = (z ^ (z >> 27)).wrapping_mul(0x94d0_49bb_1331_11eb);
        z ^ (z >> 31)
    }

    /// A number below the bound; the bound is small, so the slight bias doesn't matter.
    pub fn below(&mut self, bound: usize) -> usize {
        (self.word() % bound as u64) as usize
    }

    /// True once in `times`, on the average.
    pub fn once_in(&mut self, times: usize) -> bool {
        self.below(times) == 0
    }

    pub fn fill(&mut self, bytes: &mut [u8]) {
        for piece in bytes.chunks_mut(8) {
            piece.copy_from_slice(&self.word().to_le_bytes()[..piece.len()]);
        }
    }

    pub fn bytes(&mut self, length: usize) -> Vec<u8> {
        let mut bytes = vec![0; length];
        self.fill(&mut bytes);
        bytes
    }

    pub fn array<const N: usize>(&mut self) -> [u8; N] {
        let mut bytes = [0; N];
        self.fill(&mut bytes);
        bytes
    }

    /// A number that shares exactly so many leading bits with another.
    pub fn sharing(&mut self, first: &[u8; 32], bits: usize) -> [u8; 32] {
        let mut second: [u8; 32] = self.array();
        for at in 0..256.min(bits + 1) {
            let mask = 0x80 >> (at % 8);
            let wanted = if at < bits { first[at / 8] } else { !first[at / 8] };
            second[at / 8] = second[at / 8] & !mask | wanted & mask;
        }
        second
    }

    pub fn shuffle<T>(&mut self, things: &mut [T]) {
        for last in (1..things.len()).rev() {
            things.swap(last, self.below(last + 1));
        }
    }

    /// Cuts bytes into so many parts at random places; parts may be empty.
    pub fn cut<'a>(&mut self, bytes: &'a [u8], parts: usize) -> Vec<&'a [u8]> {
        let mut places: Vec<usize> = (1..parts).map(|_| self.below(bytes.len() + 1)).collect();
        places.extend([0, bytes.len()]);
        places.sort_unstable();
        places.windows(2).map(|w| &bytes[w[0]..w[1]]).collect()
    }
}
