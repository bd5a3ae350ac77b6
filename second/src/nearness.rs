//! Nearness: the leading bits that two 32-byte numbers share.

use crate::answer::WRONG_LENGTH;

/// The shared bits, 0 to 256; 10 for any other length.
pub fn nearness(first: &[u8], second: &[u8]) -> Result<u32, u32> {
    match (first.try_into(), second.try_into()) {
        (Ok(first), Ok(second)) => Ok(shared_bits(first, second)),
        _ => Err(WRONG_LENGTH),
    }
}

/// The shared bits of two 32-byte numbers.
pub fn shared_bits(first: &[u8; 32], second: &[u8; 32]) -> u32 {
    let mut shared = 0;
    for (a, b) in first.chunks_exact(8).zip(second.chunks_exact(8)) {
        let differing = word(a) ^ word(b);
        shared += differing.leading_zeros();
        if differing != 0 {
            break;
        }
    }
    shared
}

fn word(bytes: &[u8]) -> u64 {
    u64::from_be_bytes(bytes.try_into().unwrap())
}

#[cfg(test)]
mod tests {
    use super::*;
    use crate::chance::Chance;

    #[test]
    fn the_sheet() {
        let with_first = |byte: u8| {
            let mut number = [0; 32];
            number[0] = byte;
            number
        };
        assert_eq!(nearness(&with_first(0x80), &[0; 32]), Ok(0));
        assert_eq!(nearness(&with_first(0x12), &[0; 32]), Ok(3));
        assert_eq!(nearness(&with_first(0x12), &with_first(0x12)), Ok(256));
    }

    #[test]
    fn bit_by_bit() {
        let bit = |number: &[u8; 32], at: usize| number[at / 8] >> (7 - at % 8) & 1;
        let mut chance = Chance::new(256);
        for shared in 0..=256 {
            let first: [u8; 32] = chance.array();
            let noise: [u8; 32] = chance.array();
            let mut second = first;
            for at in shared..256 {
                let flip = at == shared || bit(&noise, at) == 1;
                second[at / 8] ^= u8::from(flip) << (7 - at % 8);
            }
            assert_eq!(nearness(&first, &second), Ok(shared as u32));
            assert_eq!(nearness(&second, &first), Ok(shared as u32));
        }
    }

    #[test]
    fn other_lengths() {
        let bytes = [0; 64];
        for (a, b) in [(0, 0), (31, 31), (31, 32), (32, 31), (33, 32), (32, 33), (64, 64), (32, 0)] {
            assert_eq!(nearness(&bytes[..a], &bytes[..b]), Err(10));
        }
    }
}
