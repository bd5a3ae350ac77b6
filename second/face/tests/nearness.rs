//! The proved nearness against the second program's, over the C face.

use face::lent::unchanged;
use face::nearness::{nearness, Numbered};
use second::chance::Chance;

fn compared(first: &[u8], second: &[u8]) -> Numbered {
    let numbered = unchanged(&[first, second], || nearness(first, second));
    assert_eq!(numbered, second::nearness::nearness(first, second).into());
    numbered
}

#[test]
fn shared_prefixes_of_every_length() {
    let mut chance = Chance::new(257);
    for case in 0..40 * 257 {
        let bits = case % 257;
        let first = match case / 257 {
            0 => [0; 32],
            1 => [0xff; 32],
            _ => chance.array(),
        };
        let second = chance.sharing(&first, bits);
        let expected = Numbered { answer: 0, number: bits as u32 };
        assert_eq!((compared(&first, &second), compared(&second, &first)), (expected, expected));
    }
}

#[test]
fn single_bits() {
    for at in 0..256 {
        let mut one = [0; 32];
        one[at / 8] = 0x80 >> (at % 8);
        assert_eq!(compared(&one, &[0; 32]), Numbered { answer: 0, number: at as u32 });
    }
}

#[test]
fn numbers_at_any_place_of_a_buffer() {
    let mut chance = Chance::new(258);
    for place in 0..64 {
        let mut buffer = chance.bytes(128);
        let first: [u8; 32] = chance.array();
        let bits = chance.below(257);
        let second = chance.sharing(&first, bits);
        buffer[place / 8..][..32].copy_from_slice(&first);
        buffer[64 + place % 8..][..32].copy_from_slice(&second);
        let numbered = compared(&buffer[place / 8..][..32], &buffer[64 + place % 8..][..32]);
        assert_eq!(numbered, Numbered { answer: 0, number: bits as u32 });
    }
}

#[test]
fn other_lengths_give_ten_and_no_bits() {
    let bytes = [0x5a; 80];
    for first in 0..=80 {
        for second in (0..=80).filter(|second| (first, *second) != (32, 32)) {
            assert_eq!(compared(&bytes[..first], &bytes[..second]), Numbered { answer: 10, number: 0 });
        }
    }
}
