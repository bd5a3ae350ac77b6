//! The proved addresses, segments and proofs against the second program's, over the C face.

use face::chunk::{address, anchored_address, check_proof, make_proof, segment, segment_count};
use face::lent::unchanged;
use face::{Digested, Part};
use second::chance::Chance;
use second::{chunk, hex};

const INDEXES: [u64; 11] = [0, 1, 64, 126, 127, 128, 129, 255, 1 << 32, 1 << 59, u64::MAX];

/// Both programs give the data's address, plain and anchored, and change nothing.
fn addressed(anchor: &[u8], span: &[u8], data: &[u8]) -> Digested {
    let plain = unchanged(&[span, data], || address(span, data));
    assert_eq!(plain, chunk::address(span, data).into(), "{} {}", span.len(), data.len());
    let anchored = unchanged(&[anchor, span, data], || anchored_address(anchor, span, data));
    assert_eq!(anchored, chunk::anchored_address(anchor, span, data).into(), "{} {}", anchor.len(), data.len());
    plain
}

/// Both programs answer alike and leave the same 264 bytes, or other length, in the output.
fn proved(span: &[u8], data: &[u8], index: u64, length: usize) -> (u32, Vec<u8>) {
    let (mut proof, mut expected) = (vec![0xa5; length], vec![0xa5; length]);
    let answer = unchanged(&[span, data], || make_proof(span, data, index, &mut proof));
    assert_eq!(answer, chunk::make_proof(span, data, index, &mut expected), "{index}, data of {}", data.len());
    assert!(proof == expected, "proof {index}, data of {}", data.len());
    (answer, proof)
}

/// Both programs give the proof one verdict.
fn checked(address: &[u8], index: u64, proof: &[u8]) -> u32 {
    let answer = unchanged(&[address, proof], || check_proof(address, index, proof));
    assert_eq!(answer, chunk::check_proof(address, index, proof));
    answer
}

/// Every length from 0 to 130, and those around the last segments.
fn lengths() -> impl Iterator<Item = usize> {
    (0..=130).chain(4_060..=4_096)
}

#[test]
fn the_address_that_bee_publishes() {
    let digested = address(&15u64.to_le_bytes(), b"greaterthanspan");
    assert_eq!(hex::write(&digested.digest), "27913f1bdb6e8e52cbd5a5fd4ab577c857287edf6969b41efe926b51de0f4f23");
}

#[test]
fn every_short_and_every_nearly_full_length() {
    let mut chance = Chance::new(130);
    for length in lengths().chain([4_097, 4_098, 8_192, 65_536]) {
        let (anchor, span): ([u8; 32], [u8; 8]) = (chance.array(), chance.array());
        let mut data = chance.bytes(length);
        addressed(&anchor, &span, &data);
        data.fill(0);
        addressed(&anchor, &span, &data);
    }
}

#[test]
fn every_index_of_every_such_length() {
    let mut chance = Chance::new(131);
    for length in lengths() {
        let span: [u8; 8] = chance.array();
        let data = chance.bytes(length);
        let address = address(&span, &data).digest;
        for index in 0..128 {
            let (answer, proof) = proved(&span, &data, index, 264);
            assert_eq!((answer, checked(&address, index, &proof)), (0, 0));
            checked(&address, index ^ 1 << chance.below(7), &proof);
        }
    }
}

#[test]
fn a_thousand_random_chunks() {
    let mut chance = Chance::new(1_000);
    for _ in 0..1_000 {
        let (anchor, span): ([u8; 32], [u8; 8]) = (chance.array(), chance.array());
        let (length, shift) = (chance.below(4_097), chance.below(8));
        let buffer = chance.bytes(shift + length);
        let data = &buffer[shift..];
        let address = addressed(&anchor, &span, data).digest;
        let index = chance.below(128) as u64;
        let (_, mut proof) = proved(&span, data, index, 264);
        assert_eq!(checked(&address, index, &proof), 0);
        assert_eq!(checked(&anchor, index, &proof), 1);
        let place = chance.below(264);
        proof[place] ^= 1 << chance.below(8);
        assert_eq!(checked(&address, index, &proof), 1);
    }
}

#[test]
fn trailing_zeros_leave_the_address() {
    let mut chance = Chance::new(32);
    for _ in 0..200 {
        let length = chance.below(4_000);
        let mut data = chance.bytes(length);
        let first = address(&[1; 8], &data);
        data.resize(length + chance.below(4_097 - length), 0);
        assert_eq!(addressed(&[2; 32], &[1; 8], &data), first);
    }
}

#[test]
fn each_bit_of_a_proof_flipped() {
    let mut chance = Chance::new(264);
    for (length, index) in [(1_337, 41), (0, 0), (4_096, 127)] {
        let span: [u8; 8] = chance.array();
        let data = chance.bytes(length);
        let address = address(&span, &data).digest;
        let (_, proof) = proved(&span, &data, index, 264);
        for bit in 0..264 * 8 {
            let mut damaged = proof.clone();
            damaged[bit / 8] ^= 1 << (bit % 8);
            assert_eq!(checked(&address, index, &damaged), 1, "bit {bit}");
        }
        for bit in 0..256 {
            let mut elsewhere = address;
            elsewhere[bit / 8] ^= 1 << (bit % 8);
            assert_eq!(checked(&elsewhere, index, &proof), 1, "address bit {bit}");
        }
    }
}

#[test]
fn wrong_lengths_of_addresses() {
    let bytes = Chance::new(10).bytes(5_000);
    for span in [0, 1, 7, 8, 9, 16, 40] {
        for data in [0, 100, 4_096, 4_097, 5_000] {
            for anchor in [0, 1, 31, 32, 33, 64] {
                addressed(&bytes[..anchor], &bytes[..span], &bytes[..data]);
            }
        }
    }
    assert_eq!(address(&bytes[..7], &bytes[..4_097]).answer, 10);
    assert_eq!(address(&bytes[..8], &bytes[..4_097]), Err(12).into());
    assert_eq!(anchored_address(&bytes[..33], &bytes[..8], &bytes[..4_097]), Err(10).into());
}

#[test]
fn wrong_lengths_and_indexes_of_proofs() {
    let bytes = Chance::new(11).bytes(5_000);
    for index in INDEXES {
        for span in [0, 7, 8, 9] {
            for data in [0, 33, 4_096, 4_097] {
                for output in [0, 1, 256, 263, 264, 265, 528] {
                    proved(&bytes[..span], &bytes[..data], index, output);
                }
            }
        }
        for address in [0, 31, 32, 33, 64] {
            for proof in [0, 32, 263, 264, 265, 528] {
                checked(&bytes[..address], index, &bytes[..proof]);
            }
        }
    }
    assert_eq!(proved(&bytes[..8], &bytes[..4_097], 128, 264).0, 12);
    assert_eq!(proved(&bytes[..8], &bytes[..4_096], 128, 264).0, 11);
    assert_eq!(checked(&bytes[..32], 128, &bytes[..264]), 11);
}

#[test]
fn segments_are_stretches_of_the_data() {
    let bytes = Chance::new(12).bytes(10_000);
    for length in lengths().chain([1_337, 4_097, 4_128, 9_999, 10_000]) {
        let data = &bytes[..length];
        let count = unchanged(&[data], || segment_count(data));
        assert_eq!(count, chunk::segment_count(data));
        for index in (0..count + 3).chain(INDEXES) {
            let expected = chunk::segment(data, index);
            let start = expected.as_ptr() as usize - data.as_ptr() as usize;
            let part = unchanged(&[data], || segment(data, index));
            assert_eq!(part, Part { start: start as u64, length: expected.len() as u64 }, "{index} of {length}");
        }
    }
}
