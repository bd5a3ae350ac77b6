use super::*;
use crate::chance::Chance;
use crate::hex;
use crate::keccak::keccak256;

/// Document 01, word for word: the root of a larger part is the hash of its halves' roots.
fn root_by_halves(prefix: &[u8], part: &[u8]) -> Vec<u8> {
    if part.len() == SEGMENT {
        return part.to_vec();
    }
    let (left, right) = part.split_at(part.len() / 2);
    keccak256(&[prefix, &root_by_halves(prefix, left), &root_by_halves(prefix, right)].concat()).to_vec()
}

fn address_by_halves(prefix: &[u8], span: &[u8], data: &[u8]) -> [u8; 32] {
    let mut padded = data.to_vec();
    padded.resize(DATA, 0);
    keccak256(&[prefix, span, &root_by_halves(prefix, &padded)].concat())
}

#[test]
fn the_address_that_bee_publishes() {
    let address = address(&15u64.to_le_bytes(), b"greaterthanspan").unwrap();
    assert_eq!(hex::write(&address), "27913f1bdb6e8e52cbd5a5fd4ab577c857287edf6969b41efe926b51de0f4f23");
}

#[test]
fn addresses_follow_the_halves_under_any_prefix() {
    let mut chance = Chance::new(4_096);
    for length in (0..=200).chain((200..4_000).step_by(331)).chain(4_000..=4_096) {
        let (span, anchor): ([u8; 8], [u8; 32]) = (chance.array(), chance.array());
        let data = chance.bytes(length);
        assert_eq!(address(&span, &data), Ok(address_by_halves(&[], &span, &data)), "{length}");
        assert_eq!(anchored_address(&anchor, &span, &data), Ok(address_by_halves(&anchor, &span, &data)), "{length}");
        let prefix = chance.bytes(length % 300);
        assert_eq!(Tree::under(&prefix).address(&span, &data), Ok(address_by_halves(&prefix, &span, &data)));
    }
}

#[test]
fn trailing_zeros_do_not_change_the_address() {
    let span = [7; 8];
    for (short, long) in [(0, 1), (0, 4_096), (5, 32), (31, 33), (64, 65), (100, 3_000)] {
        let mut data = vec![9; short];
        let first = address(&span, &data);
        data.resize(long, 0);
        assert_eq!(address(&span, &data), first);
    }
}

#[test]
fn refusals_in_their_order() {
    let (span, long) = ([0; 8], [0; 4_097]);
    assert_eq!(address(&span, &long), Err(12));
    assert!(address(&span, &long[..4_096]).is_ok());
    assert_eq!(address(&span[..7], &long), Err(10));
    assert_eq!(anchored_address(&[0; 31], &span, &long), Err(10));
    assert_eq!(anchored_address(&[0; 32], &span, &long), Err(12));
    let mut proof = [5; 265];
    assert_eq!(make_proof(&span, &long, 128, &mut proof), 10);
    assert_eq!(make_proof(&span[1..], &long, 128, &mut proof[..264]), 10);
    assert_eq!(make_proof(&span, &long, 128, &mut proof[..264]), 12);
    assert_eq!(make_proof(&span, &[], 128, &mut proof[..264]), 11);
    assert_eq!(make_proof(&span, &[], u64::MAX, &mut proof[..264]), 11);
    assert_eq!(make_anchored_proof(&[0; 33], &span, &[], 0, &mut proof[..264]), 10);
    assert_eq!(proof, [5; 265]);
    assert_eq!(check_proof(&[0; 31], 128, &proof[..264]), 10);
    assert_eq!(check_proof(&[0; 32], 128, &proof), 10);
    assert_eq!(check_proof(&[0; 32], 128, &proof[..264]), 11);
    assert_eq!(check_proof(&[0; 32], 127, &proof[..264]), 1);
    assert_eq!(check_anchored_proof(&[], &[0; 32], 0, &proof[..264]), 10);
}

#[test]
fn segments_of_the_sheet() {
    let data: Vec<u8> = (0..1_337u32).map(|i| i as u8).collect();
    for (length, count) in [(0, 0), (1, 1), (32, 1), (33, 2), (1_337, 42)] {
        assert_eq!(segment_count(&data[..length]), count);
    }
    assert_eq!(segment(&data, 41), &data[1_312..]);
    assert_eq!(segment(&data, 41).len(), 25);
    assert_eq!(segment(&data, 3), &data[96..128]);
    for index in [42, 43, 128, 1 << 59, u64::MAX] {
        assert!(segment(&data, index).is_empty());
    }
}

#[test]
fn honest_proofs_pass_and_damaged_ones_fail() {
    let mut chance = Chance::new(264);
    for length in [0, 1, 31, 32, 33, 64, 65, 1_337, 4_064, 4_095, 4_096] {
        let (span, anchor): ([u8; 8], [u8; 32]) = (chance.array(), chance.array());
        let data = chance.bytes(length);
        let plain = address(&span, &data).unwrap();
        let anchored = anchored_address(&anchor, &span, &data).unwrap();
        for index in 0..128 {
            let mut proof = [1; 264];
            assert_eq!(make_anchored_proof(&anchor, &span, &data, index, &mut proof), 0);
            assert_eq!(check_anchored_proof(&anchor, &anchored, index, &proof), 0);
            assert_eq!(check_proof(&anchored, index, &proof), 1);
            assert_eq!(make_proof(&span, &data, index, &mut proof), 0);
            assert_eq!(check_proof(&plain, index, &proof), 0);
            let own = segment(&data, index);
            assert_eq!(proof[..own.len()], *own);
            assert!(proof[own.len()..32].iter().all(|byte| *byte == 0));
            assert_eq!(proof[256..], span);
            let place = chance.below(264);
            proof[place] ^= 1 << chance.below(8);
            assert_eq!(check_proof(&plain, index, &proof), 1);
        }
    }
}
