//! Addresses, segments, and segment proofs made and checked, honest and damaged.

use super::{digested, Call, Case};
use crate::chance::Chance;
use crate::chunk::{self, PROOF};

/// Short data, up to a few segments, and a full chunk.
const LENGTHS: [usize; 15] = [0, 1, 31, 32, 33, 63, 64, 65, 96, 100, 128, 129, 300, 1_337, 4_096];

pub fn cases(chance: &mut Chance) -> Vec<Case> {
    let mut cases = addresses(chance);
    cases.extend(segments(chance));
    cases.extend(made(chance));
    cases.extend(checked(chance));
    cases
}

fn addresses(chance: &mut Chance) -> Vec<Case> {
    let mut cases = Vec::new();
    for length in LENGTHS {
        cases.push(address(&chance.bytes(8), &chance.bytes(length)));
    }
    for length in LENGTHS.into_iter().filter(|length| *length < 1_000) {
        cases.push(anchored_address(&chance.bytes(32), &chance.bytes(8), &chance.bytes(length)));
    }
    let span = chance.bytes(8);
    cases.push(address(&span, b"zeros behind"));
    cases.push(address(&span, b"zeros behind\0\0\0"));
    for (anchor, span, length) in [(32, 0, 5), (32, 7, 5), (32, 9, 5), (0, 8, 5), (31, 8, 5), (33, 8, 5), (31, 9, 0)] {
        cases.push(address(&chance.bytes(span), &chance.bytes(length)));
        cases.push(anchored_address(&chance.bytes(anchor), &chance.bytes(span), &chance.bytes(length)));
    }
    let long = chance.bytes(4_097);
    cases.push(address(&span, &long));
    cases.push(address(&span[1..], &long));
    cases.push(anchored_address(&chance.bytes(32), &span, &long));
    cases
}

fn address(span: &[u8], data: &[u8]) -> Case {
    Case::new(Call::Address, &[span, data], &[&digested(chunk::address(span, data))])
}

fn anchored_address(anchor: &[u8], span: &[u8], data: &[u8]) -> Case {
    let back = digested(chunk::anchored_address(anchor, span, data));
    Case::new(Call::AnchoredAddress, &[anchor, span, data], &[&back])
}

fn segments(chance: &mut Chance) -> Vec<Case> {
    let mut cases = Vec::new();
    for length in LENGTHS {
        let data = chance.bytes(length);
        let count = chunk::segment_count(&data);
        cases.push(Case::new(Call::SegmentCount, &[&data], &[&count.to_be_bytes()]));
        if length > 400 {
            continue;
        }
        for index in [0, 1, 3, count.max(1) - 1, count, 1 << 59, u64::MAX] {
            let segment = chunk::segment(&data, index);
            let start = segment.as_ptr() as usize - data.as_ptr() as usize;
            let back = [&(start as u64).to_be_bytes(), segment].concat();
            cases.push(Case::new(Call::Segment, &[&data, &index.to_be_bytes()], &[&back]));
        }
    }
    cases
}

fn made(chance: &mut Chance) -> Vec<Case> {
    let mut cases = Vec::new();
    for (length, index) in
        [(0, 0), (1, 1), (33, 1), (64, 2), (100, 3), (129, 4), (300, 9), (300, 63), (300, 64), (4_096, 127)]
    {
        cases.push(make_proof(chance, 8, length, index, PROOF));
    }
    for (span, length, index, proof) in [
        (8, 40, 128, PROOF),
        (8, 40, 255, PROOF),
        (8, 40, 256, PROOF),
        (8, 40, u64::MAX, PROOF),
        (7, 40, 5, PROOF),
        (9, 40, 128, PROOF),
        (8, 40, 5, 0),
        (8, 40, 5, PROOF - 1),
        (8, 40, 128, PROOF + 1),
        (8, 4_097, 128, PROOF),
    ] {
        cases.push(make_proof(chance, span, length, index, proof));
    }
    cases
}

fn make_proof(chance: &mut Chance, span: usize, length: usize, index: u64, proof: usize) -> Case {
    let (span, data, before) = (chance.bytes(span), chance.bytes(length), chance.bytes(proof));
    let mut after = before.clone();
    let answer = chunk::make_proof(&span, &data, index, &mut after);
    Case::new(Call::MakeProof, &[&span, &data, &index.to_be_bytes(), &before], &[&answer.to_be_bytes(), &after])
}

fn checked(chance: &mut Chance) -> Vec<Case> {
    let mut cases = Vec::new();
    for (length, index) in [(0, 0), (1, 0), (33, 1), (100, 2), (300, 9), (300, 64), (2_000, 62), (4_096, 127)] {
        let (span, data) = (chance.bytes(8), chance.bytes(length));
        let address = chunk::address(&span, &data).unwrap();
        let mut proof = [0; PROOF];
        chunk::make_proof(&span, &data, index, &mut proof);
        cases.push(check_proof(&address, index, &proof));
        cases.push(check_proof(&address, index ^ 1, &proof));
        cases.push(check_proof(&address, index + 128, &proof));
        for at in [0, 31, 32, 63, 255, 256, 263] {
            let mut damaged = proof;
            damaged[at] ^= 1 << chance.below(8);
            cases.push(check_proof(&address, index, &damaged));
        }
        let mut other = address;
        other[chance.below(32)] ^= 1;
        cases.push(check_proof(&other, index, &proof));
    }
    for (address, index, proof) in
        [(32, u64::MAX, 264), (31, 0, 264), (33, 128, 264), (32, 128, 263), (32, 0, 265), (0, 0, 0)]
    {
        cases.push(check_proof(&chance.bytes(address), index, &chance.bytes(proof)));
    }
    cases
}

fn check_proof(address: &[u8], index: u64, proof: &[u8]) -> Case {
    let answer = chunk::check_proof(address, index, proof);
    Case::new(Call::CheckProof, &[address, &index.to_be_bytes(), proof], &[&answer.to_be_bytes()])
}
