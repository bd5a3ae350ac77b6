use super::*;
use std::collections::{BTreeMap, BTreeSet};

/// The answers that each call can give, by document 01's orders.
const ANSWERS: [(Call, &[u32]); 11] = [
    (Call::Address, &[0, 10, 12]),
    (Call::AnchoredAddress, &[0, 10, 12]),
    (Call::MakeProof, &[0, 10, 11, 12]),
    (Call::CheckProof, &[0, 1, 10, 11]),
    (Call::Nearness, &[0, 10]),
    (Call::StampDigest, &[0, 10]),
    (Call::CheckStamp, &[0, 10, 15, 16, 17, 18, 19]),
    (Call::Open, &[0, 10, 27]),
    (Call::CheckBook, &[0, 13]),
    (Call::Offer, &[0, 2, 3, 10, 13, 14, 15, 16, 17, 18, 19, 20, 21, 22]),
    (Call::Draw, &[0, 10, 12, 13, 14, 23, 24, 25, 26]),
];

#[test]
fn every_call_and_every_answer_occurs() {
    let mut met: BTreeMap<Call, BTreeSet<u32>> = BTreeMap::new();
    for case in cases() {
        met.entry(case.call).or_default().extend(case.answer());
    }
    assert_eq!(met.keys().map(|call| *call as u8).collect::<Vec<_>>(), (1..=18).collect::<Vec<_>>());
    for (call, answers) in ANSWERS {
        assert_eq!(met[&call], answers.iter().copied().collect(), "{call:?}");
    }
    let all: BTreeSet<u32> = met.into_values().flatten().collect();
    assert_eq!(all, (0..=3).chain(10..=27).collect());
}

#[test]
fn a_refusal_hands_back_zeros_and_leaves_the_lent_bytes() {
    for case in cases().iter().filter(|case| case.answer().is_some_and(|answer| answer >= 10)) {
        let lent = match case.call {
            Call::MakeProof | Call::Draw => case.inputs.last().unwrap(),
            Call::Open | Call::Offer => &case.inputs[0],
            _ => &vec![],
        };
        assert!(case.back.ends_with(lent));
        let beside = &case.back[4..case.back.len() - lent.len()];
        let place = if case.call == Call::Draw { 4 } else { 0 };
        assert!(beside.iter().skip(place).all(|byte| *byte == 0));
    }
}

#[test]
fn the_file_stays_small_and_is_the_one_in_the_tree() {
    let (count, file) = (cases().len(), file());
    assert!(count >= 300, "{count} cases");
    assert!(file.len() < 600_000, "{} bytes", file.len());
    let path = concat!(env!("CARGO_MANIFEST_DIR"), "/../crates/against/data/cases.bin");
    let kept = std::fs::read(path).expect("crates/against/data/cases.bin can be read");
    assert!(file == kept, "run `cargo run --release --bin write_cases` in second/");
}
