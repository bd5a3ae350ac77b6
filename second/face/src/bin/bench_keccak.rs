//! Keccak-256, Rattle against the second program: long messages, and many of a tree's size.

use face::bench::{compare, timed};
use face::hash;
use second::chance::Chance;
use second::keccak;
use std::hint::black_box;

fn main() {
    let mut chance = Chance::new(8);
    let long = chance.bytes(1 << 20);
    compare(
        "keccak256 of 1 MiB",
        150,
        &mut [
            ("Rattle", &mut || timed(|| hash::keccak256(black_box(&long)))),
            ("second", &mut || timed(|| keccak::keccak256(black_box(&long)))),
        ],
    );
    let pairs: Vec<[u8; 64]> = (0..128).map(|_| chance.array()).collect();
    compare(
        "128 hashes of 64 bytes",
        1_000,
        &mut [
            ("Rattle", &mut || timed(|| pairs.iter().for_each(|pair| ignore(hash::keccak256(pair))))),
            ("second", &mut || timed(|| pairs.iter().for_each(|pair| ignore(keccak::keccak256(pair))))),
        ],
    );
}

fn ignore<T>(result: T) {
    black_box(result);
}
