//! Keccak-256: long messages, and many of a tree's size.

use peers::{race, sha3, tiny, Job};
use second::chance::Chance;

const HASHES: [(&str, Job); 4] = [
    ("Rattle", |message| face::hash::keccak256(message).digest),
    ("second", second::keccak::keccak256),
    ("tiny-keccak", tiny),
    ("sha3", sha3),
];

fn main() {
    let mut chance = Chance::new(8);
    race("keccak256 of 1 MiB", 150, HASHES, &[chance.bytes(1 << 20)]);
    let pairs: Vec<Vec<u8>> = (0..128).map(|_| chance.bytes(64)).collect();
    race("128 hashes of 64 bytes", 1_000, HASHES, &pairs);
}
