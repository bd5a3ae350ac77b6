//! Addresses of full chunks, 100,000 in all, and anchored ones: the public crates do the same tree.

use peers::{race, sha3, tiny, Job};
use second::chance::Chance;

const ANCHOR: [u8; 32] = [0x5a; 32];

const PLAIN: [(&str, Job); 4] = [
    ("Rattle", |data| face::chunk::address(&span(), data).digest),
    ("second", |data| second::chunk::address(&span(), data).unwrap()),
    ("tiny-keccak", |data| tree::<64>(tiny, &[], data)),
    ("sha3", |data| tree::<64>(sha3, &[], data)),
];

const ANCHORED: [(&str, Job); 4] = [
    ("Rattle", |data| face::chunk::anchored_address(&ANCHOR, &span(), data).digest),
    ("second", |data| second::chunk::anchored_address(&ANCHOR, &span(), data).unwrap()),
    ("tiny-keccak", |data| tree::<96>(tiny, &ANCHOR, data)),
    ("sha3", |data| tree::<96>(sha3, &ANCHOR, data)),
];

fn main() {
    let mut chance = Chance::new(100_000);
    let chunks: Vec<Vec<u8>> = (0..25).map(|_| chance.bytes(4_096)).collect();
    race("25 addresses of full chunks", 800, PLAIN, &chunks);
    race("25 anchored addresses of full chunks", 200, ANCHORED, &chunks);
}

fn span() -> [u8; 8] {
    4_096u64.to_le_bytes()
}

/// The address of a full chunk by some hash: 127 messages of prefix and pair, which have N bytes, then the top.
fn tree<const N: usize>(hash: Job, prefix: &[u8], data: &[u8]) -> [u8; 32] {
    let mut message = [0; N];
    let lead = prefix.len();
    message[..lead].copy_from_slice(prefix);
    let mut roots: [u8; 4_096] = data.try_into().unwrap();
    for level in 1..=7 {
        for place in 0..128 >> level {
            message[lead..].copy_from_slice(&roots[64 * place..][..64]);
            let root = hash(&message);
            roots[32 * place..][..32].copy_from_slice(&root);
        }
    }
    message[lead..lead + 8].copy_from_slice(&span());
    message[lead + 8..lead + 40].copy_from_slice(&roots[..32]);
    hash(&message[..lead + 40])
}
