//! Addresses, Rattle against the second program: full chunks (100,000 in all), anchored ones, short ones, proofs.

use face::bench::{compare, timed};
use second::chance::Chance;
use std::hint::black_box;

/// Chunks hashed in one turn; 800 turns in each of five runs make 100,000.
const CHUNKS: usize = 25;

fn main() {
    let mut chance = Chance::new(100_000);
    let (anchor, span): ([u8; 32], [u8; 8]) = (chance.array(), 4_096u64.to_le_bytes());
    let full: Vec<Vec<u8>> = (0..CHUNKS).map(|_| chance.bytes(4_096)).collect();
    let short: Vec<Vec<u8>> = (0..CHUNKS).map(|length| chance.bytes(4 * length)).collect();
    compare(
        "25 addresses of full chunks",
        800,
        &mut [
            ("Rattle", &mut || timed(|| each(&full, |data| face::chunk::address(&span, data)))),
            ("second", &mut || timed(|| each(&full, |data| second::chunk::address(&span, data)))),
        ],
    );
    compare(
        "25 anchored addresses of full chunks",
        200,
        &mut [
            ("Rattle", &mut || timed(|| each(&full, |data| face::chunk::anchored_address(&anchor, &span, data)))),
            ("second", &mut || timed(|| each(&full, |data| second::chunk::anchored_address(&anchor, &span, data)))),
        ],
    );
    compare(
        "25 addresses of chunks below 100 bytes",
        400,
        &mut [
            ("Rattle", &mut || timed(|| each(&short, |data| face::chunk::address(&span, data)))),
            ("second", &mut || timed(|| each(&short, |data| second::chunk::address(&span, data)))),
        ],
    );
    let mut proof = [0; 264];
    let mut other = [0; 264];
    compare(
        "25 proofs of full chunks",
        200,
        &mut [
            ("Rattle", &mut || timed(|| each(&full, |data| face::chunk::make_proof(&span, data, 77, &mut proof)))),
            ("second", &mut || timed(|| each(&full, |data| second::chunk::make_proof(&span, data, 77, &mut other)))),
        ],
    );
}

fn each<T>(chunks: &[Vec<u8>], mut job: impl FnMut(&[u8]) -> T) {
    for data in chunks {
        black_box(job(black_box(data)));
    }
}
