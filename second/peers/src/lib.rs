//! Rattle, the second program and two public crates, side by side.

use face::bench::{compare, timed, Contender};
use sha3::Digest;
use std::hint::black_box;
use tiny_keccak::Hasher;

/// Something that each program makes of bytes.
pub type Job = fn(&[u8]) -> [u8; 32];

/// Each program does the job on all inputs, and all must agree.
pub fn race<const N: usize>(job: &str, turns: usize, programs: [(&str, Job); N], inputs: &[Vec<u8>]) {
    for input in inputs {
        assert!(programs.iter().all(|(_, job)| job(input) == programs[0].1(input)), "the programs differ");
    }
    let mut jobs = programs.map(|(name, job)| {
        let turn = move || timed(|| inputs.iter().for_each(|input| ignore(job(black_box(input)))));
        (name, turn)
    });
    let mut contenders: Vec<Contender> = jobs.iter_mut().map(|(name, turn)| (*name, turn as _)).collect();
    compare(job, turns, &mut contenders);
}

fn ignore<T>(result: T) {
    black_box(result);
}

/// Keccak-256 by tiny-keccak.
pub fn tiny(message: &[u8]) -> [u8; 32] {
    let mut hasher = tiny_keccak::Keccak::v256();
    hasher.update(message);
    let mut digest = [0; 32];
    hasher.finalize(&mut digest);
    digest
}

/// Keccak-256 by sha3.
pub fn sha3(message: &[u8]) -> [u8; 32] {
    sha3::Keccak256::digest(message).into()
}
