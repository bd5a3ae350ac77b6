use super::*;
use crate::chance::Chance;
use crate::{hex, published};

/// FIPS 202, algorithm 5: the register's output bit after t steps.
fn register(t: usize) -> u64 {
    let mut r: u16 = 0b1000_0000; // r[0] is the topmost of eight bits
    for _ in 0..t % 255 {
        let last = r & 1; // r[8] once a zero is put before
        r >>= 1;
        if last == 1 {
            r ^= 0b1000_1110; // r[0], r[4], r[5], r[6]
        }
    }
    u64::from(r >> 7)
}

#[test]
fn round_constants_follow_the_shift_register() {
    for (round, constant) in ROUND_CONSTANTS.iter().enumerate() {
        let rule = (0..=6).fold(0, |sum, j| sum | register(j + 7 * round) << ((1 << j) - 1));
        assert_eq!(*constant, rule, "round {round}");
    }
}

#[test]
fn offsets_follow_the_walk() {
    let mut rule = [0; 25];
    let (mut x, mut y) = (1, 0);
    for t in 0..24 {
        rule[5 * y + x] = ((t + 1) * (t + 2) / 2 % 64) as u32;
        (x, y) = (y, (2 * x + 3 * y) % 5);
    }
    assert_eq!(OFFSETS, rule);
}

#[test]
fn the_written_out_round_is_the_five_steps() {
    let mut chance = Chance::new(202);
    for _ in 0..100 {
        let a: [u64; 25] = std::array::from_fn(|_| chance.word());
        let constant = chance.word();
        let mut e = [0; 25];
        round(&a, &mut e, constant);
        assert_eq!(e, round_by_steps(a, constant));
    }
}

/// FIPS 202, sections 3.2.1 to 3.2.5, step by step.
fn round_by_steps(mut a: [u64; 25], constant: u64) -> [u64; 25] {
    let c: [u64; 5] = std::array::from_fn(|x| (0..5).fold(0, |sum, y| sum ^ a[5 * y + x]));
    for (at, lane) in a.iter_mut().enumerate() {
        *lane ^= c[(at + 4) % 5] ^ c[(at + 1) % 5].rotate_left(1);
    }
    let mut b = [0; 25];
    for y in 0..5 {
        for x in 0..5 {
            b[5 * ((2 * x + 3 * y) % 5) + y] = a[5 * y + x].rotate_left(OFFSETS[5 * y + x]);
        }
    }
    let mut e: [u64; 25] = std::array::from_fn(|at| {
        let row = at / 5 * 5;
        b[at] ^ (!b[row + (at + 1) % 5] & b[row + (at + 2) % 5])
    });
    e[0] ^= constant;
    e
}

#[test]
fn the_keccak_team_s_vectors() {
    for (message, digest) in published::KECCAK_TEAM {
        assert_eq!(hex::write(&keccak256(&hex::read(message))), digest, "{message}");
    }
}

#[test]
fn crypto_pp_s_vectors() {
    for (piece, times, digest) in published::CRYPTO_PP {
        assert_eq!(hex::write(&keccak256(piece.repeat(times).as_bytes())), digest, "{piece}");
    }
}

#[test]
fn parts_hash_as_the_joined_parts() {
    let mut chance = Chance::new(1);
    for length in 0..=600 {
        let message = chance.bytes(length);
        for count in 1..=6 {
            let mut sponge = Sponge::new();
            for part in chance.cut(&message, count) {
                sponge.absorb(part);
            }
            assert_eq!(sponge.place, length % RATE);
            assert_eq!(sponge.finish(), keccak256(&message));
        }
    }
}

#[test]
fn a_stale_sponge_counts_as_fresh() {
    let mut chance = Chance::new(2);
    for place in [136, 137, 143, 144, 199, 200, 1 << 40, usize::MAX] {
        let stale = Sponge { lanes: std::array::from_fn(|_| chance.word()), place };
        assert_eq!(stale.finish(), keccak256(b""));
        let mut sponge = stale;
        sponge.absorb(b"");
        assert_eq!(sponge, Sponge::new());
        let mut sponge = stale;
        sponge.absorb(b"abc");
        assert_eq!(sponge.finish(), keccak256(b"abc"));
    }
}
