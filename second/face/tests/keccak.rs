//! The proved Keccak-256 against the second program's, over the C face.

use face::hash::{absorb, finish, keccak256, sponge, Sponge};
use face::lent::unchanged;
use face::Digested;
use second::chance::Chance;
use second::keccak::{self, RATE};
use second::{hex, published};

fn done(digest: [u8; 32]) -> Digested {
    Ok(digest).into()
}

fn ours(sponge: Sponge) -> keccak::Sponge {
    keccak::Sponge { lanes: sponge.lanes, place: sponge.place }
}

fn random_lanes(chance: &mut Chance) -> [u64; 25] {
    match chance.below(8) {
        0 => [0; 25],
        1 => [u64::MAX; 25],
        _ => std::array::from_fn(|_| chance.word()),
    }
}

/// Both programs take one part into the same state and end in the same state; the part is left as it was.
fn absorbed(state: Sponge, part: &[u8]) -> Sponge {
    let mut expected = ours(state);
    expected.absorb(part);
    let after = unchanged(&[part], || absorb(state, part));
    assert_eq!(ours(after), expected, "place {}, part of {}", state.place, part.len());
    after
}

/// Both programs finish the same state with the same digest.
fn finished(state: Sponge) -> Digested {
    let digested = finish(state);
    assert_eq!(digested, done(ours(state).finish()), "place {}", state.place);
    digested
}

#[test]
fn published_vectors() {
    for (message, digest) in published::KECCAK_TEAM {
        assert_eq!(hex::write(&keccak256(&hex::read(message)).digest), digest);
    }
    for (piece, times, digest) in published::CRYPTO_PP {
        assert_eq!(hex::write(&keccak256(piece.repeat(times).as_bytes()).digest), digest);
        let whole = (0..times).fold(sponge(), |state, _| absorb(state, piece.as_bytes()));
        assert_eq!(hex::write(&finish(whole).digest), digest);
    }
}

#[test]
fn random_messages_cut_at_random_places() {
    let mut chance = Chance::new(0x6b65_6363_616b);
    for case in 0..12_000 {
        let length = if case % 10 == 0 { chance.below(6_000) } else { chance.below(700) };
        let message = chance.bytes(length);
        let count = 1 + chance.below(7);
        let digested = unchanged(&[&message], || keccak256(&message));
        assert_eq!(digested, done(keccak::keccak256(&message)));
        let state = chance.cut(&message, count).into_iter().fold(sponge(), absorbed);
        assert_eq!(finished(state), digested);
    }
}

#[test]
fn every_place_and_every_length_of_two_blocks() {
    let mut chance = Chance::new(136);
    let bytes = chance.bytes(2 * RATE + 16);
    for place in 0..RATE {
        let state = Sponge { lanes: random_lanes(&mut chance), place };
        finished(state);
        for length in 0..=2 * RATE + 8 {
            let start = length % 8;
            absorbed(state, &bytes[start..start + length]);
        }
    }
}

#[test]
fn usable_states_with_any_lanes() {
    let mut chance = Chance::new(25);
    for _ in 0..10_000 {
        let state = Sponge { lanes: random_lanes(&mut chance), place: chance.below(RATE) };
        let length = chance.below(500);
        let part = chance.bytes(length);
        finished(absorbed(state, &part));
    }
}

#[test]
fn stale_states_count_as_fresh() {
    let mut chance = Chance::new(137);
    let edges = [136, 137, 143, 144, 199, 200, 201, 255, 256, 272, 1 << 31, 1 << 32, (1 << 32) + 5, 1 << 63];
    let near_the_end = (0..200).map(|back| usize::MAX - back);
    let anywhere: Vec<usize> = (0..10_000).map(|_| chance.word() as usize >> chance.below(57)).collect();
    let places = (136..1_000).chain(edges).chain(near_the_end).chain(anywhere);
    for place in places.filter(|place| *place >= RATE) {
        let stale = Sponge { lanes: random_lanes(&mut chance), place };
        assert_eq!(absorb(stale, &[]), sponge(), "place {place}");
        assert_eq!(finish(stale), keccak256(&[]), "place {place}");
        let length = chance.below(300);
        let part = chance.bytes(length);
        assert_eq!(finished(absorbed(stale, &part)), keccak256(&part), "place {place}");
    }
}

#[test]
fn a_fresh_sponge_is_all_zero() {
    assert_eq!(sponge(), Sponge { lanes: [0; 25], place: 0 });
    assert_eq!(absorb(sponge(), &[]), sponge());
}

#[test]
fn a_long_message() {
    let message = Chance::new(20).bytes((1 << 20) + 77);
    assert_eq!(keccak256(&message), done(keccak::keccak256(&message)));
    let state = message.chunks(1_009).fold(sponge(), absorb);
    assert_eq!(finish(state), keccak256(&message));
}
