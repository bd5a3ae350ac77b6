//! Messages whole and in parts, and sponges of every kind, stale ones too.

use super::{Call, Case};
use crate::chance::Chance;
use crate::keccak::{keccak256, Sponge};

/// Around the edges of a lane and of a block.
const LENGTHS: [usize; 24] =
    [0, 1, 7, 8, 9, 31, 32, 33, 64, 100, 127, 128, 129, 134, 135, 136, 137, 144, 199, 271, 272, 273, 408, 1_000];

/// Places in a block, and stale ones.
const PLACES: [usize; 12] = [0, 1, 7, 8, 9, 64, 127, 128, 135, 136, 137, usize::MAX];

pub fn cases(chance: &mut Chance) -> Vec<Case> {
    let mut cases = vec![Case::new(Call::Sponge, &[], &[&bytes(&Sponge::new())])];
    for length in LENGTHS {
        let message = chance.bytes(length);
        cases.push(Case::new(Call::Keccak256, &[&message], &[&keccak256(&message)]));
    }
    for place in PLACES {
        for length in [0, 1, 8, 137] {
            let sponge = sponge(chance, place);
            let part = chance.bytes(length);
            let mut after = sponge;
            after.absorb(&part);
            cases.push(Case::new(Call::Absorb, &[&bytes(&sponge), &part], &[&bytes(&after)]));
        }
        let sponge = sponge(chance, place);
        cases.push(Case::new(Call::Finish, &[&bytes(&sponge)], &[&sponge.finish()]));
    }
    cases
}

fn sponge(chance: &mut Chance, place: usize) -> Sponge {
    let mut lanes = [0; 25];
    lanes.iter_mut().for_each(|lane| *lane = chance.word());
    Sponge { lanes, place }
}

fn bytes(sponge: &Sponge) -> Vec<u8> {
    sponge.lanes.iter().chain([&(sponge.place as u64)]).flat_map(|word| word.to_be_bytes()).collect()
}
