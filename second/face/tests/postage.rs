//! The proved stamp digest and stamp check against the second program's, over the C face.

use face::lent::unchanged;
use face::postage::{check_stamp, stamp_digest};
use second::chance::Chance;
use second::{made, postage};

/// Everything that a check is lent.
#[derive(Clone)]
struct Case {
    batches: Vec<u8>,
    address: Vec<u8>,
    stamp: Vec<u8>,
    account: Vec<u8>,
}

impl Case {
    /// A case that passes, by the batch at that place of a list.
    fn standing(chance: &mut Chance, list: &[u8], place: usize) -> Self {
        let batch = &list[53 * place..][..53];
        let address: [u8; 32] = chance.array();
        let slots = 1 << (batch[52] - 16);
        let index = [0, slots - 1, chance.below(slots)][chance.below(3)] as u32;
        let id = batch[..32].try_into().unwrap();
        let stamp = made::stamp(id, made::bucket(&address), index, chance.word(), &chance.array());
        let account = batch[32..52].to_vec();
        Case { batches: list.to_vec(), address: address.to_vec(), stamp: stamp.to_vec(), account }
    }

    /// Both programs give this answer.
    fn answers(&self, expected: u32) {
        let Case { batches, address, stamp, account } = self;
        let answer = unchanged(&[batches, address, stamp, account], || check_stamp(batches, address, stamp, account));
        assert_eq!(answer, expected);
        assert_eq!(answer, postage::check_stamp(batches, address, stamp, account));
    }
}

/// A list of so many batches; some ids differ from their neighbour in the last byte alone.
fn list(chance: &mut Chance, count: usize) -> Vec<u8> {
    let mut ids: Vec<[u8; 32]> = (0..count / 2).map(|_| chance.array()).collect();
    let near: Vec<[u8; 32]> = ids.iter().map(|id| changed(id, 31, 1)).collect();
    ids.extend(near);
    ids.extend((ids.len()..count).map(|_| chance.array::<32>()));
    ids.sort_unstable();
    ids.iter().flat_map(|id| made::batch(id, &chance.array(), 17 + chance.below(24) as u8)).collect()
}

fn changed(id: &[u8; 32], place: usize, by: u8) -> [u8; 32] {
    let mut id = *id;
    id[place] ^= by;
    id
}

const COUNTS: [usize; 6] = [1, 2, 3, 7, 64, 1_000];

#[test]
fn each_batch_of_each_list_is_found() {
    let mut chance = Chance::new(53);
    for count in COUNTS {
        let list = list(&mut chance, count);
        assert!(postage::well_formed(&list));
        for place in 0..count {
            Case::standing(&mut chance, &list, place).answers(0);
        }
    }
}

#[test]
fn batches_that_are_not_listed() {
    let mut chance = Chance::new(54);
    for count in COUNTS {
        let list = list(&mut chance, count);
        for place in [0, count / 2, count - 1] {
            for (byte, by) in [(0, 0x80), (0, 1), (16, 4), (31, 2)] {
                let mut case = Case::standing(&mut chance, &list, place);
                case.stamp[byte] ^= by;
                case.answers(16);
            }
        }
        let mut case = Case::standing(&mut chance, &list, 0);
        case.stamp[..32].fill(0);
        case.answers(16);
        case.stamp[..32].fill(0xff);
        case.answers(16);
        case.batches.clear();
        case.answers(16);
    }
}

#[test]
fn each_damage_to_a_list_wherever_it_stands() {
    let mut chance = Chance::new(55);
    for count in COUNTS {
        let list = list(&mut chance, count);
        for place in [0, count / 2, count - 1] {
            let at = 53 * place;
            let named = chance.below(count);
            let case = Case::standing(&mut chance, &list, named);
            let damaged = |damage: &dyn Fn(&mut Vec<u8>)| {
                let mut case = case.clone();
                damage(&mut case.batches);
                case.answers(15);
                case.stamp.pop();
                case.answers(15);
            };
            for depth in [0, 1, 16, 41, 128, 255] {
                damaged(&|batches| batches[at + 52] = depth);
            }
            for length in [1, 20, 32, 52] {
                damaged(&|batches| batches.truncate(at + length));
                damaged(&|batches| batches.extend(vec![0xff; length]));
            }
            damaged(&|batches| batches.extend_from_slice(&list[at..at + 53]));
            damaged(&|batches| drop(batches.splice(at..at, list[at..at + 53].to_vec())));
            if place > 0 {
                damaged(&|batches| batches[at..at + 32].copy_from_slice(&list[at - 53..at - 21]));
                damaged(&|batches| batches[at..at + 32].fill(0));
                damaged(&|batches| (0..53).for_each(|byte| batches.swap(at - 53 + byte, at + byte)));
            }
        }
    }
}

#[test]
fn each_rule_alone_and_each_pair_broken_together() {
    let mut chance = Chance::new(56);
    for count in COUNTS {
        let list = list(&mut chance, count);
        for _ in 0..20 {
            let place = chance.below(count);
            let case = Case::standing(&mut chance, &list, place);
            let slots = 1u32 << (list[53 * place + 52] - 16);
            let breaks = breaks(&mut chance, slots);
            for (one, (rule, first)) in breaks.iter().enumerate() {
                let mut alone = case.clone();
                first(&mut alone);
                alone.answers(*rule);
                for (_, second) in &breaks[one + 1..] {
                    let mut both = case.clone();
                    second(&mut both);
                    first(&mut both);
                    both.answers(*rule);
                }
            }
        }
    }
}

type Break = (u32, Box<dyn Fn(&mut Case)>);

/// Ways to break each rule, in the order in which the rules are judged.
fn breaks(chance: &mut Chance, slots: u32) -> Vec<Break> {
    let (bit, byte) = (1u8 << chance.below(8), chance.below(20));
    let past = slots.saturating_add(chance.below(1 << 30) as u32);
    let bucket = move |case: &mut Case, by: u32| set(case, 32, number(case, 32) ^ by);
    vec![
        (15, Box::new(|case| case.batches.push(0))),
        (15, Box::new(|case| *case.batches.last_mut().unwrap() = 16)),
        (10, Box::new(|case| case.address.truncate(31))),
        (10, Box::new(|case| case.stamp.push(0))),
        (10, Box::new(|case| case.account.truncate(19))),
        (16, Box::new(move |case| case.stamp[31] ^= 0x82)),
        (17, Box::new(move |case| bucket(case, 0x0001_0000))),
        (17, Box::new(move |case| bucket(case, 0x8000_0000))),
        (17, Box::new(move |case| bucket(case, 1))),
        (17, Box::new(move |case| bucket(case, 0x8000))),
        (18, Box::new(move |case| set(case, 36, slots))),
        (18, Box::new(move |case| set(case, 36, past))),
        (18, Box::new(move |case| set(case, 36, u32::MAX))),
        (19, Box::new(move |case| case.account[byte] ^= bit)),
    ]
}

fn number(case: &Case, at: usize) -> u32 {
    u32::from_be_bytes(case.stamp[at..at + 4].try_into().unwrap())
}

fn set(case: &mut Case, at: usize, number: u32) {
    case.stamp[at..at + 4].copy_from_slice(&number.to_be_bytes());
}

#[test]
fn the_edges_of_every_depth() {
    let mut chance = Chance::new(57);
    for depth in 17..=40 {
        let list = made::batch(&chance.array(), &chance.array(), depth);
        let mut case = Case::standing(&mut chance, &list, 0);
        let slots = 1u32 << (depth - 16);
        for (index, answer) in [(0, 0), (slots - 1, 0), (slots, 18), (slots + 1, 18), (u32::MAX, 18)] {
            set(&mut case, 36, index);
            case.answers(answer);
        }
    }
}

#[test]
fn wrong_lengths() {
    let mut chance = Chance::new(58);
    let list = list(&mut chance, 3);
    let case = Case::standing(&mut chance, &list, 1);
    let addresses = [0, 31, 33, 64].map(|length| (length, 113, 20));
    let stamps = [0, 112, 114, 145].map(|length| (32, length, 20));
    let accounts = [0, 19, 21, 32].map(|length| (32, 113, length));
    for (address, stamp, account) in [addresses, stamps, accounts].concat() {
        let mut case = case.clone();
        case.address.resize(address, 0);
        case.stamp.resize(stamp, 0);
        case.account.resize(account, 0);
        case.answers(10);
    }
}

#[test]
fn stamp_digests() {
    let mut chance = Chance::new(80);
    for _ in 0..2_000 {
        let address: [u8; 32] = chance.array();
        let mut stamp: [u8; 113] = chance.array();
        let digested = unchanged(&[&address, &stamp], || stamp_digest(&address, &stamp));
        assert_eq!(digested, postage::stamp_digest(&address, &stamp).into());
        chance.fill(&mut stamp[48..]);
        assert_eq!(stamp_digest(&address, &stamp), digested, "the signature is covered");
        stamp[chance.below(48)] ^= 1;
        assert_ne!(stamp_digest(&address, &stamp), digested);
    }
    let bytes = chance.bytes(200);
    for address in [0, 31, 32, 33, 64] {
        for stamp in [0, 48, 112, 113, 114, 200] {
            let (address, stamp) = (&bytes[..address], &bytes[..stamp]);
            let digested = unchanged(&[address, stamp], || stamp_digest(address, stamp));
            assert_eq!(digested, postage::stamp_digest(address, stamp).into());
        }
    }
}
