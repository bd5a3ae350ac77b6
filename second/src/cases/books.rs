//! Books opened, checked, offered to and ranked: every answer, and the bytes afterwards.

use super::{Call, Case};
use crate::book::{self, HEADER, RECORD};
use crate::chance::Chance;
use crate::made;

pub const OWNER: [u8; 20] = [2; 20];
const BATCH: [u8; 32] = [0x11; 32];

/// One batch, with 256 slots a bucket.
pub fn batches() -> Vec<u8> {
    made::batch(&BATCH, &OWNER, 24).to_vec()
}

/// A fresh book with overlay zero and starting depth 0.
pub fn fresh(capacity: usize) -> Vec<u8> {
    made::fresh(capacity, 0, &[0; 32])
}

/// Address, stamp: what the owner offers.
#[derive(Clone)]
pub struct Offer {
    pub address: [u8; 32],
    pub stamp: [u8; 113],
}

impl Offer {
    pub fn new(address: [u8; 32], index: u32, time: u64, signature: u8) -> Self {
        let stamp = made::stamp(&BATCH, made::bucket(&address), index, time, &[signature; 65]);
        Offer { address, stamp }
    }

    /// Into the book without a case.
    pub fn enter(&self, book: &mut [u8]) -> u32 {
        book::offer(book, &batches(), &self.address, &self.stamp, &OWNER)
    }

    fn to(&self, book: &mut [u8]) -> Case {
        offer(book, &batches(), &self.address, &self.stamp, &OWNER)
    }
}

pub fn cases(chance: &mut Chance) -> Vec<Case> {
    let mut cases = openings(chance);
    cases.extend(checks(chance));
    cases.extend(ranks(chance));
    cases.extend(refusals(chance));
    cases.extend(slots(chance));
    cases.extend(rises(chance));
    cases
}

/// An address with these first bytes.
fn address(chance: &mut Chance, first: u8, second: u8) -> [u8; 32] {
    let mut address: [u8; 32] = chance.array();
    address[..2].copy_from_slice(&[first, second]);
    address
}

fn openings(chance: &mut Chance) -> Vec<Case> {
    let mut cases = Vec::new();
    for (capacity, starting, overlay, length) in [
        (16, 0, 32, 2_368),
        (16, 16, 32, 2_368),
        (17, 3, 32, 2_513),
        (15, 0, 32, 48),
        (0, 0, 32, 48),
        (65_537, 0, 31, 9),
        (u64::MAX, 0, 32, 48),
        (1 << 32 | 16, 0, 32, 100),
        (16, 17, 32, 0),
        (16, 256, 0, 5),
        (16, u64::MAX, 32, 48),
        (16, 0, 31, 2_368),
        (16, 0, 33, 0),
        (16, 0, 32, 2_367),
        (16, 0, 32, 2_369),
        (65_536, 16, 32, 100),
    ] {
        let (before, overlay) = (chance.bytes(length), chance.bytes(overlay));
        let mut after = before.clone();
        let answer = book::open(&mut after, &overlay, capacity, starting);
        let inputs = [&before[..], &overlay, &u64::to_be_bytes(capacity), &u64::to_be_bytes(starting)];
        cases.push(Case::new(Call::Open, &inputs, &[&answer.to_be_bytes(), &after]));
    }
    cases
}

/// A book of some records, then each rule of being well formed broken in turn.
fn checks(chance: &mut Chance) -> Vec<Case> {
    let mut whole = fresh(16);
    whole[7] = 1;
    for index in 0..12 {
        let second = chance.word() as u8;
        assert_eq!(Offer::new(address(chance, 0x40 + index / 3, second), index.into(), 5, 1).enter(&mut whole), 0);
    }
    let last = HEADER + RECORD * 11;
    let mut cases = vec![check_book(&whole), check_book(&full(chance))];
    for (at, byte) in [
        (0, b'r'),
        (3, 1),
        (4, 2),
        (5, 1),
        (5, 2),
        (6, 1),
        (6, 2),
        (7, 2),
        (7, 17),
        (8, 0x80),
        (43, 15),
        (42, 1),
        (47, 11),
        (47, 13),
        (last + 35, 1),
        (last + 36, 1),
        (last + 48, 0x80),
        (last + 47, 9),
        (last + RECORD, 1),
        (2_367, 1),
    ] {
        let mut changed = whole.clone();
        changed[at] = byte;
        cases.push(check_book(&changed));
    }
    let (first, second) = (whole[HEADER..][..RECORD].to_vec(), whole[HEADER + RECORD..][..RECORD].to_vec());
    whole[HEADER..][..2 * RECORD].copy_from_slice(&[second, first].concat());
    cases.push(check_book(&whole));
    for length in [0, 47, 48, 2_223] {
        cases.push(check_book(&fresh(16)[..length]));
    }
    cases.push(check_book(&[fresh(16), vec![0]].concat()));
    cases
}

/// An overfull book: seventeen slots in bucket 0.
pub fn full(chance: &mut Chance) -> Vec<u8> {
    let mut book = fresh(16);
    for index in 0..17 {
        let answer = Offer::new(address(chance, 0, 0), index, 1, 0).enter(&mut book);
        assert_eq!(answer, if index < 16 { 0 } else { 3 });
    }
    book
}

fn check_book(bytes: &[u8]) -> Case {
    Case::new(Call::CheckBook, &[bytes], &[&book::check_book(bytes).to_be_bytes()])
}

fn ranks(chance: &mut Chance) -> Vec<Case> {
    let record = chance.bytes(RECORD);
    let mut cases = vec![higher(&record, &record)];
    for at in [0, 31, 32, 39, 40, 47, 48, 79, 80, 144] {
        let mut other = record.clone();
        other[at] = other[at].wrapping_add(1 + chance.below(255) as u8);
        cases.extend([higher(&record, &other), higher(&other, &record)]);
        other[144] ^= 1;
        cases.push(higher(&record, &other));
    }
    for (first, second) in [(0, 0), (144, 145), (145, 144), (146, 145), (145, 0)] {
        let long = [&record[..], &[0]].concat();
        cases.push(higher(&long[..first], &long[..second]));
    }
    cases
}

fn higher(first: &[u8], second: &[u8]) -> Case {
    Case::new(Call::Higher, &[first, second], &[book::higher(first, second)])
}

fn offer(book: &mut [u8], batches: &[u8], address: &[u8], stamp: &[u8], account: &[u8]) -> Case {
    let before = book.to_vec();
    let answer = book::offer(book, batches, address, stamp, account);
    Case::new(Call::Offer, &[&before, batches, address, stamp, account], &[&answer.to_be_bytes(), book])
}

/// What is refused before the book is looked into, in order: 13, 14, 15, 10, 16 to 19.
fn refusals(chance: &mut Chance) -> Vec<Case> {
    let Offer { address, stamp } = Offer::new(address(chance, 9, 9), 3, 4, 5);
    let (list, account) = (batches(), OWNER);
    let mut bad = fresh(16);
    bad[0] = 0;
    let mut cases = vec![
        offer(&mut bad, &[1], &[], &[], &[]),
        offer(&mut fresh(16)[..48], &list, &address, &stamp, &account),
        offer(&mut [], &list, &address, &stamp, &account),
        offer(&mut full(chance), &[1], &[], &stamp, &account),
        offer(&mut fresh(16), &list[1..], &[], &stamp, &account),
        offer(&mut fresh(16), &list, &address[1..], &stamp, &account),
        offer(&mut fresh(16), &list, &address, &stamp[1..], &account),
        offer(&mut fresh(16), &list, &address, &stamp, &account[1..]),
        offer(&mut fresh(16), &list, &address, &stamp, &[7; 20]),
    ];
    for at in [0, 35, 37] {
        let mut other = stamp;
        other[at] ^= 1;
        cases.push(offer(&mut fresh(16), &list, &address, &other, &[7; 20]));
    }
    cases
}

/// Records added before, between and behind others; a held slot's record kept or replaced by each part of the rank.
fn slots(chance: &mut Chance) -> Vec<Case> {
    let mut book = fresh(16);
    let mut cases = Vec::new();
    for first in [0x50, 0x20, 0x70] {
        cases.push(Offer::new(address(chance, first, 1), 7, 50, 9).to(&mut book));
    }
    let mut middle = address(chance, 0x50, 1);
    middle[2] = 0x80;
    for (third, time, signature) in
        [(0x80, 60, 9), (0x80, 60, 9), (0x80, 59, 1), (0x81, 60, 1), (0x7f, 60, 200), (0x7f, 60, 201), (0x7f, 60, 1)]
    {
        middle[2] = third;
        cases.push(Offer::new(middle, 7, time, signature).to(&mut book));
    }
    cases.push(Offer::new(middle, 7, u64::MAX, 0).to(&mut book));
    cases.push(Offer::new(middle, 6, 0, 0).to(&mut book));
    book[7] = 1;
    cases.push(Offer::new(address(chance, 0x80, 1), 7, 1, 0).to(&mut book));
    cases.push(Offer::new(address(chance, 0x7f, 1), 7, 1, 0).to(&mut book));
    cases
}

/// Sixteen slots with these first bytes, then a seventeenth, and some more where room was freed.
fn rises(chance: &mut Chance) -> Vec<Case> {
    let mut cases = Vec::new();
    for (held, seventeenth, more) in [
        (vec![(0x80, 9), (0x40, 7)], 0x40, 1),
        (vec![(0x80, 8), (0x40, 8)], 0x80, 1),
        (vec![(0x10, 16)], 0x80, 0),
        (vec![(0x10, 16)], 0x10, 0),
        (vec![(0x10, 1), (0x08, 15)], 0x08, 1),
        (vec![(0xff, 4), (0x40, 4), (0x01, 8)], 0x01, 2),
        (vec![(0x00, 16)], 0x00, 1),
        (vec![(0x00, 16)], 0x80, 0),
        (vec![(0x80, 1), (0x00, 15)], 0x00, 1),
    ] {
        let mut book = fresh(16);
        let mut place = 0;
        for (first, slots) in held {
            for _ in 0..slots {
                assert_eq!(Offer::new(address(chance, first, 0), place, 1, 0).enter(&mut book), 0);
                place += 1;
            }
        }
        cases.push(Offer::new(address(chance, seventeenth, 0), place, 1, 0).to(&mut book));
        for next in 0..more {
            cases.push(Offer::new(address(chance, seventeenth >> next, 0), place + 1 + next, 1, 0).to(&mut book));
        }
    }
    cases
}
