use super::*;
use crate::chance::Chance;
use crate::made::{self, fresh};
use std::collections::BTreeMap;

const OWNER: [u8; 20] = [0x22; 20];

fn list(depth: u8) -> [u8; 53] {
    made::batch(&[0x11; 32], &OWNER, depth)
}

fn stamp(address: &[u8; 32], index: u32, time: u64, signature: u8) -> [u8; 113] {
    made::stamp(&[0x11; 32], made::bucket(address), index, time, &[signature; 65])
}

/// Offers the address whose first two bytes are given, at an index of its own.
fn put(book: &mut [u8], first: [u8; 2], index: u32) -> u32 {
    let address = made::address(first);
    offer(book, &list(24), &address, &stamp(&address, index, 1, 0), &OWNER)
}

fn depth_and_count(book: &[u8]) -> (u8, usize) {
    let header = Header::of_well_formed(book).unwrap();
    (header.depth, header.count)
}

#[test]
fn the_sheet_nine_and_seven() {
    let mut book = fresh(16, 0, &[0; 32]);
    (0..9).for_each(|index| assert_eq!(put(&mut book, [0x80, 0], index), 0));
    (0..7).for_each(|index| assert_eq!(put(&mut book, [0x40, 0], index), 0));
    assert_eq!(put(&mut book, [0x40, 0], 7), 0);
    assert_eq!(depth_and_count(&book), (1, 8));
    assert_eq!(put(&mut book, [0x80, 0], 9), 20);
}

#[test]
fn the_sheet_eight_of_each() {
    let mut book = fresh(16, 0, &[0; 32]);
    (0..8).for_each(|index| assert_eq!(put(&mut book, [0x80, index as u8], 0), 0));
    (0..8).for_each(|index| assert_eq!(put(&mut book, [0x40, index as u8], 0), 0));
    assert_eq!(put(&mut book, [0x80, 8], 0), 2);
    assert_eq!(depth_and_count(&book), (1, 8));
}

#[test]
fn the_sheet_seventeen_in_bucket_zero() {
    let mut book = fresh(16, 0, &[0; 32]);
    (0..16).for_each(|index| assert_eq!(put(&mut book, [0, 0], index), 0));
    assert_eq!(put(&mut book, [0, 0], 16), 3);
    assert_eq!(depth_and_count(&book), (16, 0));
    let overfull = book.clone();
    assert_eq!(check_book(&book), 0);
    assert_eq!(put(&mut book, [0, 0], 0), 14);
    assert_eq!(offer(&mut book, &[1], &[], &[], &[]), 14);
    assert_eq!(book, overfull);
    assert!(book[HEADER..].iter().all(|byte| *byte == 0));
}

#[test]
fn a_rise_passes_depths_that_drop_nothing() {
    let mut book = fresh(16, 0, &[0; 32]);
    (0..16).for_each(|index| assert_eq!(put(&mut book, [0x04, 0], index), 0));
    assert_eq!(put(&mut book, [0x02, 0], 0), 0);
    assert_eq!(depth_and_count(&book), (6, 1));
    let mut book = fresh(16, 0, &[0; 32]);
    (0..16).for_each(|index| assert_eq!(put(&mut book, [0x10, 0], index), 0));
    assert_eq!(put(&mut book, [0x80, 0], 0), 2);
    assert_eq!(depth_and_count(&book), (1, 16));
}

#[test]
fn opening() {
    let mut book = vec![7; HEADER + RECORD * 16];
    for (capacity, depth) in [(15, 0), (65_537, 0), (16, 17), (1 << 32, 0), (16, 1 << 32), (u64::MAX, 0)] {
        assert_eq!(open(&mut book, &[], capacity, depth), 27);
    }
    assert_eq!(open(&mut book, &[0; 31], 16, 16), 10);
    assert_eq!(open(&mut book, &[0; 32], 17, 16), 10);
    assert!(book.iter().all(|byte| *byte == 7));
    assert_eq!(open(&mut book, &[9; 32], 16, 16), 0);
    let expected = [&b"RSV\0\x01\0\x10\x10"[..], &[9; 32], &[0, 0, 0, 16, 0, 0, 0, 0], &[0; RECORD * 16]].concat();
    assert_eq!(book, expected);
}

#[test]
fn the_higher_record() {
    let record = |time: u8, address: u8, signature: u8| {
        let mut record = [0; RECORD];
        record[47] = time;
        record[79] = address;
        record[144] = signature;
        record
    };
    let ascending = [record(1, 2, 0), record(1, 1, 1), record(1, 1, 0), record(2, 9, 9)];
    for (low, one) in ascending.iter().enumerate() {
        for (high, other) in ascending.iter().enumerate() {
            let expected = if high > low { other } else { one };
            assert!(std::ptr::eq(higher(one, other), &expected[..]));
        }
    }
    let mut elsewhere = ascending[0];
    elsewhere[39] = 1;
    assert!(std::ptr::eq(higher(&ascending[0], &elsewhere), &ascending[0][..0]));
    assert!(higher(&ascending[0][..144], &ascending[0]).is_empty());
    assert!(higher(&[], &ascending[0]).is_empty());
}

#[test]
fn histories_settle_to_the_definition() {
    let mut chance = Chance::new(16);
    let mut overfull = 0;
    for _ in 0..600 {
        let (capacity, starting_depth) = (16 + chance.below(4), chance.below(3) as u64);
        let slots = 1 + chance.below(24);
        let mut book = fresh(capacity, starting_depth, &[0; 32]);
        let mut best: BTreeMap<Vec<u8>, [u8; RECORD]> = BTreeMap::new();
        for _ in 0..chance.below(120) {
            let mut address = [0; 32];
            address[0] = 1u8.checked_shl(chance.below(12) as u32).unwrap_or(0);
            address[31] = chance.below(3) as u8;
            let stamp = stamp(&address, chance.below(slots) as u32, chance.below(3) as u64, chance.below(2) as u8);
            offer(&mut book, &list(21), &address, &stamp, &OWNER);
            let record = made::record(&stamp, &address);
            best.entry(record[..SLOT].to_vec())
                .and_modify(|held| *held = higher(held, &record).try_into().unwrap())
                .or_insert(record);
        }
        assert_eq!(book, settled(&best, capacity, starting_depth as u8));
        overfull += usize::from(book[5]);
    }
    assert!((10..590).contains(&overfull), "{overfull} overfull books");
}

/// The highest rank of each slot, at the least depth at which they fit, or overfull. The overlay is zero.
fn settled(best: &BTreeMap<Vec<u8>, [u8; RECORD]>, capacity: usize, starting_depth: u8) -> Vec<u8> {
    let mut book = fresh(capacity, starting_depth as u64, &[0; 32]);
    let inside = |depth: u8| best.values().copied().filter(move |record| shared(record, 0) >= depth);
    match (starting_depth..=16).find(|depth| inside(*depth).count() <= capacity) {
        Some(depth) => {
            book[7] = depth;
            made::holding(book, &inside(depth).collect::<Vec<_>>())
        }
        None => {
            book[5..8].copy_from_slice(&[1, starting_depth, 16]);
            book
        }
    }
}

#[test]
fn refusals_of_an_offer() {
    let mut book = fresh(16, 0, &[0; 32]);
    let address = [0x80; 32];
    let good = stamp(&address, 0, 5, 5);
    assert_eq!(offer(&mut book, &list(17), &address, &good, &OWNER), 0);
    let before = book.clone();
    let mut put = |index, time, signature| {
        offer(&mut book, &list(17), &address, &stamp(&address, index, time, signature), &OWNER)
    };
    assert_eq!(put(0, 5, 5), 21);
    assert_eq!(put(0, 5, 6), 22);
    assert_eq!(put(0, 4, 0), 22);
    assert_eq!(put(2, 5, 5), 18);
    assert_eq!(offer(&mut book, &list(17), &address, &good, &[0; 20]), 19);
    assert_eq!(offer(&mut book, &list(17), &address, &good, &OWNER[1..]), 10);
    assert_eq!(offer(&mut book, &list(16), &address, &good, &OWNER[1..]), 15);
    assert_eq!(offer(&mut book[1..], &list(16), &address, &good, &OWNER[1..]), 13);
    assert_eq!(book, before);
    let mut put = |time, signature| offer(&mut book, &list(17), &address, &stamp(&address, 0, time, signature), &OWNER);
    assert_eq!(put(5, 4), 0);
    assert_eq!(put(6, 9), 0);
    assert_eq!(depth_and_count(&book), (0, 1));
}
