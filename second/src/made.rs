//! Batches, stamps, records, cells and books, put together from their fields.

use crate::book::{self, HEADER, RECORD};
use crate::chance::Chance;
use crate::chunk;

/// What the listing program prints for `sheet_book`.
pub const SHEET_LISTING: &str = "RSV 1 good 0 0 2 16\n11111111 4660 1 7 12340000 3\n11111111 32768 0 100 80000000 0\n";

/// A batch record.
pub fn batch(id: &[u8; 32], owner: &[u8; 20], depth: u8) -> [u8; 53] {
    joined(&[id, owner, &[depth]])
}

/// A stamp's 113 bytes.
pub fn stamp(batch: &[u8; 32], bucket: u32, index: u32, time: u64, signature: &[u8; 65]) -> [u8; 113] {
    joined(&[batch, &bucket.to_be_bytes(), &index.to_be_bytes(), &time.to_be_bytes(), signature])
}

/// The record that a stamp and its address make.
pub fn record(stamp: &[u8; 113], address: &[u8; 32]) -> [u8; RECORD] {
    joined(&[&stamp[..48], address, &stamp[48..]])
}

/// A chunk on the shelf.
pub fn cell(span: &[u8; 8], data: &[u8]) -> Vec<u8> {
    [&span[..], &(data.len() as u16).to_be_bytes(), data].concat()
}

/// The address that begins with these bytes and is zero from there on.
pub fn address(first: [u8; 2]) -> [u8; 32] {
    joined(&[&first, &[0; 30]])
}

/// The bucket that an address belongs to.
pub fn bucket(address: &[u8; 32]) -> u32 {
    u32::from(u16::from_be_bytes([address[0], address[1]]))
}

/// A fresh book, opened over bytes that are not zero.
pub fn fresh(capacity: usize, starting_depth: u64, overlay: &[u8; 32]) -> Vec<u8> {
    let mut book = vec![0xee; HEADER + RECORD * capacity];
    assert_eq!(book::open(&mut book, overlay, capacity as u64, starting_depth), 0);
    book
}

/// A book without records, with these written into it.
pub fn holding(mut book: Vec<u8>, records: &[[u8; RECORD]]) -> Vec<u8> {
    book[44..48].copy_from_slice(&(records.len() as u32).to_be_bytes());
    book[HEADER..][..RECORD * records.len()].copy_from_slice(&records.concat());
    assert_eq!(book::check_book(&book), 0);
    book
}

/// A book of these chunks, each in a slot of its own, and the cells of its shelf, in record order.
pub fn shelved(chance: &mut Chance, chunks: &[([u8; 8], Vec<u8>)]) -> (Vec<u8>, Vec<Vec<u8>>) {
    let capacity = chunks.len().max(16) + chance.below(9);
    let book = fresh(capacity, 0, &chance.array());
    let mut entries = Vec::new();
    for (index, (span, data)) in (0..).zip(chunks) {
        let address = chunk::address(span, data).expect("no more than a chunk holds");
        let stamp = stamp(&[9; 32], bucket(&address), index, chance.word(), &chance.array());
        entries.push((record(&stamp, &address), cell(span, data)));
    }
    entries.sort_unstable();
    let (records, cells): (Vec<[u8; RECORD]>, Vec<Vec<u8>>) = entries.into_iter().unzip();
    (holding(book, &records), cells)
}

/// The book of document 01's listing.
pub fn sheet_book() -> Vec<u8> {
    let (id, owner) = ([0x11; 32], [0x22; 20]);
    let mut book = fresh(16, 0, &[0; 32]);
    for (first, index, time) in [([0x80, 0x00], 0, 100), ([0x12, 0x34], 1, 7)] {
        let address = address(first);
        let stamp = stamp(&id, bucket(&address), index, time, &[0; 65]);
        assert_eq!(book::offer(&mut book, &batch(&id, &owner, 17), &address, &stamp, &owner), 0);
    }
    book
}

fn joined<const N: usize>(parts: &[&[u8]]) -> [u8; N] {
    parts.concat().try_into().expect("the fields fill their place")
}
