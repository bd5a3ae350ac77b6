//! Draws: samples of sixteen and more chunks, and shelves that are wrong in every way and place.

use super::books::{fresh, full, Offer};
use super::{Call, Case};
use crate::chance::Chance;
use crate::draw::{self, Refused, SAMPLE};
use crate::{chunk, made};

/// A book of so many different chunks, some of them in a second slot, and its shelf: the cells in record order.
fn shelved(chance: &mut Chance, capacity: usize, chunks: usize, twice: usize) -> (Vec<u8>, Vec<Vec<u8>>) {
    let mut book = fresh(capacity);
    let mut cells = Vec::new();
    for place in 0..chunks {
        let (span, length) = (chance.array::<8>(), chance.below(70));
        let data = chance.bytes(length);
        let address = chunk::address(&span, &data).unwrap();
        for index in 0..if place < twice { 2 } else { 1 } {
            assert_eq!(Offer::new(address, index, 3, 0).enter(&mut book), 0);
            cells.push(([&address[..2], &[index as u8]].concat(), made::cell(&span, &data)));
        }
    }
    cells.sort();
    (book, cells.into_iter().map(|(_, cell)| cell).collect())
}

pub fn cases(chance: &mut Chance) -> Vec<Case> {
    let mut cases = Vec::new();
    for (capacity, chunks, twice) in [(16, 16, 0), (18, 17, 1), (20, 20, 0), (16, 15, 0), (16, 15, 1), (16, 0, 0)] {
        let (book, cells) = shelved(chance, capacity, chunks, twice);
        cases.push(drawn(chance, &book, &cells.concat(), 32, SAMPLE));
    }
    let (book, cells) = shelved(chance, 16, 16, 0);
    let shelf = cells.concat();
    for (anchor, sample) in [(32, SAMPLE), (31, SAMPLE), (33, 0), (32, SAMPLE - 1), (32, SAMPLE + 1)] {
        cases.push(drawn(chance, &book, &shelf, anchor, sample));
    }
    cases.extend(damaged(chance, &book, &cells));
    let mut bad = book.clone();
    bad[48] ^= 1;
    bad[2_000] ^= 1;
    let bad = [&book[..2_367], &bad[..], &[]];
    for book in bad {
        cases.push(drawn(chance, book, &[], 31, 0));
    }
    let overfull = full(chance);
    cases.push(drawn(chance, &overfull, &[1], 31, SAMPLE));
    cases.push(drawn(chance, &fresh(16), &[1], 32, SAMPLE));
    cases
}

/// Shelves that end early, have a cell that is too long or another chunk's, or go on behind the last.
fn damaged(chance: &mut Chance, book: &[u8], cells: &[Vec<u8>]) -> Vec<Case> {
    let mut cases = Vec::new();
    for place in [0, 6, 15] {
        let before = cells[..place].concat();
        for length in [place % 10, cells[place].len() - 1] {
            let shelf = [&before[..], &cells[place][..length]].concat();
            cases.push(drawn(chance, book, &shelf, 32, SAMPLE));
        }
        let too_long = [&before[..], &cells[place][..8], &4_097u16.to_be_bytes()].concat();
        cases.push(drawn(chance, book, &too_long, 32, SAMPLE));
        for at in [place / 2, cells[place].len() - 1] {
            let mut changed = cells.to_vec();
            changed[place][at] ^= 1;
            cases.push(drawn(chance, book, &changed.concat(), 32, SAMPLE));
        }
    }
    let mut swapped = cells.to_vec();
    swapped.swap(3, 12);
    cases.push(drawn(chance, book, &swapped.concat(), 32, SAMPLE));
    cases.push(drawn(chance, book, &[&cells.concat()[..], &[0]].concat(), 32, SAMPLE));
    cases
}

fn drawn(chance: &mut Chance, book: &[u8], shelf: &[u8], anchor: usize, sample: usize) -> Case {
    let (anchor, before) = (chance.bytes(anchor), chance.bytes(sample));
    let mut after = before.clone();
    let (answer, place, commitment) = match draw::draw(book, shelf, &anchor, &mut after) {
        Ok(commitment) => (0, 0, commitment),
        Err(Refused { answer, place }) => (answer, place, [0; 32]),
    };
    let back = [&answer.to_be_bytes()[..], &place.to_be_bytes(), &commitment, &after];
    Case::new(Call::Draw, &[book, shelf, &anchor, &before], &back)
}
