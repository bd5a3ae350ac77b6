//! The draw: the sixteen smallest pairs of a book's chunks under an anchor, and the commitment to them.

use crate::answer::*;
use crate::book::{records, Header};
use crate::chunk::{self, Tree};

pub const SAMPLE: usize = 1_024;

/// The 1,024 bytes' own span.
const SAMPLE_SPAN: [u8; 8] = [0, 4, 0, 0, 0, 0, 0, 0];

/// Bytes of a cell before its data: span and length.
const CELL_HEAD: usize = 10;

/// Pairs in a sample.
const PAIRS: usize = 16;

/// Anchored address, then address: what pairs are ordered by.
type Pair = [u8; 64];

/// A draw that is refused: the number, and the record's place where a cell is at fault.
#[derive(Clone, Copy, Debug, PartialEq, Eq)]
pub struct Refused {
    pub answer: u32,
    pub place: u32,
}

impl From<u32> for Refused {
    fn from(answer: u32) -> Self {
        Refused { answer, place: 0 }
    }
}

/// Draws, writes the sample and hands back the commitment: 13, 14, 10, cell by cell 23, 12, 23, 24, then 25, 26.
pub fn draw(book: &[u8], shelf: &[u8], anchor: &[u8], sample: &mut [u8]) -> Result<[u8; 32], Refused> {
    let header = Header::of_well_formed(book).ok_or(BAD_BOOK)?;
    if header.overfull {
        return Err(OVERFULL.into());
    }
    if sample.len() != SAMPLE {
        return Err(WRONG_LENGTH.into());
    }
    let (plain, anchored) = (Tree::plain(), Tree::anchored(anchor)?);
    let mut smallest = Smallest::new();
    let mut rest = shelf;
    for (place, record) in records(book, &header).enumerate() {
        let at_fault = |answer| Refused { answer, place: place as u32 };
        let cell = Cell::take(&mut rest).map_err(at_fault)?;
        let address = plain.address(cell.span, cell.data)?;
        if address != record[48..80] {
            return Err(at_fault(WRONG_CHUNK));
        }
        smallest.add(pair(&anchored.address(cell.span, cell.data)?, &address));
    }
    if !rest.is_empty() {
        return Err(BYTES_LEFT.into());
    }
    smallest.write(sample)?;
    Ok(chunk::address(&SAMPLE_SPAN, sample)?)
}

/// One chunk of the shelf.
struct Cell<'a> {
    span: &'a [u8],
    data: &'a [u8],
}

impl<'a> Cell<'a> {
    /// Takes a cell off the shelf's front: 23 for its head, 12, 23 for its data.
    fn take(shelf: &mut &'a [u8]) -> Result<Self, u32> {
        let (head, rest) = shelf.split_at_checked(CELL_HEAD).ok_or(SHELF_ENDS)?;
        let length = usize::from(u16::from_be_bytes([head[8], head[9]]));
        if length > chunk::DATA {
            return Err(DATA_ABOVE_4096);
        }
        let (data, rest) = rest.split_at_checked(length).ok_or(SHELF_ENDS)?;
        *shelf = rest;
        Ok(Cell { span: &head[..8], data })
    }
}

/// The smallest different pairs met so far, ascending.
struct Smallest {
    pairs: [Pair; PAIRS],
    count: usize,
}

impl Smallest {
    fn new() -> Self {
        Smallest { pairs: [[0; 64]; PAIRS], count: 0 }
    }

    fn add(&mut self, pair: Pair) {
        let Err(place) = self.pairs[..self.count].binary_search(&pair) else {
            return;
        };
        if place == PAIRS {
            return;
        }
        self.count = PAIRS.min(self.count + 1);
        self.pairs.copy_within(place..self.count - 1, place + 1);
        self.pairs[place] = pair;
    }

    /// As address, anchored address; 26 if there are too few.
    fn write(&self, sample: &mut [u8]) -> Result<(), u32> {
        if self.count < PAIRS {
            return Err(FEW_PAIRS);
        }
        for (out, pair) in sample.chunks_exact_mut(64).zip(&self.pairs) {
            out[..32].copy_from_slice(&pair[32..]);
            out[32..].copy_from_slice(&pair[..32]);
        }
        Ok(())
    }
}

fn pair(anchored: &[u8; 32], address: &[u8; 32]) -> Pair {
    let mut pair = [0; 64];
    pair[..32].copy_from_slice(anchored);
    pair[32..].copy_from_slice(address);
    pair
}

#[cfg(test)]
mod tests;
