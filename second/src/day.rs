//! A day of one neighbourhood: the files that the proved program `day` reads, and what the second program makes of them.
//!
//! `batches` is the batch list. `offers` has 166 bytes an offer: address, stamp, account, and how many of the stamp's
//! last bytes were lost on the way. `chunks` has an address before each cell. `overlay` and `anchor` are 32 bytes each.
//! The `heard_` files have two bytes for each offer that a machine heard: its place in `offers`.

mod making;

use crate::book::{self, Header};
use crate::chunk::SPAN;
use crate::draw;
use crate::keccak::keccak256;
use crate::made;

/// How many records a machine's book has room for.
pub const CAPACITY: usize = 24;

/// An offer as it reaches a machine.
pub struct Offer {
    pub address: [u8; 32],
    pub stamp: [u8; 113],
    pub account: [u8; 20],
    /// How many of the stamp's last bytes were lost on the way.
    pub lost: u8,
}

/// A chunk under its address.
#[derive(Clone)]
pub struct Chunk {
    pub address: [u8; 32],
    pub span: [u8; SPAN],
    pub data: Vec<u8>,
}

/// All that the machines share, and what each of them heard.
pub struct Day {
    pub batches: Vec<u8>,
    pub offers: Vec<Offer>,
    pub chunks: Vec<Chunk>,
    pub overlay: [u8; 32],
    pub anchor: [u8; 32],
    pub heard: [Vec<u16>; 4],
    /// What machine D heard where it missed some offers.
    pub heard_less: Vec<u16>,
}

/// A machine at noon.
pub struct Noon {
    /// How often an offer had each answer.
    pub answers: [usize; 23],
    pub records: usize,
    pub depth: u8,
    pub digest: [u8; 32],
    pub hash: [u8; 32],
    pub sample: Vec<u8>,
}

impl Day {
    /// The files, by name.
    pub fn files(&self) -> Vec<(&'static str, Vec<u8>)> {
        let [a, b, c, d] = &self.heard;
        vec![
            ("batches", self.batches.clone()),
            ("offers", self.offers.iter().flat_map(Offer::bytes).collect()),
            ("chunks", self.chunks.iter().flat_map(Chunk::bytes).collect()),
            ("overlay", self.overlay.to_vec()),
            ("anchor", self.anchor.to_vec()),
            ("heard_a", places(a)),
            ("heard_b", places(b)),
            ("heard_c", places(c)),
            ("heard_d", places(d)),
            ("heard_d_less", places(&self.heard_less)),
        ]
    }

    /// A machine that hears these offers, in this order, and draws at noon.
    pub fn noon(&self, heard: &[u16]) -> Noon {
        let mut book = made::fresh(CAPACITY, 0, &self.overlay);
        let mut answers = [0; 23];
        for place in heard {
            let offer = &self.offers[usize::from(*place)];
            let stamp = &offer.stamp[..113 - usize::from(offer.lost)];
            let answer = book::offer(&mut book, &self.batches, &offer.address, stamp, &offer.account);
            answers[answer as usize] += 1;
        }
        let header = Header::of_well_formed(&book).expect("a book stays well formed");
        let mut sample = vec![0; draw::SAMPLE];
        let hash = draw::draw(&book, &self.shelf(&book, &header), &self.anchor, &mut sample).expect("a hash is drawn");
        Noon { answers, records: header.count, depth: header.depth, digest: keccak256(&book), hash, sample }
    }

    /// The chunks of a book's records, in their order.
    fn shelf(&self, book: &[u8], header: &Header) -> Vec<u8> {
        book::records(book, header).flat_map(|record| self.chunk(&record[48..80]).cell()).collect()
    }

    fn chunk(&self, address: &[u8]) -> &Chunk {
        self.chunks.iter().find(|chunk| chunk.address == address).expect("every offered chunk is there")
    }
}

impl Offer {
    fn bytes(&self) -> Vec<u8> {
        [&self.address[..], &self.stamp, &self.account, &[self.lost]].concat()
    }
}

impl Chunk {
    fn cell(&self) -> Vec<u8> {
        made::cell(&self.span, &self.data)
    }

    fn bytes(&self) -> Vec<u8> {
        [&self.address[..], &self.cell()].concat()
    }
}

fn places(heard: &[u16]) -> Vec<u8> {
    heard.iter().flat_map(|place| place.to_be_bytes()).collect()
}

#[cfg(test)]
mod tests;
