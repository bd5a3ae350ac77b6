//! Makes the day: always the same one.

use super::{Chunk, Day, Offer};
use crate::chance::Chance;
use crate::chunk::{self, DATA};
use crate::made;
use crate::nearness::shared_bits;

/// The bits that a chunk shares with the overlay if it is to be held at noon.
const NEAR: u32 = 2;

/// How many plain offers there are of near chunks, of those that share one bit, and of the rest.
const PLAIN: [usize; 3] = [10, 17, 11];

/// The offers that machine D misses.
const MISSED: usize = 3;

impl Day {
    /// Draws the day with a fixed seed.
    pub fn made() -> Day {
        let mut maker = Maker::new();
        maker.valid();
        maker.refused();
        maker.finished()
    }
}

/// A batch as the maker knows it.
struct Batch {
    id: [u8; 32],
    owner: [u8; 20],
}

struct Maker {
    chance: Chance,
    overlay: [u8; 32],
    batches: Vec<Batch>,
    /// Chunks that nothing has been made of: near ones, those that share one bit, and the rest.
    pool: [Vec<Chunk>; 3],
    chunks: Vec<Chunk>,
    offers: Vec<Offer>,
}

impl Maker {
    fn new() -> Maker {
        let mut chance = Chance::new(1_200);
        let mut overlay: [u8; 32] = chance.array();
        overlay[0] = overlay[0] & 0x3f | 0x80;
        let mut batches: Vec<Batch> = (0..3).map(|_| Batch { id: chance.array(), owner: chance.array() }).collect();
        batches.sort_by_key(|batch| batch.id);
        let mut pool = [vec![], vec![], vec![]];
        for _ in 0..2_500 {
            let length = 8 + chance.below(50);
            let chunk = filled(&chance.bytes(length));
            let class = NEAR.saturating_sub(shared_bits(&chunk.address, &overlay));
            pool[class as usize].push(chunk);
        }
        Maker { chance, overlay, batches, pool, chunks: vec![], offers: vec![] }
    }

    /// The offers that pass every rule of a stamp. A machine may still refuse them by what it holds.
    fn valid(&mut self) {
        for (class, count) in PLAIN.into_iter().enumerate() {
            for _ in 0..count {
                let chunk = self.take(class);
                let stamp = self.stamp(&chunk, 0, 0);
                self.offer(&chunk, stamp, 0);
            }
        }
        self.empty_and_full();
        for _ in 0..2 {
            self.two_slots();
            self.two_signatures();
        }
        for (class, later) in [(0, 0), (0, 0), (1, 0), (0, 60)] {
            self.two_chunks(class, later);
        }
        self.old_stamp();
    }

    /// The least and the largest chunk that there are.
    fn empty_and_full(&mut self) {
        let empty = filled(&[]);
        let full = loop {
            let full = filled(&self.chance.bytes(DATA));
            if shared_bits(&full.address, &self.overlay) >= NEAR {
                break full;
            }
        };
        for chunk in [empty, full] {
            assert!(shared_bits(&chunk.address, &self.overlay) >= NEAR);
            let stamp = self.stamp(&chunk, 1, 1);
            self.offer(&chunk, stamp, 0);
        }
    }

    /// One chunk that holds two slots, of two batches.
    fn two_slots(&mut self) {
        let chunk = self.take(0);
        for batch in [0, 2] {
            let stamp = self.stamp(&chunk, batch, 1);
            self.offer(&chunk, stamp, 0);
        }
    }

    /// One slot and one time, under two signatures.
    fn two_signatures(&mut self) {
        let chunk = self.take(0);
        let first = self.stamp(&chunk, 1, 0);
        let mut second = first;
        second[48..].copy_from_slice(&self.chance.bytes(65));
        self.offer(&chunk, first, 0);
        self.offer(&chunk, second, 0);
    }

    /// One slot for two chunks, the second so much later; at one time where that is 0.
    fn two_chunks(&mut self, class: usize, later: u64) {
        let (first, second) = self.take_neighbours(class);
        let stamp = self.stamp(&first, 2, 0);
        let mut other = self.stamp(&second, 2, 0);
        other[40..48].copy_from_slice(&(time(&stamp) + later).to_be_bytes());
        self.offer(&first, stamp, 0);
        self.offer(&second, other, 0);
    }

    /// A stamp, and an older one for the same chunk and slot.
    fn old_stamp(&mut self) {
        let chunk = self.take(0);
        let stamp = self.stamp(&chunk, 0, 1);
        let mut older = stamp;
        older[40..48].copy_from_slice(&(time(&stamp) - 3_600).to_be_bytes());
        self.offer(&chunk, stamp, 0);
        self.offer(&chunk, older, 0);
    }

    /// Near chunks whose stamps break a rule each, so that a machine that took one would show it.
    fn refused(&mut self) {
        for fault in 0..7 {
            let chunk = self.take(0);
            let mut stamp = self.stamp(&chunk, 1, 0);
            let mut lost = 0;
            match fault {
                0 => lost = 1,
                1 | 2 => stamp[..32].copy_from_slice(&self.chance.bytes(32)),
                3 => stamp[35] ^= 1,
                4 => stamp[39] = 2,
                _ => {}
            }
            self.offer(&chunk, stamp, lost);
            if fault > 4 {
                self.offers.last_mut().unwrap().account = self.chance.array();
            }
        }
    }

    /// Mixes the stream, lets four machines hear it, and takes some of the sixteen from the fourth.
    fn finished(mut self) -> Day {
        self.chance.shuffle(&mut self.offers);
        self.chunks.sort_by_key(|chunk| chunk.address);
        self.chunks.dedup_by_key(|chunk| chunk.address);
        let count = self.offers.len() as u16;
        let heard = [(false, 9), (true, 14), (true, 11), (true, 17)];
        let heard = heard.map(|(mixed, repeats)| self.heard(count, mixed, repeats));
        let batches = self.batches.iter().flat_map(|batch| made::batch(&batch.id, &batch.owner, 17)).collect();
        let anchor = self.chance.array();
        let Maker { overlay, chunks, offers, .. } = self;
        let mut day = Day { batches, offers, chunks, overlay, anchor, heard, heard_less: vec![] };
        day.heard_less = day.heard[3].clone();
        for place in day.alone_in_the_sample().into_iter().take(MISSED) {
            day.heard_less.retain(|heard| *heard != place);
        }
        day
    }

    /// Every offer of the stream once, in its own order or a mixed one, and some again.
    fn heard(&mut self, count: u16, mixed: bool, repeats: usize) -> Vec<u16> {
        let mut heard: Vec<u16> = (0..count).collect();
        if mixed {
            self.chance.shuffle(&mut heard);
        }
        for _ in 0..repeats {
            let again = heard[self.chance.below(heard.len())];
            heard.insert(self.chance.below(heard.len() + 1), again);
        }
        heard
    }

    fn take(&mut self, class: usize) -> Chunk {
        self.pool[class].pop().expect("the pool is large enough")
    }

    /// Two chunks of one bucket.
    fn take_neighbours(&mut self, class: usize) -> (Chunk, Chunk) {
        let pool = &mut self.pool[class];
        pool.sort_by_key(|chunk| chunk.address);
        let place = pool.windows(2).position(|pair| pair[0].address[..2] == pair[1].address[..2]);
        let place = place.expect("the pool has two chunks of one bucket");
        (pool.remove(place), pool.remove(place))
    }

    fn stamp(&mut self, chunk: &Chunk, batch: usize, index: u32) -> [u8; 113] {
        let time = 1_700_000_000 + self.chance.below(20_000) as u64;
        made::stamp(&self.batches[batch].id, made::bucket(&chunk.address), index, time, &self.chance.array())
    }

    fn offer(&mut self, chunk: &Chunk, stamp: [u8; 113], lost: u8) {
        let batch = self.batches.iter().find(|batch| batch.id == stamp[..32]);
        let account = batch.map_or([7; 20], |batch| batch.owner);
        self.offers.push(Offer { address: chunk.address, stamp, account, lost });
        self.chunks.push(chunk.clone());
    }
}

impl Day {
    /// The offers of chunks that are among the sixteen and have no other offer.
    fn alone_in_the_sample(&self) -> Vec<u16> {
        let sample = self.noon(&self.heard[3]).sample;
        let drawn = |offer: &Offer| sample.chunks_exact(64).any(|pair| pair[..32] == offer.address);
        let alone = |offer: &Offer| self.offers.iter().filter(|other| other.address == offer.address).count() == 1;
        let places = self.offers.iter().zip(0..).filter(|(offer, _)| drawn(offer) && alone(offer));
        places.map(|(_, place)| place).collect()
    }
}

/// A chunk whose span is its length.
fn filled(data: &[u8]) -> Chunk {
    let span = (data.len() as u64).to_le_bytes();
    Chunk { address: chunk::address(&span, data).expect("no more than a chunk holds"), span, data: data.to_vec() }
}

fn time(stamp: &[u8; 113]) -> u64 {
    u64::from_be_bytes(stamp[40..48].try_into().unwrap())
}
