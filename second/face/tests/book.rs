//! The proved book against the second program's, over the C face: offers, in histories and alone.

use face::book::{check_book, offer, open};
use face::lent::unchanged;
use second::chance::Chance;
use second::{book, made};

/// One offer, as it is lent.
#[derive(Clone)]
struct Offer {
    address: Vec<u8>,
    stamp: Vec<u8>,
    account: Vec<u8>,
}

impl Offer {
    fn new(batch: &[u8; 53], address: [u8; 32], index: u32, time: u64, signature: [u8; 65]) -> Self {
        let id = batch[..32].try_into().unwrap();
        let stamp = made::stamp(id, made::bucket(&address), index, time, &signature);
        Offer { address: address.to_vec(), stamp: stamp.to_vec(), account: batch[32..52].to_vec() }
    }
}

/// A neighbourhood: what all machines share.
struct House {
    overlay: [u8; 32],
    capacity: u64,
    starting_depth: u64,
    batches: Vec<[u8; 53]>,
    list: Vec<u8>,
}

impl House {
    fn random(chance: &mut Chance) -> Self {
        let mut batches: Vec<[u8; 53]> = (0..1 + chance.below(3))
            .map(|_| made::batch(&chance.array(), &chance.array(), 17 + chance.below(8) as u8))
            .collect();
        batches.sort_unstable();
        House {
            overlay: chance.array(),
            capacity: 16 + chance.below(25) as u64,
            starting_depth: if chance.once_in(3) { chance.below(17) as u64 } else { 0 },
            list: batches.concat(),
            batches,
        }
    }

    fn fresh(&self) -> Vec<u8> {
        let length = book::HEADER + book::RECORD * self.capacity as usize;
        let (mut book, mut expected) = (vec![0xcc; length], vec![0xdd; length]);
        assert_eq!(open(&mut book, &self.overlay, self.capacity, self.starting_depth), 0);
        assert_eq!(book::open(&mut expected, &self.overlay, self.capacity, self.starting_depth), 0);
        assert!(book == expected, "fresh books differ");
        book
    }

    /// Offers over few slots, few times, few addresses, with a faulty one now and then.
    fn offers(&self, chance: &mut Chance) -> Vec<Offer> {
        let slots = 1 + chance.below(60);
        let least = [0, 0, chance.below(17), 16][chance.below(4)];
        let pool: Vec<(usize, [u8; 2], u32)> = (0..slots).map(|_| self.slot(chance, least)).collect();
        (0..chance.below(201)).map(|_| self.offer(chance, &pool)).collect()
    }

    /// A slot whose first two address bytes share a random number of bits with the overlay, from a least one on.
    fn slot(&self, chance: &mut Chance, least: usize) -> (usize, [u8; 2], u32) {
        let shared = least + chance.below(17 - least);
        let near = u16::from_be_bytes([self.overlay[0], self.overlay[1]]);
        let first = match shared {
            0..=15 => near ^ 0x8000 >> shared ^ (chance.word() as u16 & (0x7fff >> shared)),
            _ => near,
        };
        let batch = chance.below(self.batches.len());
        let slots = 1 << (self.batches[batch][52] - 16);
        (batch, first.to_be_bytes(), chance.below(slots) as u32)
    }

    fn offer(&self, chance: &mut Chance, pool: &[(usize, [u8; 2], u32)]) -> Offer {
        let (batch, first, index) = pool[chance.below(pool.len())];
        let mut address = made::address(first);
        address[31] = chance.below(3) as u8;
        let mut signature = [0; 65];
        signature[64] = chance.below(3) as u8;
        let time = [0, 1, 2, 255, 256, u64::MAX][chance.below(6)];
        let mut offer = Offer::new(&self.batches[batch], address, index, time, signature);
        if chance.once_in(8) {
            spoil(chance, &mut offer);
        }
        offer
    }
}

/// Breaks one of the rules 10 and 16 to 19.
fn spoil(chance: &mut Chance, offer: &mut Offer) {
    match chance.below(7) {
        0 => offer.address.push(0),
        1 => offer.stamp.truncate(112),
        2 => offer.account.truncate(19),
        3 => offer.stamp[chance.below(32)] ^= 1,
        4 => offer.stamp[32 + chance.below(4)] ^= 1,
        5 => offer.stamp[36] = 1,
        _ => offer.account[chance.below(20)] ^= 1,
    }
}

/// Both programs take the offer with one answer and leave the same bytes; a refusal leaves every byte.
fn offered(book: &mut [u8], list: &[u8], offer: &Offer) -> u32 {
    let Offer { address, stamp, account } = offer;
    let before = book.to_vec();
    let mut expected = before.clone();
    let answer = unchanged(&[list, address, stamp, account], || self::offer(book, list, address, stamp, account));
    assert_eq!(answer, book::offer(&mut expected, list, address, stamp, account));
    assert!(book == expected, "books differ after answer {answer}");
    assert!(answer < 10 || book == before, "answer {answer} changed the book");
    answer
}

#[test]
fn histories_in_several_orders_with_repeats() {
    let mut chance = Chance::new(2_000);
    let mut seen = [0; 23];
    for _ in 0..2_000 {
        let house = House::random(&mut chance);
        let mut offers = house.offers(&mut chance);
        let mut ends = Vec::new();
        for order in 0..4 {
            let mut book = house.fresh();
            for offer in &offers {
                seen[offered(&mut book, &house.list, offer) as usize] += 1;
                assert_eq!(check_book(&book), 0);
            }
            ends.push(book);
            match order {
                0 => offers.reverse(),
                _ => {
                    let repeats: Vec<Offer> = offers.iter().filter(|_| chance.once_in(10)).cloned().collect();
                    offers.extend(repeats);
                    chance.shuffle(&mut offers);
                }
            }
        }
        assert!(ends.iter().all(|book| *book == ends[0]), "the order of the offers shows");
    }
    for answer in [0, 2, 3, 10, 14, 16, 17, 18, 19, 20, 21, 22] {
        assert!(seen[answer] > 100, "answer {answer} came {} times", seen[answer]);
    }
}

#[test]
fn a_book_at_any_place_of_a_buffer() {
    let mut chance = Chance::new(8);
    for case in 0..80 {
        let house = House::random(&mut chance);
        let fresh = house.fresh();
        let mut buffer = vec![0xee; case % 8 + fresh.len() + 8];
        let book = case % 8..case % 8 + fresh.len();
        buffer[book.clone()].copy_from_slice(&fresh);
        for offer in house.offers(&mut chance) {
            offered(&mut buffer[book.clone()], &house.list, &offer);
        }
        let around = [&buffer[..book.start], &buffer[book.end..]].concat();
        assert!(around.iter().all(|byte| *byte == 0xee), "a byte beside the book was written");
    }
}

#[test]
fn orders_of_refusal() {
    let mut chance = Chance::new(13);
    for _ in 0..200 {
        let house = House::random(&mut chance);
        let mut book = house.fresh();
        let batch = &house.batches[0];
        let mut address = house.overlay;
        address[31] ^= 1;
        let good = Offer::new(batch, address, 0, 5, [5; 65]);
        assert_eq!(offered(&mut book, &house.list, &good), 0);
        assert_eq!(offered(&mut book, &house.list, &good), 21);
        assert_eq!(offered(&mut book, &house.list, &Offer::new(batch, address, 0, 4, [0; 65])), 22);
        assert_eq!(offered(&mut book, &house.list, &Offer::new(batch, address, 0, 5, [6; 65])), 22);
        let mut short = good.clone();
        short.account.pop();
        assert_eq!(offered(&mut book, &house.list, &short), 10);
        assert_eq!(offered(&mut book, &house.list[1..], &short), 15);
        let length = book.len();
        assert_eq!(offered(&mut book[..length - 1], &house.list[1..], &short), 13);
        let mut overfull = house.fresh();
        (overfull[5], overfull[7]) = (1, 16);
        assert_eq!(offered(&mut overfull, &house.list[1..], &short), 14);
        assert_eq!(offered(&mut overfull, &house.list, &good), 14);
        assert_eq!(check_book(&overfull), 0);
    }
}
