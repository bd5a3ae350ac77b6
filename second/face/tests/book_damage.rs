//! Damaged books, over the C face: every kind of damage gives 13 everywhere, and changes nothing.

use face::book::{check_book, offer};
use face::draw::{draw, Drawn};
use face::lent::unchanged;
use second::chance::Chance;
use second::{book, made};

const OWNER: [u8; 20] = [2; 20];
const ID: [u8; 32] = [9; 32];
const CAPACITY: usize = 20;

/// A good book at depth 2 with ten records, and an offer that it would take.
struct Good {
    book: Vec<u8>,
    batches: [u8; 53],
    address: [u8; 32],
    stamp: [u8; 113],
}

impl Good {
    fn new() -> Self {
        let mut chance = Chance::new(10);
        let mut overlay: [u8; 32] = chance.array();
        overlay[0] = 0x5a;
        let batches = made::batch(&ID, &OWNER, 24);
        let mut book = made::fresh(CAPACITY, 2, &overlay);
        let mut one = |index: u32| {
            let mut address: [u8; 32] = chance.array();
            address[0] = 0x40 | address[0] & 0x3f;
            (address, made::stamp(&ID, made::bucket(&address), index, chance.word(), &chance.array()))
        };
        for index in 0..10 {
            let (address, stamp) = one(index);
            assert_eq!(book::offer(&mut book, &batches, &address, &stamp, &OWNER), 0);
        }
        let (address, stamp) = one(10);
        let good = Good { book, batches, address, stamp };
        assert_eq!(good.check(&good.book), 0);
        good
    }

    /// Both programs' verdict on a book; one that isn't well formed takes no offer and gives no draw, and keeps its bytes.
    fn check(&self, book: &[u8]) -> u32 {
        let answer = unchanged(&[book], || check_book(book));
        assert_eq!(answer, book::check_book(book));
        if answer == 13 {
            let Good { batches, address, stamp, .. } = self;
            let (mut lent, mut sample) = (book.to_vec(), [0x5c; 1_024]);
            let offered = unchanged(&[batches, address, stamp], || offer(&mut lent, batches, address, stamp, &OWNER));
            let drawn = unchanged(&[book], || draw(book, &[], &[3; 32], &mut sample));
            assert_eq!(offered, 13);
            assert_eq!(drawn, Drawn { answer: 13, place: 0, commitment: [0; 32] });
            assert!(lent == book && sample == [0x5c; 1_024], "a refusal wrote a lent byte");
        }
        answer
    }

    /// The damage gives 13.
    fn spoiled(&self, what: &str, damage: impl FnOnce(&mut Vec<u8>)) {
        let mut book = self.book.clone();
        damage(&mut book);
        assert!(book != self.book, "{what}: no damage");
        assert_eq!(self.check(&book), 13, "{what}");
    }
}

/// Where a record stands.
fn at(place: usize) -> usize {
    book::HEADER + book::RECORD * place
}

#[test]
fn each_header_field() {
    let good = Good::new();
    for place in 0..5 {
        for bit in 0..8 {
            good.spoiled("mark or version", |book| book[place] ^= 1 << bit);
        }
    }
    for state in 1..=255 {
        good.spoiled("state", |book| book[5] = state);
    }
    for depth in 3..=255 {
        good.spoiled("starting depth above depth", |book| book[6] = depth);
    }
    for depth in [0, 1].into_iter().chain(17..=255) {
        good.spoiled("depth", |book| book[7] = depth);
    }
    good.spoiled("both depths out of range", |book| book[6..8].fill(17));
    good.spoiled("overlay elsewhere", |book| book[8] ^= 0x80);
    for capacity in [0u32, 15, 16, 19, 21, 65_536, 65_537, 1 << 31, u32::MAX] {
        good.spoiled("capacity", |book| book[40..44].copy_from_slice(&capacity.to_be_bytes()));
    }
    for count in [0u32, 1, 9, 11, 20, 21, 65_536, (1 << 24) + 10, u32::MAX] {
        good.spoiled("count", |book| book[44..48].copy_from_slice(&count.to_be_bytes()));
    }
}

#[test]
fn each_record_field() {
    let good = Good::new();
    for place in 0..10 {
        let record = at(place);
        for byte in 32..36 {
            good.spoiled("bucket", |book| book[record + byte] ^= 1);
        }
        good.spoiled("index of 2^24", |book| book[record + 36] = 1);
        good.spoiled("index of 2^31", |book| book[record + 36] = 0x80);
        for byte in 48..50 {
            good.spoiled("address", |book| book[record + byte] ^= 1);
        }
        good.spoiled("too far", |book| {
            book[record + 34] ^= 0xc0;
            book[record + 48] ^= 0xc0;
        });
        good.spoiled("a slot twice", |book| {
            let from = if place == 9 { place - 1 } else { place + 1 };
            let slot = [&book[at(from)..at(from) + 40], &book[at(from) + 48..at(from) + 80]].concat();
            book[record..record + 40].copy_from_slice(&slot[..40]);
            book[record + 48..record + 80].copy_from_slice(&slot[40..]);
        });
        if place > 0 {
            good.spoiled("a smaller batch id", |book| book[record] = 0);
            good.spoiled("records swapped", |book| {
                let (before, after) = book.split_at_mut(record);
                before[record - book::RECORD..].swap_with_slice(&mut after[..book::RECORD]);
            });
        } else {
            good.spoiled("a larger batch id", |book| book[record] = 0xff);
        }
    }
}

#[test]
fn each_trailing_byte_and_each_length() {
    let good = Good::new();
    for place in at(10)..at(CAPACITY) {
        good.spoiled("trailing byte", |book| book[place] = 1 << (place % 8));
    }
    for length in (0..100).chain([at(9), at(10), at(19), at(20) - 1]) {
        good.spoiled("too short", |book| book.truncate(length));
    }
    for more in [1, 2, 48, 145, 146, 1_450] {
        good.spoiled("too long", |book| book.extend(vec![0; more]));
    }
}

#[test]
fn each_bit_of_a_book() {
    let good = Good::new();
    for place in 0..good.book.len() {
        for bit in 0..8 {
            let mut book = good.book.clone();
            book[place] ^= 1 << bit;
            let answer = good.check(&book);
            if let Some(expected) = flipped(place) {
                assert_eq!(answer, expected, "bit {bit} of byte {place}");
            }
        }
    }
}

/// What a flipped bit gives, where its field alone decides that.
fn flipped(place: usize) -> Option<u32> {
    let field = place.checked_sub(at(0)).map(|place| place % book::RECORD);
    match field {
        None => [0..6, 40..48].iter().any(|header| header.contains(&place)).then_some(13),
        _ if place >= at(10) => Some(13),
        Some(32..37 | 48..50) => Some(13),
        Some(40..48 | 50..) => Some(0),
        _ => None,
    }
}

#[test]
fn overfull_books() {
    let good = Good::new();
    let mut overfull = good.book.clone();
    overfull[44..].fill(0);
    (overfull[5], overfull[7]) = (1, 16);
    assert_eq!(good.check(&overfull), 0);
    let spoiled = |place: usize, byte: u8| {
        let mut book = overfull.clone();
        book[place] = byte;
        assert_eq!(good.check(&book), 13, "byte {place}");
    };
    (0..=255).filter(|depth| *depth != 16).for_each(|depth| spoiled(7, depth));
    spoiled(5, 2);
    spoiled(6, 17);
    spoiled(47, 1);
    (at(0)..at(CAPACITY)).for_each(|place| spoiled(place, 1));
}

#[test]
fn an_overfull_book_holds_no_record() {
    let mut good = Good::new();
    let mut address: [u8; 32] = good.book[8..40].try_into().unwrap();
    address[31] ^= 1;
    good.book[7] = 16;
    good.book[44..].fill(0);
    let stamp = made::stamp(&ID, made::bucket(&address), 0, 1, &[0; 65]);
    assert_eq!(book::offer(&mut good.book, &good.batches, &address, &stamp, &OWNER), 0);
    assert_eq!(good.check(&good.book), 0);
    good.spoiled("overfull with a record", |book| book[5] = 1);
}

#[test]
fn bounds_of_books_without_records() {
    let good = Good::new();
    for capacity in [0, 1, 15, 16, 17, 65_535, 65_536, 65_537] {
        let mut book = vec![0; at(capacity)];
        book[..8].copy_from_slice(&good.book[..8]);
        book[40..44].copy_from_slice(&(capacity as u32).to_be_bytes());
        for (starting_depth, depth) in [(0, 0), (0, 16), (16, 16), (0, 17), (16, 17), (17, 17), (255, 255), (5, 4)] {
            (book[6], book[7]) = (starting_depth, depth);
            let holds = (16..=65_536).contains(&capacity) && starting_depth <= depth && depth <= 16;
            let answer = good.check(&book);
            assert_eq!(answer, if holds { 0 } else { 13 }, "{capacity}, {starting_depth}, {depth}");
        }
    }
}

#[test]
fn well_formed_books_that_no_history_leaves() {
    let good = Good::new();
    let mut empty = good.book.clone();
    empty[44..].fill(0);
    for depth in 2..=16 {
        empty[7] = depth;
        assert_eq!(good.check(&empty), 0);
    }
    let mut unknown = good.book.clone();
    (0..10).for_each(|place| unknown[at(place)..at(place) + 32].fill(0x77));
    assert_eq!(good.check(&unknown), 0);
    assert_eq!(offer(&mut unknown, &good.batches, &good.address, &good.stamp, &OWNER), 0);
    assert_eq!(book::check_book(&unknown), 0);
}
