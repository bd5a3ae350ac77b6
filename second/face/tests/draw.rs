//! The proved draw against the second program's, over the C face.

use face::draw::{draw, Drawn};
use face::lent::unchanged;
use second::chance::Chance;
use second::made;

const SAMPLE: usize = 1_024;

/// A book, and the cells of its shelf in record order.
struct Stock {
    book: Vec<u8>,
    cells: Vec<Vec<u8>>,
}

impl Stock {
    /// So many different chunks, and a second slot for so many of them.
    fn random(chance: &mut Chance, chunks: usize, twice: usize) -> Self {
        let mut all: Vec<([u8; 8], Vec<u8>)> = (0..chunks).map(|_| random_chunk(chance)).collect();
        all.extend_from_within(..twice);
        let (book, cells) = made::shelved(chance, &all);
        Stock { book, cells }
    }

    fn shelf(&self) -> Vec<u8> {
        self.cells.concat()
    }

    /// Where a cell begins on the shelf.
    fn start(&self, place: usize) -> usize {
        self.cells[..place].iter().map(Vec::len).sum()
    }
}

/// One chunk in twelve is long: a draw hashes each cell twice, in both programs, and what long data hashes to has tests of its own.
fn random_chunk(chance: &mut Chance) -> ([u8; 8], Vec<u8>) {
    let long = [chance.below(4_097), 4_095, 4_096];
    let short = [0, 1, 31, 32, 33, 64, 65];
    let length = if chance.below(12) == 0 { long[chance.below(3)] } else { short[chance.below(7)] };
    (chance.array(), chance.bytes(length))
}

/// Both programs draw alike, sample included; a refusal leaves the sample and names no commitment.
fn drawn(book: &[u8], shelf: &[u8], anchor: &[u8], output: usize) -> Drawn {
    let (mut sample, mut expected) = (vec![0x5c; output], vec![0x5c; output]);
    let drawn = unchanged(&[book, shelf, anchor], || draw(book, shelf, anchor, &mut sample));
    assert_eq!(drawn, second::draw::draw(book, shelf, anchor, &mut expected).into());
    assert!(sample == expected, "samples differ after answer {}", drawn.answer);
    assert!(drawn.answer == 0 || sample.iter().all(|byte| *byte == 0x5c));
    drawn
}

fn refused(answer: u32, place: usize) -> Drawn {
    Drawn { answer, place: place as u32, commitment: [0; 32] }
}

/// Each kind of damage to one cell, and the answer that it gives.
fn damages(chance: &mut Chance, stock: &Stock, place: usize) -> Vec<(u32, Vec<u8>)> {
    let (shelf, start, length) = (stock.shelf(), stock.start(place), stock.cells[place].len());
    let cut = |kept: usize| shelf[..start + kept].to_vec();
    let changed = |at: usize, change: &dyn Fn(&mut [u8])| {
        let mut shelf = shelf.clone();
        change(&mut shelf[start + at..]);
        shelf
    };
    let (long, bit) = (4_097 + chance.below(61_439) as u16, 1 << chance.below(8));
    let (span, data) = random_chunk(chance);
    let mut damages = vec![
        (23, cut(chance.below(10))),
        (12, changed(8, &|rest| rest[..2].copy_from_slice(&long.to_be_bytes()))),
        (24, changed(chance.below(8), &|rest| rest[0] ^= bit)),
        (24, [&shelf[..start], &made::cell(&span, &data), &shelf[start + length..]].concat()),
    ];
    if length > 10 {
        damages.push((23, cut(10 + chance.below(length - 10))));
        damages.push((24, changed(10 + chance.below(length - 10), &|rest| rest[0] ^= bit)));
    }
    if length > 10 && stock.cells[place][length - 1] != 0 {
        damages.push((24, changed(8, &|rest| rest[..2].copy_from_slice(&(length as u16 - 11).to_be_bytes()))));
    }
    damages
}

#[test]
fn three_hundred_books_whole_and_damaged() {
    let mut chance = Chance::new(300);
    for case in 0..300 {
        let (chunks, twice) = [(15, 0), (15, 5), (16, 0), (16, 3), (17, 0), (17, 17), (40, 0), (40, 10)][case % 8];
        let stock = Stock::random(&mut chance, chunks, twice);
        let anchor: [u8; 32] = chance.array();
        let draw = |shelf: &[u8]| drawn(&stock.book, shelf, &anchor, SAMPLE);
        let whole = draw(&stock.shelf());
        assert_eq!((whole.answer, whole.place), (if chunks < 16 { 26 } else { 0 }, 0), "{chunks} chunks");
        let last = stock.cells.len() - 1;
        for place in [0, last / 2, last] {
            for (answer, shelf) in damages(&mut chance, &stock, place) {
                assert_eq!(draw(&shelf), refused(answer, place), "{chunks} chunks");
            }
        }
        let more = 1 + chance.below(5_000);
        assert_eq!(draw(&[stock.shelf(), chance.bytes(more)].concat()), refused(25, 0));
    }
}

#[test]
fn the_edges_of_each_damage() {
    let mut chance = Chance::new(301);
    for _ in 0..10 {
        let stock = Stock::random(&mut chance, 18, 2);
        let anchor: [u8; 32] = chance.array();
        let draw = |shelf: &[u8]| drawn(&stock.book, shelf, &anchor, SAMPLE);
        let last = stock.cells.len() - 1;
        for place in [0, last / 2, last] {
            let (shelf, start, cell) = (stock.shelf(), stock.start(place), &stock.cells[place]);
            for kept in [0, 1, 7, 8, 9] {
                assert_eq!(draw(&shelf[..start + kept]), refused(23, place), "cut in the head");
            }
            for kept in (10..cell.len()).step_by(97) {
                assert_eq!(draw(&shelf[..start + kept]), refused(23, place), "cut in the data");
            }
            let with_length = |length: u16, kept: usize| {
                let mut shelf = shelf.clone();
                shelf[start + 8..start + 10].copy_from_slice(&length.to_be_bytes());
                shelf.truncate(kept);
                shelf
            };
            for length in [4_097, 4_098, 0x8000, u16::MAX] {
                assert_eq!(draw(&with_length(length, shelf.len())), refused(12, place));
                assert_eq!(draw(&with_length(length, start + 10)), refused(12, place), "before the data is sought");
            }
            assert_eq!(draw(&with_length(4_096, start + 10 + 4_000)).answer, 23);
            for byte in [0, 7].into_iter().chain(10..cell.len().min(12)) {
                let mut shelf = shelf.clone();
                shelf[start + byte] ^= 0x10;
                assert_eq!(draw(&shelf), refused(24, place), "byte {byte}");
            }
            let mut shelf = shelf.clone();
            shelf.drain(start..start + cell.len());
            draw(&shelf);
        }
    }
}

#[test]
fn two_faults_and_the_earlier_cell_speaks() {
    let stock = Stock::random(&mut Chance::new(302), 20, 0);
    let mut shelf = stock.shelf();
    let (third, fifth) = (stock.start(3), stock.start(5));
    shelf[third] ^= 1;
    shelf[fifth + 8] = 0xff;
    shelf.push(0);
    assert_eq!(drawn(&stock.book, &shelf, &[1; 32], SAMPLE), refused(24, 3));
    shelf[third] ^= 1;
    assert_eq!(drawn(&stock.book, &shelf, &[1; 32], SAMPLE), refused(12, 5));
}

#[test]
fn bytes_left_over() {
    let mut chance = Chance::new(303);
    for chunks in [15, 16, 20] {
        let stock = Stock::random(&mut chance, chunks, 1);
        for more in [1, 9, 10, 5_000] {
            let shelf = [stock.shelf(), vec![0; more]].concat();
            assert_eq!(drawn(&stock.book, &shelf, &[1; 32], SAMPLE), refused(25, 0));
        }
    }
}

#[test]
fn books_and_lengths_come_first() {
    let mut chance = Chance::new(304);
    let stock = Stock::random(&mut chance, 16, 0);
    let (book, shelf) = (&stock.book, stock.shelf());
    for anchor in [0, 31, 32, 33, 64] {
        for output in [0, 32, 1_023, 1_024, 1_025, 2_048] {
            let answer = drawn(book, &shelf, &[3; 64][..anchor], output).answer;
            assert_eq!(answer, if (anchor, output) == (32, SAMPLE) { 0 } else { 10 });
            assert_eq!(drawn(&book[1..], &[], &[3; 64][..anchor], output), refused(13, 0));
        }
    }
    assert_eq!(drawn(book, &[], &[3; 31], SAMPLE), refused(10, 0));
    let mut overfull = book.clone();
    overfull[44..].fill(0);
    assert_eq!(drawn(&overfull, &[], &[3; 32], SAMPLE), refused(26, 0));
    assert_eq!(drawn(&overfull, &shelf, &[3; 32], SAMPLE), refused(25, 0));
    (overfull[5], overfull[7]) = (1, 16);
    assert_eq!(drawn(&overfull, &shelf, &[3; 31], 5), refused(14, 0));
    let mut damaged = book.clone();
    damaged[7] = 17;
    assert_eq!(drawn(&damaged, &shelf, &[3; 32], SAMPLE), refused(13, 0));
}

#[test]
fn one_anchor_one_hash_and_another_anchor_another() {
    let mut chance = Chance::new(305);
    let stock = Stock::random(&mut chance, 30, 4);
    let first = drawn(&stock.book, &stock.shelf(), &[1; 32], SAMPLE);
    assert_eq!(drawn(&stock.book, &stock.shelf(), &[1; 32], SAMPLE), first);
    assert_ne!(drawn(&stock.book, &stock.shelf(), &[2; 32], SAMPLE), first);
}
