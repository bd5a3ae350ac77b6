//! Opening and ranks against the second program's, over the C face.

use face::book::{check_book, higher, open};
use face::lent::unchanged;
use face::Part;
use second::book;
use second::chance::Chance;

#[test]
fn opening_over_every_edge() {
    let overlay = [0x3c; 64];
    let capacities = [0, 1, 15, 16, 17, 40, 65_535, 65_536, 65_537, 1 << 32, (1 << 32) + 16, u64::MAX];
    let depths = [0, 1, 16, 17, 255, 256, 1 << 32, u64::MAX];
    for (capacity, depth) in capacities.into_iter().flat_map(|capacity| depths.map(|depth| (capacity, depth))) {
        let fitting = 48 + 145 * capacity.min(20) as usize;
        for length in [0, 47, 48, fitting - 1, fitting, fitting + 1, fitting + 145] {
            for overlay in [0, 31, 32, 33, 64].map(|length| &overlay[..length]) {
                let (mut book, mut expected) = (vec![7; length], vec![7; length]);
                let answer = unchanged(&[overlay], || open(&mut book, overlay, capacity, depth));
                assert_eq!(answer, book::open(&mut expected, overlay, capacity, depth), "{capacity} {depth} {length}");
                assert!(book == expected, "{capacity} {depth} {length}");
            }
        }
    }
}

#[test]
fn the_largest_book_opens() {
    let (mut book, mut expected) = (vec![7; 48 + 145 * 65_536], vec![8; 48 + 145 * 65_536]);
    assert_eq!(open(&mut book, &[5; 32], 65_536, 16), 0);
    book::open(&mut expected, &[5; 32], 65_536, 16);
    assert!(book == expected);
    assert_eq!(unchanged(&[&book], || check_book(&book)), 0);
    *book.last_mut().unwrap() = 1;
    assert_eq!(unchanged(&[&book], || check_book(&book)), 13);
}

#[test]
fn the_higher_of_two_records() {
    let mut chance = Chance::new(145);
    let base: [u8; 145] = chance.array();
    let variant = |chance: &mut Chance| {
        let mut record = base;
        for place in [0, 31, 32, 35, 36, 39, 40, 47, 48, 79, 80, 144] {
            let often = if place < 40 { 40 } else { 3 };
            record[place] = if chance.once_in(often) { chance.below(256) as u8 } else { base[place] };
        }
        record
    };
    for _ in 0..20_000 {
        let (first, second) = (variant(&mut chance), variant(&mut chance));
        let expected = book::higher(&first, &second);
        let start = u64::from(!expected.is_empty() && !std::ptr::eq(expected, &first[..]));
        let part = unchanged(&[&first, &second], || higher(&first, &second));
        assert_eq!(part, Part { start, length: expected.len() as u64 });
    }
    for (first, second) in [(0, 0), (0, 145), (145, 0), (144, 145), (145, 144), (146, 145), (145, 146), (144, 144)] {
        let (first, second) = (vec![1; first], vec![1; second]);
        assert_eq!(higher(&first, &second), Part { start: 0, length: 0 });
    }
    assert_eq!(higher(&base, &base.clone()), Part { start: 0, length: 145 });
}
