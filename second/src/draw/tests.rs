use super::*;
use crate::chance::Chance;
use crate::made::{fresh, shelved};
use std::collections::BTreeSet;

fn chunks(chance: &mut Chance, count: usize) -> Vec<([u8; 8], Vec<u8>)> {
    let lengths = [0, 1, 31, 32, 33, 1_000, 4_095, 4_096];
    let chunk = |_| {
        let length = lengths[chance.below(8)];
        (chance.array(), chance.bytes(length))
    };
    (0..count).map(chunk).collect()
}

#[test]
fn the_sample_is_the_sixteen_smallest_different_pairs() {
    let mut chance = Chance::new(16);
    for count in [16, 17, 40] {
        let mut all = chunks(&mut chance, count);
        all.push(all[3].clone());
        let (book, cells) = shelved(&mut chance, &all);
        let anchor: [u8; 32] = chance.array();
        let mut sample = [0; SAMPLE];
        let commitment = draw(&book, &cells.concat(), &anchor, &mut sample).unwrap();
        let pairs: BTreeSet<([u8; 32], [u8; 32])> = all
            .iter()
            .map(|(s, d)| (chunk::anchored_address(&anchor, s, d).unwrap(), chunk::address(s, d).unwrap()))
            .collect();
        assert_eq!(pairs.len(), count);
        let expected: Vec<u8> =
            pairs.iter().take(16).flat_map(|(anchored, plain)| [*plain, *anchored].concat()).collect();
        assert_eq!(sample[..], expected);
        assert_eq!(Ok(commitment), chunk::address(&1_024u64.to_le_bytes(), &expected));
    }
}

#[test]
fn fifteen_distinct_chunks_are_too_few() {
    let mut chance = Chance::new(15);
    let mut all = chunks(&mut chance, 15);
    all.push(all[0].clone());
    let (book, cells) = shelved(&mut chance, &all);
    let mut sample = [9; SAMPLE];
    assert_eq!(draw(&book, &cells.concat(), &[0; 32], &mut sample), Err(26.into()));
    assert_eq!(sample, [9; SAMPLE]);
}

#[test]
fn refusals_in_their_order() {
    let mut chance = Chance::new(20);
    let all = chunks(&mut chance, 20);
    let (book, cells) = shelved(&mut chance, &all);
    let shelf = cells.concat();
    let mut sample = [9; SAMPLE + 1];
    let mut refused = |book: &[u8], shelf: &[u8], anchor: usize, output: usize| {
        draw(book, shelf, &[0; 33][..anchor], &mut sample[..output]).map_err(|refused| (refused.answer, refused.place))
    };
    assert_eq!(refused(&book[1..], &[], 0, 0), Err((13, 0)));
    assert_eq!(refused(&book, &[], 31, 1_024), Err((10, 0)));
    assert_eq!(refused(&book, &[], 33, 1_024), Err((10, 0)));
    assert_eq!(refused(&book, &[], 32, 1_025), Err((10, 0)));
    assert_eq!(refused(&book, &[], 32, 1_024), Err((23, 0)));
    let start: usize = cells[..7].iter().map(Vec::len).sum();
    assert_eq!(refused(&book, &shelf[..start], 32, 1_024), Err((23, 7)));
    assert_eq!(refused(&book, &shelf[..start + 9], 32, 1_024), Err((23, 7)));
    let mut long = shelf[..start + 10].to_vec();
    long[start + 8..].copy_from_slice(&4_097u16.to_be_bytes());
    assert_eq!(refused(&book, &long, 32, 1_024), Err((12, 7)));
    long[start + 8..].copy_from_slice(&4_096u16.to_be_bytes());
    assert_eq!(refused(&book, &long, 32, 1_024), Err((23, 7)));
    let mut wrong = shelf.clone();
    wrong[start] ^= 1;
    assert_eq!(refused(&book, &wrong, 32, 1_024), Err((24, 7)));
    assert_eq!(refused(&book, &[&shelf[..], &[0]].concat(), 32, 1_024), Err((25, 0)));
    assert_eq!(sample, [9; SAMPLE + 1]);
}

#[test]
fn an_empty_book_and_an_overfull_one() {
    let mut book = fresh(16, 0, &[0; 32]);
    let mut sample = [9; SAMPLE];
    assert_eq!(draw(&book, &[], &[0; 32], &mut sample), Err(26.into()));
    assert_eq!(draw(&book, &[1], &[0; 32], &mut sample), Err(25.into()));
    book[5] = 1;
    book[7] = 16;
    assert_eq!(draw(&book, &[1], &[], &mut []), Err(14.into()));
    assert_eq!(sample, [9; SAMPLE]);
}
