//! The draw, Rattle against the second program: over 1,000 full chunks, and over 250 to see that it grows as they do.

use face::bench::{compare, growth, timed};
use second::chance::Chance;
use second::made;

fn main() {
    let (fewer, more) = (draws(250, 16), draws(1_000, 6));
    growth("4 times the chunks", &fewer, &more);
}

fn draws(count: usize, turns: usize) -> Vec<f64> {
    let (book, shelf) = stock(count);
    let (mut ours, mut theirs) = ([0; 1_024], [0; 1_024]);
    let seconds = compare(
        &format!("a draw over {count} full chunks"),
        turns,
        &mut [
            ("Rattle", &mut || timed(|| assert_eq!(face::draw::draw(&book, &shelf, &[3; 32], &mut ours).answer, 0))),
            ("second", &mut || timed(|| second::draw::draw(&book, &shelf, &[3; 32], &mut theirs).unwrap())),
        ],
    );
    assert!(ours == theirs, "samples differ");
    seconds
}

/// A book of so many full chunks, and its shelf.
fn stock(count: usize) -> (Vec<u8>, Vec<u8>) {
    let mut chance = Chance::new(1_000);
    let chunks: Vec<_> = (0..count).map(|_| (4_096u64.to_le_bytes(), chance.bytes(4_096))).collect();
    let (book, cells) = made::shelved(&mut chance, &chunks);
    (book, cells.concat())
}
