//! The vector file of the proved program `vectors`.
//!
//! A line is a digest and the parts of a message, with one space before each part. A part is its bytes in hexadecimal,
//! `.` for none, or `BYTES*COUNT` for bytes repeated; none stands for more than 8,192 bytes. A line that begins with
//! `#` is a comment.

use crate::chance::Chance;
use crate::keccak::keccak256;
use crate::{hex, published};
use std::fmt::Write;

/// The most bytes that one part may stand for.
const PART_LIMIT: usize = 8_192;

/// Bytes, and how often they are repeated.
type Part = (Vec<u8>, usize);

/// The whole file.
pub fn text() -> String {
    let mut text = String::new();
    let out = &mut text;
    heading(out, "The Keccak team's known-answer file ShortMsgKAT_256, lengths 0 to 72 bits.");
    for (message, digest) in published::KECCAK_TEAM {
        line(out, digest, &[(hex::read(message), 1)]);
    }
    heading(out, "Crypto++, TestVectors/keccak.txt, its part on Keccak-256.");
    for (piece, times, digest) in published::CRYPTO_PP {
        line(out, digest, &repeated(piece.as_bytes(), times));
    }
    made_here(out);
    text
}

/// What the second program answers: every length from 0 to 300, whole and in parts, then the long ones.
fn made_here(out: &mut String) {
    let mut chance = Chance::new(256);
    heading(out, "The second program: every length from 0 to 300 bytes, two in three of them cut into parts.");
    for length in 0..=300 {
        let count = if length % 3 == 0 { 1 } else { 2 + chance.below(4) };
        random_line(out, &mut chance, length, count);
    }
    heading(out, "The second program: the edges of a block, met by the edge of a part.");
    for places in [[135, 1], [136, 1], [1, 135], [8, 128], [7, 129], [136, 136], [135, 137], [272, 0], [0, 271]] {
        let parts = places.map(|length| (chance.bytes(length), 1));
        answered(out, &parts);
    }
    heading(out, "The second program: around 4,096 bytes.");
    for (length, count) in [(4_095, 1), (4_096, 1), (4_097, 1), (4_096, 5)] {
        random_line(out, &mut chance, length, count);
    }
    heading(out, "The second program: a million bytes, as one byte and as pieces of unequal length.");
    answered(out, &repeated(&[0x61], 1_000_000));
    answered(out, &million(&mut chance));
}

fn heading(out: &mut String, words: &str) {
    writeln!(out, "# {words}").unwrap();
}

fn random_line(out: &mut String, chance: &mut Chance, length: usize, count: usize) {
    let message = chance.bytes(length);
    let parts: Vec<Part> = chance.cut(&message, count).into_iter().map(|part| (part.to_vec(), 1)).collect();
    answered(out, &parts);
}

/// A message of one repeated piece, in parts of at most 4,000 bytes.
fn repeated(piece: &[u8], times: usize) -> Vec<Part> {
    let most = if piece.is_empty() { times } else { 4_000 / piece.len() };
    let mut parts = vec![(piece.to_vec(), most); times / most];
    let rest = times % most;
    if rest > 0 {
        parts.push((piece.to_vec(), rest));
    }
    parts
}

/// A million bytes in parts of all lengths up to the limit.
fn million(chance: &mut Chance) -> Vec<Part> {
    let mut left = 1_000_000;
    let mut parts = Vec::new();
    while left > 0 {
        let length = (1 + chance.below(13)).min(left);
        let times = (1 + chance.below(PART_LIMIT / length)).min(left / length);
        parts.push((chance.bytes(length), times));
        left -= length * times;
    }
    parts
}

/// A line with the second program's own digest.
fn answered(out: &mut String, parts: &[Part]) {
    let message: Vec<u8> = parts.iter().flat_map(|(piece, times)| piece.repeat(*times)).collect();
    line(out, &hex::write(&keccak256(&message)), parts);
}

fn line(out: &mut String, digest: &str, parts: &[Part]) {
    out.push_str(digest);
    for (piece, times) in parts {
        assert!(piece.len() * times <= PART_LIMIT);
        match (piece.len() * times, times) {
            (0, _) => out.push_str(" ."),
            (_, 1) => write!(out, " {}", hex::write(piece)).unwrap(),
            (_, _) => write!(out, " {}*{times}", hex::write(piece)).unwrap(),
        }
    }
    out.push('\n');
}

#[cfg(test)]
mod tests {
    use super::*;

    /// Reads the lines back by the rule above and hashes what they say.
    #[test]
    fn every_line_reads_back_to_its_digest() {
        let mut lengths = std::collections::BTreeSet::new();
        for line in text().lines().filter(|line| !line.starts_with('#')) {
            let mut fields = line.split(' ');
            let digest = fields.next().unwrap();
            let message: Vec<u8> = fields.flat_map(part).collect();
            assert_eq!(hex::write(&keccak256(&message)), digest);
            lengths.insert(message.len());
        }
        assert!((0..=300).chain([4_095, 4_096, 4_097, 1_000_000]).all(|length| lengths.contains(&length)));
    }

    fn part(field: &str) -> Vec<u8> {
        let (digits, times) = field.split_once('*').unwrap_or((field, "1"));
        let bytes = if digits == "." { Vec::new() } else { hex::read(digits) };
        let part = bytes.repeat(times.parse().unwrap());
        assert!(part.len() <= PART_LIMIT);
        part
    }

    #[test]
    fn the_file_stays_small_and_is_the_one_in_the_tree() {
        let text = text();
        assert!(text.len() < 250_000, "{} bytes", text.len());
        let path = concat!(env!("CARGO_MANIFEST_DIR"), "/../crates/vectors/data/keccak256.txt");
        let kept = std::fs::read_to_string(path).expect("crates/vectors/data/keccak256.txt can be read");
        assert!(text == kept, "run `cargo run --release --bin write_vectors` in second/");
    }
}
