//! The listing: a book as text.

use crate::book::{records, Header};
use crate::{hex, nearness, postage::number};
use std::fmt::Write;

/// The most bytes that the listing program reads.
const LIMIT: usize = 65_536;

/// What the listing program prints for what it read.
pub fn listing(input: &[u8]) -> String {
    if input.len() > LIMIT {
        return "too large\n".to_string();
    }
    match Header::of_well_formed(input) {
        Some(header) => lines(input, &header),
        None => "bad book\n".to_string(),
    }
}

fn lines(book: &[u8], header: &Header) -> String {
    let state = if header.overfull { "overfull" } else { "good" };
    let (starting_depth, depth) = (header.starting_depth, header.depth);
    let (count, capacity) = (header.count, header.capacity);
    let mut text = format!("RSV 1 {state} {starting_depth} {depth} {count} {capacity}\n");
    for record in records(book, header) {
        let bits = nearness::nearness(&record[48..80], &book[8..40]).expect("both have 32 bytes");
        let (bucket, index) = (number(&record[32..36]), number(&record[36..40]));
        let time = u64::from_be_bytes(record[40..48].try_into().unwrap());
        let (batch, address) = (hex::write(&record[..4]), hex::write(&record[48..52]));
        writeln!(text, "{batch} {bucket} {index} {time} {address} {bits}").unwrap();
    }
    text
}

#[cfg(test)]
mod tests {
    use super::*;
    use crate::made::{fresh, sheet_book, SHEET_LISTING};

    #[test]
    fn the_sheet() {
        assert_eq!(listing(&sheet_book()), SHEET_LISTING);
    }

    #[test]
    fn other_books() {
        let mut book = fresh(451, 3, &[0; 32]);
        assert_eq!(listing(&book), "RSV 1 good 3 3 0 451\n");
        book[5] = 1;
        book[7] = 16;
        assert_eq!(listing(&book), "RSV 1 overfull 3 16 0 451\n");
        assert_eq!(listing(&[&sheet_book()[..], b"\n"].concat()), "bad book\n");
        assert_eq!(listing(&[]), "bad book\n");
        assert_eq!(listing(&vec![0; LIMIT]), "bad book\n");
        assert_eq!(listing(&vec![0; LIMIT + 1]), "too large\n");
        assert_eq!(listing(&fresh(452, 0, &[0; 32])), "too large\n");
    }
}
