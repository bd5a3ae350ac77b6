//! The book: a header of 48 bytes and records of 145, ascending by slot, in the caller's own buffer.

mod header;

use crate::answer::*;
use crate::postage;
pub use header::Header;

pub const HEADER: usize = 48;
pub const RECORD: usize = 145;

/// Batch id, bucket and index: what records are ordered by.
const SLOT: usize = 40;

/// The deepest a book goes, and the bits of an address that a slot fixes.
const DEEPEST: u8 = 16;

/// Mark and version.
const MARK: &[u8; 5] = b"RSV\x00\x01";

/// Writes a fresh book over the whole buffer: 27, 10.
pub fn open(book: &mut [u8], overlay: &[u8], capacity: u64, starting_depth: u64) -> u32 {
    if !(16..=65_536).contains(&capacity) || starting_depth > u64::from(DEEPEST) {
        return OUT_OF_RANGE;
    }
    if overlay.len() != 32 || book.len() as u64 != HEADER as u64 + RECORD as u64 * capacity {
        return WRONG_LENGTH;
    }
    book.fill(0);
    book[..5].copy_from_slice(MARK);
    book[6] = starting_depth as u8;
    book[7] = starting_depth as u8;
    book[8..40].copy_from_slice(overlay);
    book[40..44].copy_from_slice(&(capacity as u32).to_be_bytes());
    DONE
}

/// Whether a book is well formed: 0 or 13.
pub fn check_book(book: &[u8]) -> u32 {
    match Header::of_well_formed(book) {
        Some(_) => DONE,
        None => BAD_BOOK,
    }
}

/// The higher in rank of two records of one slot, the first if they are equal; otherwise an empty part of the first.
pub fn higher<'a>(first: &'a [u8], second: &'a [u8]) -> &'a [u8] {
    if first.len() != RECORD || second.len() != RECORD || first[..SLOT] != second[..SLOT] {
        return &first[..0];
    }
    if outranks(second, first) {
        second
    } else {
        first
    }
}

/// Files an offer: 13, 14, 15, 10, 16 to 22, or 0, 2, 3 with the book changed.
pub fn offer(book: &mut [u8], batches: &[u8], address: &[u8], stamp: &[u8], account: &[u8]) -> u32 {
    let Some(header) = Header::of_well_formed(book) else {
        return BAD_BOOK;
    };
    if header.overfull {
        return OVERFULL;
    }
    let record = match postage::judge(batches, address, stamp, account) {
        Ok(stamp) => record_of(address, &stamp),
        Err(answer) => return answer,
    };
    if shared(&record, header.nearest) < header.depth {
        return TOO_FAR;
    }
    file(book, &header, &record)
}

/// The records of a well-formed book.
pub fn records<'a>(book: &'a [u8], header: &Header) -> impl Iterator<Item = &'a [u8]> {
    book[HEADER..].chunks_exact(RECORD).take(header.count)
}

/// Files a record that may stand in the book.
fn file(book: &mut [u8], header: &Header, record: &[u8; RECORD]) -> u32 {
    let place = place_of(book, header.count, record);
    let at = HEADER + RECORD * place;
    if place < header.count && book[at..at + SLOT] == record[..SLOT] {
        let held = &mut book[at..at + RECORD];
        if held == record {
            return VERY_RECORD_HELD;
        }
        if outranks(held, record) {
            return HIGHER_RANK_HELD;
        }
        held.copy_from_slice(record);
        return DONE;
    }
    if header.count < header.capacity {
        insert(book, header.count, place, record);
        return DONE;
    }
    rise(book, header, record)
}

/// Raises the depth until the records and the new one fit, or makes the book overfull.
fn rise(book: &mut [u8], header: &Header, record: &[u8; RECORD]) -> u32 {
    let mut at_least = [0; DEEPEST as usize + 2];
    at_least[shared(record, header.nearest) as usize] += 1;
    for held in records(book, header) {
        at_least[shared(held, header.nearest) as usize] += 1;
    }
    for bits in (0..=DEEPEST as usize).rev() {
        at_least[bits] += at_least[bits + 1];
    }
    let Some(depth) = (header.depth + 1..=DEEPEST).find(|depth| at_least[*depth as usize] <= header.capacity) else {
        book[5] = 1;
        book[7] = DEEPEST;
        book[44..].fill(0);
        return BECAME_OVERFULL;
    };
    book[7] = depth;
    let kept = keep(book, header, depth);
    if shared(record, header.nearest) < depth {
        return DROPPED;
    }
    let place = place_of(book, kept, record);
    insert(book, kept, place, record);
    DONE
}

/// Moves the records that share enough bits together, clears what is behind them, and says how many they are.
fn keep(book: &mut [u8], header: &Header, depth: u8) -> usize {
    let mut end = HEADER;
    for at in (0..header.count).map(|place| HEADER + RECORD * place) {
        if shared(&book[at..at + RECORD], header.nearest) >= depth {
            book.copy_within(at..at + RECORD, end);
            end += RECORD;
        }
    }
    book[end..].fill(0);
    let kept = (end - HEADER) / RECORD;
    set_count(book, kept);
    kept
}

/// Puts a record at its place, moving those behind it up by one.
fn insert(book: &mut [u8], count: usize, place: usize, record: &[u8; RECORD]) {
    let (at, end) = (HEADER + RECORD * place, HEADER + RECORD * count);
    book.copy_within(at..end, at + RECORD);
    book[at..at + RECORD].copy_from_slice(record);
    set_count(book, count + 1);
}

/// The first place whose record's slot is not below this one's, by halving.
fn place_of(book: &[u8], count: usize, record: &[u8; RECORD]) -> usize {
    let (mut low, mut high) = (0, count);
    while low < high {
        let middle = low + (high - low) / 2;
        if book[HEADER + RECORD * middle..][..SLOT] < record[..SLOT] {
            low = middle + 1;
        } else {
            high = middle;
        }
    }
    low
}

/// Later time first; at one time the smaller address, then the smaller signature.
fn outranks(one: &[u8], other: &[u8]) -> bool {
    (&other[40..48], &one[48..]) < (&one[40..48], &other[48..])
}

fn record_of(address: &[u8], stamp: &postage::Stamp) -> [u8; RECORD] {
    let mut record = [0; RECORD];
    record[..48].copy_from_slice(stamp.slot_and_time);
    record[48..80].copy_from_slice(address);
    record[80..].copy_from_slice(stamp.signature);
    record
}

/// The bits that a record's address shares with the overlay, counted up to 16.
fn shared(record: &[u8], nearest: u16) -> u8 {
    (first_bits(&record[48..80]) ^ nearest).leading_zeros() as u8
}

fn first_bits(address: &[u8]) -> u16 {
    u16::from_be_bytes([address[0], address[1]])
}

fn set_count(book: &mut [u8], count: usize) {
    book[44..48].copy_from_slice(&(count as u32).to_be_bytes());
}

#[cfg(test)]
mod tests;
