//! A book's header, read from a book that is well formed in all its bytes.

use super::{first_bits, shared, DEEPEST, HEADER, MARK, RECORD, SLOT};
use crate::postage::number;

/// What a well-formed book says of itself.
pub struct Header {
    pub overfull: bool,
    pub starting_depth: u8,
    pub depth: u8,
    pub capacity: usize,
    pub count: usize,
    /// The overlay's first 16 bits.
    pub(super) nearest: u16,
}

impl Header {
    /// Reads the header of a book that is well formed in all its bytes.
    pub fn of_well_formed(book: &[u8]) -> Option<Self> {
        let (head, body) = book.split_at_checked(HEADER)?;
        let header = Header {
            overfull: head[5] == 1,
            starting_depth: head[6],
            depth: head[7],
            capacity: number(&head[40..44]) as usize,
            count: number(&head[44..48]) as usize,
            nearest: first_bits(&head[8..40]),
        };
        let good = head[..5] == *MARK && head[5] <= 1 && header.bounds_hold(body.len());
        (good && header.records_hold(body)).then_some(header)
    }

    fn bounds_hold(&self, body: usize) -> bool {
        (16..=65_536).contains(&self.capacity)
            && body == RECORD * self.capacity
            && self.count <= self.capacity
            && self.depth <= DEEPEST
            && self.starting_depth <= self.depth
            && (!self.overfull || (self.depth == DEEPEST && self.count == 0))
    }

    fn records_hold(&self, body: &[u8]) -> bool {
        let (records, rest) = body.split_at(RECORD * self.count);
        let mut before: Option<&[u8]> = None;
        for record in records.chunks_exact(RECORD) {
            if before.is_some_and(|before| before[..SLOT] >= record[..SLOT]) || !self.record_holds(record) {
                return false;
            }
            before = Some(record);
        }
        all_zero(rest)
    }

    /// The bucket is the address's, the index below 2^24, the address near enough.
    fn record_holds(&self, record: &[u8]) -> bool {
        number(&record[32..36]) == u32::from(first_bits(&record[48..80]))
            && record[36] == 0
            && shared(record, self.nearest) >= self.depth
    }
}

/// In pieces, so that the compiler can take many bytes at a time.
fn all_zero(bytes: &[u8]) -> bool {
    bytes.chunks(64).all(|piece| piece.iter().fold(0, |sum, byte| sum | byte) == 0)
}
