//! Postage: the list of batches, stamps, the digest that an owner signs, and the rules a stamp must pass.

use crate::answer::*;
use crate::keccak::Sponge;

pub const BATCH: usize = 53;
pub const STAMP: usize = 113;
pub const ACCOUNT: usize = 20;

/// What ERC-191 puts before a 32-byte message.
const LEAD: &[u8; 28] = b"\x19Ethereum Signed Message:\n32";

/// A stamp's fields, as they stand in its 113 bytes.
pub struct Stamp<'a> {
    pub batch: &'a [u8],
    pub bucket: u32,
    pub index: u32,
    /// Batch id, bucket and index: the slot's 40 bytes, then the time's 8.
    pub slot_and_time: &'a [u8],
    pub signature: &'a [u8],
}

impl<'a> Stamp<'a> {
    /// Of 113 bytes.
    fn read(stamp: &'a [u8]) -> Self {
        Stamp {
            batch: &stamp[..32],
            bucket: number(&stamp[32..36]),
            index: number(&stamp[36..40]),
            slot_and_time: &stamp[..48],
            signature: &stamp[48..],
        }
    }
}

/// The digest that the owner signs: 10. It covers all of the stamp but its signature.
pub fn stamp_digest(address: &[u8], stamp: &[u8]) -> Result<[u8; 32], u32> {
    if address.len() != 32 || stamp.len() != STAMP {
        return Err(WRONG_LENGTH);
    }
    let mut inner = Sponge::new();
    inner.absorb(address);
    inner.absorb(Stamp::read(stamp).slot_and_time);
    let mut outer = Sponge::new();
    outer.absorb(LEAD);
    outer.absorb(&inner.finish());
    Ok(outer.finish())
}

/// Whether a stamp stands: 15, 10, 16 to 19, 0.
pub fn check_stamp(batches: &[u8], address: &[u8], stamp: &[u8], account: &[u8]) -> u32 {
    match judge(batches, address, stamp, account) {
        Ok(_) => DONE,
        Err(answer) => answer,
    }
}

/// The same, handing back the stamp that stands.
pub fn judge<'a>(batches: &[u8], address: &[u8], stamp: &'a [u8], account: &[u8]) -> Result<Stamp<'a>, u32> {
    if !well_formed(batches) {
        return Err(BAD_BATCHES);
    }
    if address.len() != 32 || stamp.len() != STAMP || account.len() != ACCOUNT {
        return Err(WRONG_LENGTH);
    }
    let stamp = Stamp::read(stamp);
    let batch = find(batches, stamp.batch).ok_or(NO_SUCH_BATCH)?;
    let (owner, depth) = (&batch[32..52], batch[52]);
    if stamp.bucket != u32::from(address[0]) << 8 | u32::from(address[1]) {
        return Err(WRONG_BUCKET);
    }
    if stamp.index >= 1 << (depth - 16) {
        return Err(INDEX_PAST_SLOTS);
    }
    if account != owner {
        return Err(NOT_THE_OWNER);
    }
    Ok(stamp)
}

/// Whole records, ids strictly ascending, depths 17 to 40.
pub fn well_formed(batches: &[u8]) -> bool {
    let records = batches.chunks_exact(BATCH);
    records.remainder().is_empty()
        && records.clone().all(|record| (17..=40).contains(&record[52]))
        && records.clone().zip(records.skip(1)).all(|(one, next)| one[..32] < next[..32])
}

/// The record of a batch in a well-formed list, by halving.
fn find<'a>(batches: &'a [u8], id: &[u8]) -> Option<&'a [u8]> {
    let record = |place: usize| &batches[BATCH * place..][..BATCH];
    let (mut low, mut high) = (0, batches.len() / BATCH);
    while low < high {
        let middle = low + (high - low) / 2;
        if record(middle)[..32] < *id {
            low = middle + 1;
        } else {
            high = middle;
        }
    }
    (low < batches.len() / BATCH).then(|| record(low)).filter(|record| record[..32] == *id)
}

/// A number of four bytes.
pub(crate) fn number(bytes: &[u8]) -> u32 {
    u32::from_be_bytes(bytes.try_into().unwrap())
}

#[cfg(test)]
mod tests {
    use super::*;
    use crate::keccak::keccak256;
    use crate::made::{self, address};

    fn batch(id: u8, owner: u8, depth: u8) -> [u8; BATCH] {
        made::batch(&[id; 32], &[owner; 20], depth)
    }

    fn stamp(id: u8, bucket: u32, index: u32) -> [u8; STAMP] {
        made::stamp(&[id; 32], bucket, index, 0, &[0; 65])
    }

    #[test]
    fn the_sheet() {
        let list = batch(0x11, 0x22, 17);
        let address = address([0x12, 0x34]);
        let answer = |index| check_stamp(&list, &address, &stamp(0x11, 4_660, index), &[0x22; 20]);
        assert_eq!([answer(0), answer(1), answer(2), answer(u32::MAX)], [0, 0, 18, 18]);
    }

    #[test]
    fn rules_in_their_order() {
        let list = [batch(3, 4, 18), batch(5, 6, 40), batch(7, 8, 17)].concat();
        let near = address([1, 2]);
        let check = |id, bucket, index, owner| check_stamp(&list, &near, &stamp(id, bucket, index), &[owner; 20]);
        assert_eq!(check(3, 258, 3, 4), 0);
        assert_eq!(check(5, 258, (1 << 24) - 1, 6), 0);
        assert_eq!(check(7, 258, 1, 8), 0);
        assert_eq!(check(4, 0, 9, 9), 16);
        assert_eq!(check(2, 258, 0, 4), 16);
        assert_eq!(check(8, 258, 0, 4), 16);
        assert_eq!(check(3, 258 + 65_536, 9, 9), 17);
        assert_eq!(check(3, 258, 4, 9), 18);
        assert_eq!(check(5, 258, 1 << 24, 6), 18);
        assert_eq!(check(3, 258, 3, 9), 19);
        assert_eq!(check_stamp(&list[..158], &near, &[], &[]), 15);
        assert_eq!(check_stamp(&list, &near, &stamp(4, 0, 0)[..112], &[4; 20]), 10);
        assert_eq!(check_stamp(&list, &near[..31], &stamp(4, 0, 0), &[4; 20]), 10);
        assert_eq!(check_stamp(&list, &near, &stamp(4, 0, 0), &[4; 21]), 10);
        assert_eq!(check_stamp(&[], &near, &stamp(3, 258, 0), &[4; 20]), 16);
    }

    #[test]
    fn lists() {
        assert!(well_formed(&[]));
        assert!(well_formed(&batch(0, 0, 17)) && well_formed(&batch(0, 0, 40)));
        assert!(!well_formed(&batch(0, 0, 16)) && !well_formed(&batch(0, 0, 41)));
        assert!(!well_formed(&batch(0, 0, 17)[..52]) && !well_formed(&[0; 1]));
        assert!(well_formed(&[batch(1, 9, 17), batch(2, 0, 17)].concat()));
        assert!(!well_formed(&[batch(1, 9, 17), batch(1, 0, 17)].concat()));
        assert!(!well_formed(&[batch(2, 0, 17), batch(1, 9, 17)].concat()));
        assert!(!well_formed(&[batch(1, 0, 17), batch(2, 0, 16)].concat()));
    }

    #[test]
    fn the_digest_is_two_hashes_and_leaves_the_signature_out() {
        let mut bytes = stamp(1, 2, 3);
        let inner = keccak256(&[&[9; 32][..], &bytes[..48]].concat());
        let outer = keccak256(&[b"\x19Ethereum Signed Message:\n32", &inner[..]].concat());
        assert_eq!(stamp_digest(&[9; 32], &bytes), Ok(outer));
        bytes[48..].fill(7);
        assert_eq!(stamp_digest(&[9; 32], &bytes), Ok(outer));
        bytes[47] = 1;
        assert_ne!(stamp_digest(&[9; 32], &bytes), Ok(outer));
        assert_eq!(stamp_digest(&[9; 31], &bytes), Err(10));
        assert_eq!(stamp_digest(&[9; 32], &bytes[1..]), Err(10));
    }
}
