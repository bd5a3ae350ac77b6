//! The digest that an owner signs, and whether a stamp stands.

use crate::Digested;

calls! {
    rkf_stamp_digest as stamp_digest(address: &[u8], stamp: &[u8]) -> Digested;
    rkf_check_stamp as check_stamp(batches: &[u8], address: &[u8], stamp: &[u8], account: &[u8]) -> u32;
}
