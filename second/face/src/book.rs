//! The book in a lent buffer.

use crate::Part;

calls! {
    rkf_open as open(book: &mut [u8], overlay: &[u8], capacity: u64, starting_depth: u64) -> u32;
    rkf_check_book as check_book(book: &[u8]) -> u32;
    rkf_higher as higher(first: &[u8], second: &[u8]) -> Part;
    rkf_offer as offer(book: &mut [u8], batches: &[u8], address: &[u8], stamp: &[u8], account: &[u8]) -> u32;
}
