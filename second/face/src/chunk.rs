//! Addresses, segments and proofs.

use crate::{Digested, Part};

calls! {
    rkf_address as address(span: &[u8], data: &[u8]) -> Digested;
    rkf_anchored_address as anchored_address(anchor: &[u8], span: &[u8], data: &[u8]) -> Digested;
    rkf_segment_count as segment_count(data: &[u8]) -> u64;
    rkf_segment as segment(data: &[u8], index: u64) -> Part;
    rkf_make_proof as make_proof(span: &[u8], data: &[u8], index: u64, proof: &mut [u8]) -> u32;
    rkf_check_proof as check_proof(address: &[u8], index: u64, proof: &[u8]) -> u32;
}
