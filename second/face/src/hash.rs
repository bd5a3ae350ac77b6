//! Keccak-256: one message, or a sponge that goes in and comes back by value.

use crate::Digested;

/// The second program's sponge, laid out as C has it.
#[repr(C)]
#[derive(Clone, Copy, Debug, PartialEq, Eq)]
pub struct Sponge {
    pub lanes: [u64; 25],
    pub place: usize,
}

calls! {
    rkf_keccak256 as keccak256(message: &[u8]) -> Digested;
    rkf_sponge as sponge() -> Sponge;
    rkf_absorb as absorb(sponge: Sponge, part: &[u8]) -> Sponge;
    rkf_finish as finish(sponge: Sponge) -> Digested;
}
