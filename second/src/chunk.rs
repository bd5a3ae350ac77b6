//! Chunks: the tree over 128 segments, addresses, segments, and proofs that a segment stands under an address.

use crate::answer::*;
use crate::keccak::Sponge;

pub const SEGMENT: usize = 32;
pub const SPAN: usize = 8;
pub const DATA: usize = 4_096;
pub const PROOF: usize = 264;

/// Levels of hashing between a segment and the root.
const LEVELS: usize = 7;

/// The address of a chunk: 10, 12.
pub fn address(span: &[u8], data: &[u8]) -> Result<[u8; 32], u32> {
    Tree::plain().address(span, data)
}

/// The address in the tree where every hash takes the anchor first: 10, 12.
pub fn anchored_address(anchor: &[u8], span: &[u8], data: &[u8]) -> Result<[u8; 32], u32> {
    Tree::anchored(anchor)?.address(span, data)
}

/// The least number of segments that covers the data, whatever its length.
pub fn segment_count(data: &[u8]) -> u64 {
    data.len().div_ceil(SEGMENT) as u64
}

/// Segment i of the caller's own data: short at the end, empty (and at the end) from the count on.
pub fn segment(data: &[u8], index: u64) -> &[u8] {
    if index >= segment_count(data) {
        return &data[data.len()..];
    }
    let start = index as usize * SEGMENT;
    &data[start..data.len().min(start + SEGMENT)]
}

/// Writes the proof of a segment, 264 bytes: 10, 12, 11.
pub fn make_proof(span: &[u8], data: &[u8], index: u64, proof: &mut [u8]) -> u32 {
    Tree::plain().make_proof(span, data, index, proof)
}

/// Checks a proof against an address: 10, 11, then 0 or 1.
pub fn check_proof(address: &[u8], index: u64, proof: &[u8]) -> u32 {
    Tree::plain().check_proof(address, index, proof)
}

/// The same under an anchor: 10, 12, 11.
pub fn make_anchored_proof(anchor: &[u8], span: &[u8], data: &[u8], index: u64, proof: &mut [u8]) -> u32 {
    match Tree::anchored(anchor) {
        Ok(tree) => tree.make_proof(span, data, index, proof),
        Err(answer) => answer,
    }
}

/// The same under an anchor: 10, 11, then 0 or 1.
pub fn check_anchored_proof(anchor: &[u8], address: &[u8], index: u64, proof: &[u8]) -> u32 {
    match Tree::anchored(anchor) {
        Ok(tree) => tree.check_proof(address, index, proof),
        Err(answer) => answer,
    }
}

/// The tree under one prefix, held as the sponge that has taken the prefix and nothing else.
pub struct Tree {
    begun: Sponge,
}

impl Tree {
    /// Under no prefix.
    pub fn plain() -> Self {
        Tree { begun: Sponge::new() }
    }

    /// Under an anchor of 32 bytes: 10.
    pub fn anchored(anchor: &[u8]) -> Result<Self, u32> {
        if anchor.len() != 32 {
            return Err(WRONG_LENGTH);
        }
        Ok(Tree::under(anchor))
    }

    /// Under any prefix.
    pub fn under(prefix: &[u8]) -> Self {
        let mut begun = Sponge::new();
        begun.absorb(prefix);
        Tree { begun }
    }

    pub fn address(&self, span: &[u8], data: &[u8]) -> Result<[u8; 32], u32> {
        fits(span, data)?;
        Ok(self.top(span, &self.climb(data, |_, _| ())))
    }

    pub fn make_proof(&self, span: &[u8], data: &[u8], index: u64, proof: &mut [u8]) -> u32 {
        if proof.len() != PROOF {
            return WRONG_LENGTH;
        }
        if let Err(answer) = fits(span, data) {
            return answer;
        }
        if index > 127 {
            return INDEX_ABOVE_127;
        }
        let (head, rest) = proof.split_at_mut(SEGMENT);
        let (sisters, tail) = rest.split_at_mut(LEVELS * 32);
        let own = segment(data, index);
        head[..own.len()].copy_from_slice(own);
        head[own.len()..].fill(0);
        self.climb(data, |level, roots| {
            sisters[32 * level..][..32].copy_from_slice(roots.at(index as usize >> level ^ 1));
        });
        tail.copy_from_slice(span);
        DONE
    }

    pub fn check_proof(&self, address: &[u8], index: u64, proof: &[u8]) -> u32 {
        if address.len() != 32 || proof.len() != PROOF {
            return WRONG_LENGTH;
        }
        if index > 127 {
            return INDEX_ABOVE_127;
        }
        let (head, rest) = proof.split_at(SEGMENT);
        let (sisters, span) = rest.split_at(LEVELS * 32);
        let mut root: [u8; 32] = head.try_into().unwrap();
        for (level, sister) in sisters.chunks_exact(32).enumerate() {
            root = match index >> level & 1 {
                0 => self.hash(&[&root, sister]),
                _ => self.hash(&[sister, &root]),
            };
        }
        if self.top(span, &root) == address {
            DONE
        } else {
            PROOF_FAILS
        }
    }

    /// The root of padded data; each level below it is shown on the way up.
    fn climb(&self, data: &[u8], mut show: impl FnMut(usize, &Roots)) -> [u8; 32] {
        let mut roots = Roots::segments(data);
        for level in 0..LEVELS {
            show(level, &roots);
            roots.rise((DATA / SEGMENT) >> (level + 1), |pair| self.hash(&[pair]));
        }
        *roots.at(0)
    }

    fn top(&self, span: &[u8], root: &[u8; 32]) -> [u8; 32] {
        self.hash(&[span, root])
    }

    fn hash(&self, parts: &[&[u8]]) -> [u8; 32] {
        let mut sponge = self.begun;
        for part in parts {
            sponge.absorb(part);
        }
        sponge.finish()
    }
}

/// One level of the tree: the roots of the parts that data reaches, and the root that all others share.
struct Roots {
    bytes: [u8; DATA],
    reached: usize,
    blank: [u8; 32],
}

impl Roots {
    /// The lowest level.
    fn segments(data: &[u8]) -> Self {
        let mut bytes = [0; DATA];
        bytes[..data.len()].copy_from_slice(data);
        Roots { bytes, reached: data.len().div_ceil(SEGMENT), blank: [0; 32] }
    }

    fn at(&self, place: usize) -> &[u8; 32] {
        if place >= self.reached {
            return &self.blank;
        }
        self.bytes[32 * place..][..32].try_into().unwrap()
    }

    /// Goes one level up, to one that has so many parts.
    fn rise(&mut self, parts: usize, hash: impl Fn(&[u8]) -> [u8; 32]) {
        if self.reached % 2 == 1 {
            self.bytes[32 * self.reached..][..32].copy_from_slice(&self.blank);
        }
        self.reached = self.reached.div_ceil(2);
        for place in 0..self.reached {
            let root = hash(&self.bytes[64 * place..][..64]);
            self.bytes[32 * place..][..32].copy_from_slice(&root);
        }
        if self.reached < parts {
            let mut pair = [0; 64];
            pair[..32].copy_from_slice(&self.blank);
            pair[32..].copy_from_slice(&self.blank);
            self.blank = hash(&pair);
        }
    }
}

fn fits(span: &[u8], data: &[u8]) -> Result<(), u32> {
    if span.len() != SPAN {
        return Err(WRONG_LENGTH);
    }
    if data.len() > DATA {
        return Err(DATA_ABOVE_4096);
    }
    Ok(())
}

#[cfg(test)]
mod tests;
