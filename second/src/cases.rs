//! The case file of the proved program `against`: for every public call inputs, and what this program hands back for them.
//!
//! The file begins with the count of its cases (4 bytes). A case is its length (4), then so many bytes: the call (1), the
//! count of its fields (1), and each field as a length (4) and its bytes. The fields are the call's inputs, and last what
//! is to come back, joined: the answer's number (4), the number beside it (4), the digest (32), then all bytes of a lent
//! buffer afterwards, as far as the call has them. A segment comes back as its start (8) and its bytes, a count as 8
//! bytes, a sponge as 25 lanes and the place, 8 bytes each. Inputs that are numbers have 8 bytes. All numbers are
//! big-endian.

mod books;
mod chunks;
mod draws;
mod hashes;
mod stamps;

use crate::chance::Chance;

/// The public calls, by the number that a case names them with.
#[derive(Clone, Copy, Debug, PartialEq, Eq, PartialOrd, Ord)]
#[repr(u8)]
pub enum Call {
    Keccak256 = 1,
    Sponge,
    Absorb,
    Finish,
    Address,
    AnchoredAddress,
    SegmentCount,
    Segment,
    MakeProof,
    CheckProof,
    Nearness,
    StampDigest,
    CheckStamp,
    Open,
    CheckBook,
    Higher,
    Offer,
    Draw,
}

/// A call's inputs, and what comes back.
pub struct Case {
    pub call: Call,
    pub inputs: Vec<Vec<u8>>,
    pub back: Vec<u8>,
}

impl Case {
    fn new(call: Call, inputs: &[&[u8]], back: &[&[u8]]) -> Self {
        Case { call, inputs: inputs.iter().map(|input| input.to_vec()).collect(), back: back.concat() }
    }

    /// The answer's number, where the call gives one.
    pub fn answer(&self) -> Option<u32> {
        use Call::*;
        match self.call {
            Keccak256 | Sponge | Absorb | Finish | SegmentCount | Segment | Higher => None,
            _ => Some(u32::from_be_bytes(self.back[..4].try_into().unwrap())),
        }
    }

    fn bytes(&self) -> Vec<u8> {
        let mut bytes = vec![self.call as u8, self.inputs.len() as u8 + 1];
        for field in self.inputs.iter().chain([&self.back]) {
            bytes.extend((field.len() as u32).to_be_bytes());
            bytes.extend(field);
        }
        [&(bytes.len() as u32).to_be_bytes(), &bytes[..]].concat()
    }
}

/// Every case, call by call.
pub fn cases() -> Vec<Case> {
    let chance = &mut Chance::new(7);
    [hashes::cases(chance), chunks::cases(chance), stamps::cases(chance), books::cases(chance), draws::cases(chance)]
        .into_iter()
        .flatten()
        .collect()
}

/// The whole file.
pub fn file() -> Vec<u8> {
    let cases = cases();
    let count = (cases.len() as u32).to_be_bytes();
    count.into_iter().chain(cases.iter().flat_map(Case::bytes)).collect()
}

/// A digest and the number before it: zeros where the answer is a refusal.
fn digested(result: Result<[u8; 32], u32>) -> Vec<u8> {
    match result {
        Ok(digest) => [&[0; 4][..], &digest].concat(),
        Err(answer) => [&answer.to_be_bytes()[..], &[0; 32]].concat(),
    }
}

#[cfg(test)]
mod tests;
