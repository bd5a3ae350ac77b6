//! The C face of the proved library, as a Rust caller sees it: its structs, and a safe function for each of its own.

#[macro_use]
mod calls;

pub mod bench;
pub mod book;
pub mod chunk;
pub mod draw;
pub mod hash;
pub mod lent;
pub mod nearness;
pub mod postage;

/// A digest, and the answer it came with.
#[repr(C)]
#[derive(Clone, Copy, Debug, PartialEq, Eq)]
pub struct Digested {
    pub answer: u32,
    pub digest: [u8; 32],
}

impl From<Result<[u8; 32], u32>> for Digested {
    /// What the face says where the second program says this.
    fn from(result: Result<[u8; 32], u32>) -> Self {
        match result {
            Ok(digest) => Digested { answer: 0, digest },
            Err(answer) => Digested { answer, digest: [0; 32] },
        }
    }
}

/// A stretch of a lent slice; `higher` says by `start` which of its two records it means.
#[repr(C)]
#[derive(Clone, Copy, Debug, PartialEq, Eq)]
pub struct Part {
    pub start: u64,
    pub length: u64,
}
