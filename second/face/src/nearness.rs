//! Shared bits.

/// A number, and the answer it came with.
#[repr(C)]
#[derive(Clone, Copy, Debug, PartialEq, Eq)]
pub struct Numbered {
    pub answer: u32,
    pub number: u32,
}

impl From<Result<u32, u32>> for Numbered {
    /// What the face says where the second program says this.
    fn from(result: Result<u32, u32>) -> Self {
        match result {
            Ok(number) => Numbered { answer: 0, number },
            Err(answer) => Numbered { answer, number: 0 },
        }
    }
}

calls! {
    rkf_nearness as nearness(first: &[u8], second: &[u8]) -> Numbered;
}
