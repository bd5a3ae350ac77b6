//! The draw.

use second::draw::Refused;

/// A commitment, the answer it came with, and the place of a record whose cell is at fault.
#[repr(C)]
#[derive(Clone, Copy, Debug, PartialEq, Eq)]
pub struct Drawn {
    pub answer: u32,
    pub place: u32,
    pub commitment: [u8; 32],
}

impl From<Result<[u8; 32], Refused>> for Drawn {
    /// What the face says where the second program says this.
    fn from(result: Result<[u8; 32], Refused>) -> Self {
        match result {
            Ok(commitment) => Drawn { answer: 0, place: 0, commitment },
            Err(Refused { answer, place }) => Drawn { answer, place, commitment: [0; 32] },
        }
    }
}

calls! {
    rkf_draw as draw(book: &[u8], shelf: &[u8], anchor: &[u8], sample: &mut [u8]) -> Drawn;
}
