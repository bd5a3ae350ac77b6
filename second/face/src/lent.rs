//! Watching what is lent.

use std::hint::black_box;

/// Makes a call and sees that it left every lent byte as it was.
pub fn unchanged<T>(lent: &[&[u8]], call: impl FnOnce() -> T) -> T {
    let before: Vec<Vec<u8>> = lent.iter().map(|bytes| bytes.to_vec()).collect();
    let answer = call();
    assert!(black_box(lent).iter().zip(&before).all(|(after, before)| after == before), "a lent byte was written");
    answer
}
