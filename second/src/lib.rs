//! Document 01 a second time, by other hands and in another language: one module per noun.
//!
//! Nothing here is proved. It is there to disagree: the proved library is compared with it over the C face, timed
//! against it, and run on vectors that it writes.

#![forbid(unsafe_code)]

pub mod answer;
pub mod book;
pub mod chunk;
pub mod draw;
pub mod keccak;
pub mod listing;
pub mod nearness;
pub mod postage;

// For tests, benchmarks, and the data of the proved programs.
pub mod cases;
pub mod chance;
pub mod day;
pub mod hex;
pub mod made;
pub mod published;
pub mod vectors;
