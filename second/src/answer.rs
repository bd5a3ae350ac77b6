//! The numbers handed back (document 01's table).

pub const DONE: u32 = 0;
pub const PROOF_FAILS: u32 = 1;
pub const DROPPED: u32 = 2;
pub const BECAME_OVERFULL: u32 = 3;
pub const WRONG_LENGTH: u32 = 10;
pub const INDEX_ABOVE_127: u32 = 11;
pub const DATA_ABOVE_4096: u32 = 12;
pub const BAD_BOOK: u32 = 13;
pub const OVERFULL: u32 = 14;
pub const BAD_BATCHES: u32 = 15;
pub const NO_SUCH_BATCH: u32 = 16;
pub const WRONG_BUCKET: u32 = 17;
pub const INDEX_PAST_SLOTS: u32 = 18;
pub const NOT_THE_OWNER: u32 = 19;
pub const TOO_FAR: u32 = 20;
pub const VERY_RECORD_HELD: u32 = 21;
pub const HIGHER_RANK_HELD: u32 = 22;
pub const SHELF_ENDS: u32 = 23;
pub const WRONG_CHUNK: u32 = 24;
pub const BYTES_LEFT: u32 = 25;
pub const FEW_PAIRS: u32 = 26;
pub const OUT_OF_RANGE: u32 = 27;
