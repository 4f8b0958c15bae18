//! A store of independent make, to set beside the proved one.
//!
//! It is written from documents 01 and 02 alone, over maps and vectors, and has no tables: its
//! state is O, U and N. It favours plain text over speed.

mod call;
pub mod cases;
mod etag;
mod md5;
mod pairs;
mod record;
mod store;

pub use call::{Answer, Call, Reply};
pub use etag::Etag;
pub use md5::{md5, Digest};
pub use pairs::{bytes_held, pair_bytes, pair_ok, Pairs, SYSTEM_KEYS};
pub use record::{lines_of, replay, Entry, Replay, LONGEST_LINE, NOT_A_LINE, REPLAY_ROOM};
pub use store::{name_at, path_ok, Model, Object, Part, Refusal, Upload};

/// "256 paths in O, 16 uploads in U, 256 parts over all uploads".
pub const MOST_OBJECTS: usize = 256;
pub const MOST_UPLOADS: usize = 16;
pub const MOST_PARTS: usize = 256;
/// Places of one call: "up to 1,000".
pub const MOST_PLACES: usize = 1_000;
/// "PART takes 1 to 10,000."
pub const LAST_PART: u16 = 10_000;
/// "A part number is 1 to 11,000": the last that an older store can hold.
pub const LAST_HELD_PART: u16 = 11_000;
/// "up to 8 pairs of key and value".
pub const MOST_PAIRS: usize = 8;
/// "A key is 1 to 32 bytes".
pub const LONGEST_KEY: usize = 32;
/// "a value is 0 to 64 bytes".
pub const LONGEST_VALUE: usize = 64;
/// "A path is 1 to 128 bytes".
pub const LONGEST_PATH: usize = 128;
/// "A is 0 to 1,048,576".
pub const LARGEST_ARENA: usize = 1_048_576;
/// N once 4,294,967,295 has been given out.
pub const NUMBERS_END: u64 = 1 << 32;
