//! The proved store, called through its C interface.
//!
//! [`c`] has the exported functions as include/rathnodi.h declares them, [`slices`] the same over
//! Rust's slices, which cannot overlap or be null, and [`Store`] owns the tables and the arena.

pub mod c;
pub mod slices;
mod store;

pub use store::{Etag, Metadata, Object, Pair, Refusal, Store, Sweep, Upload};

/// The one right length of the tables.
pub const TABLES_LEN: usize = 58_194;
/// That of the tables before pairs.
pub const FORMER_TABLES_LEN: usize = 53_842;
/// Room that suffices for the pairs of every object.
pub const PAIRS_BYTES_MAX: usize = 784;
/// The one right length of a reply.
pub const REPLY_LEN: usize = 48;
