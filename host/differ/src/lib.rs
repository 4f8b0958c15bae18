//! The proved store and the independent one, side by side over random lists of calls.
//!
//! A list is made ([`generate`]; of lines, [`lines`]), run over both with every lent slice against a guard page
//! ([`rig`]), and made smaller where they differ ([`shrink`]).

pub mod apart;
pub mod generate;
pub mod guard;
pub mod layout;
pub mod library;
pub mod lines;
pub mod list;
pub mod random;
pub mod reply;
pub mod rig;
pub mod search;
pub mod shrink;
pub mod tally;
