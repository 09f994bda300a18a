//! The tight baseline of the benchmark: an interpreter of document 01 written by hand, not proved, as fast as plain backtracking gets.
//!
//! State is changed in place; atoms are a structure of arrays sorted by id, with p, a, b packed in one key, so that a query row is one
//! masked compare for each candidate; a plan is 36 bytes, held in id order. A call that cannot meet a limit works without a copy; one
//! that might keeps a snapshot and puts it back. The whole of a [`Machine`] is its scratch places and how it works ([`Options`]).

#![forbid(unsafe_code)]

mod answer;
mod config;
mod formed;
mod load;
mod machine;
mod program;
mod rows;
mod search;
mod work;

pub use answer::{Answer, Did, How, Made, Report, Stop};
pub use config::{Config, Plan};
pub use machine::{Machine, Options};
pub use program::{Index, Program, Row};

/// The most atoms alive.
pub const MAX_ATOMS: usize = 256;
/// The most plans alive.
pub const MAX_PLANS: usize = 64;
/// The next id when there is none left.
pub const MAX_NEXT: u32 = 65_536;
const ANY: i32 = -9;
