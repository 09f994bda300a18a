//! A hand-written interpreter of document 01: the oracle of the differential test. Not proved.
//!
//! [`load`] reads a program text, [`fresh`] gives its first configuration, and [`sense`], [`step`], [`answer`], [`delete`] and
//! [`run`] change a configuration in place. A refused call gives the number of document 01's table and leaves the configuration
//! as it was.

#![forbid(unsafe_code)]

mod calls;
mod config;
mod deletion;
mod execute;
mod fire;
mod formed;
mod load;
mod matching;
mod program;
mod scan;

pub use calls::{answer, delete, run, run_watched, sense, step};
pub use calls::{Changed, Did, How, Made, Run, Step, Stop};
pub use config::{fresh, Atom, Config, Plan, Values, MAX_ATOMS, MAX_NEXT, MAX_PLANS, NO_VALUE};
pub use load::load;
pub use program::{Program, Row, ANY};

/// The numbers of document 01's table of refusals.
pub mod refusal {
    pub const NOT_WELL_FORMED: u32 = 1;
    pub const LAYOUT: u32 = 2;
    pub const BROKEN_RULE: u32 = 3;
    pub const NO_VALUE: u32 = 4;
    pub const TOO_MANY: u32 = 5;
    pub const OUT_OF_TURN: u32 = 6;
    pub const OUT_OF_RANGE: u32 = 7;
    pub const NO_ID: u32 = 8;
    pub const NO_ATOM_PLACE: u32 = 9;
    pub const NO_PLAN_PLACE: u32 = 10;
    pub const LAST_CYCLE: u32 = 11;
    pub const NOT_ALIVE: u32 = 12;
}
