//! The proved interpreter of meta-APL for hosts in Rust.
//!
//! A [`Controller`] holds a program and its configuration and changes them in place. A refused call changes nothing and gives a
//! [`Refusal`]. Hosts that keep the tables themselves use the calls of [`raw`], which test at every call what a controller's types
//! guarantee. Unsafe code stands in `raw` and in `formed`, which says why its calls need no test.
//!
//! ```
//! use juntiqel::{add, Controller, Stop};
//!
//! # fn main() -> Result<(), juntiqel::Refusal> {
//! let text = b"set rule part op i p a b\n1 1 1 1 -1 1 -2 -3\n1 1 3 36 -9 3 -2 -3\n";
//! let mut controller = Controller::load(text)?;
//! controller.sense(&[add(1, 3, 1200)])?;
//! let run = controller.run(10)?;
//! assert_eq!((run.steps, run.stop), (3, Stop::Phase0));
//! assert_eq!(controller.plans().count(), 1);
//! # Ok(())
//! # }
//! ```

#![deny(unsafe_code)]
#![warn(missing_docs)]

mod controller;
mod formed;
pub mod raw;
mod refusal;
mod report;

pub use controller::{add, withdraw, Atom, Controller, Plan, Reading};
pub use refusal::Refusal;
pub use report::{Changed, Did, How, Made, Run, Step, Stop};
