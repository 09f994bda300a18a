//! How long the calls of the proved library take beside those of the tight baseline: one table, from one run.
//!
//! Every side works the same lists of calls, round after round, all sides of a workload in turn, so that a slow moment of the machine
//! does not hit one side alone. A figure is the least of all rounds, for one timed call. The configurations on the way are folded into
//! a digest; where one is not as the reference model has it the command fails. Then come long searches of the library alone, at which
//! a plain search would not end. `compare [ROUNDS]`

#![forbid(unsafe_code)]

mod digest;
mod searches;
mod sides;
mod slow;
mod table;
mod timing;
mod workloads;

use std::process::ExitCode;

use searches::Search;
use timing::Timed;

const ROUNDS: usize = 30;

fn main() -> ExitCode {
    let rounds = std::env::args().nth(1).and_then(|n| n.parse().ok());
    let workloads = workloads::all();
    let mut timed: Vec<_> = workloads.iter().map(Timed::new).collect();
    let mut searches: Vec<_> = slow::all().into_iter().map(Search::new).collect();
    for _ in 0..rounds.unwrap_or(ROUNDS) {
        timed.iter_mut().for_each(Timed::repeat);
        searches.iter_mut().for_each(Search::repeat);
    }
    table::print(&timed);
    println!();
    searches::print(&searches);
    let wrong: Vec<_> = timed.iter().flat_map(Timed::differences).collect();
    wrong
        .iter()
        .for_each(|difference| eprintln!("{difference}"));
    ExitCode::from(u8::from(!wrong.is_empty()))
}
