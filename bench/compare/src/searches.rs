//! The time of the long searches, which are the library's alone: tested calls.

use std::time::{Duration, Instant};

use crate::sides::{Side, Tested};
use crate::slow::Line;
use crate::table::shown;

/// In a round the work is done again and again for this time, at least once.
const TURN: Duration = Duration::from_millis(2);

pub struct Search {
    line: Line,
    /// Where the work begins.
    start: Tested,
    least: Duration,
}

impl Search {
    pub fn new(line: Line) -> Self {
        let mut start = Tested::new();
        for call in &line.before {
            assert!(start.call(call), "{}", line.name);
        }
        Search {
            line,
            start,
            least: Duration::MAX,
        }
    }

    /// One turn.
    pub fn repeat(&mut self) {
        let start = Instant::now();
        self.work();
        while start.elapsed() < TURN {
            self.work();
        }
    }

    /// The work comes to what the line says.
    fn work(&mut self) {
        let mut side = self.start.clone();
        let clock = Instant::now();
        let is_accepted = side.call(&self.line.work);
        self.least = self.least.min(clock.elapsed());
        assert!(is_accepted, "{}", self.line.name);
        assert_eq!(side.alive(), self.line.left, "{}", self.line.name);
    }
}

pub fn print(searches: &[Search]) {
    println!("| long search | proved |");
    println!("|---|---|");
    for Search { line, least, .. } in searches {
        println!("| {} | {} |", line.name, shown(least.as_secs_f64()));
    }
}
