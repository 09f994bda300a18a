//! The time of a workload on every side.

use std::time::{Duration, Instant};

use tight::Options;

use crate::digest::Digest;
use crate::sides::{Side, Tested, Tight, Untested};
use crate::workloads::{Line, Workload};

/// In a round a side works its list again and again for this time, and so many times at least: the first finds the machine's caches as
/// another side has left them.
const TURN: Duration = Duration::from_millis(4);
const TIMES: usize = 5;

/// The sides by their place in the table.
pub const SIDES: [&str; 5] = [
    "tight",
    "tight without test",
    "tight, better search",
    "proved",
    "proved without test",
];
pub const TIGHT: usize = 0;
pub const TIGHT_WITHOUT: usize = 1;
pub const PROVED: usize = 3;
pub const PROVED_WITHOUT: usize = 4;

/// What came of a list of calls.
#[derive(Clone, Copy)]
struct Played {
    /// Inside the timer.
    time: Duration,
    calls: u32,
    refused: u32,
    digest: u64,
}

/// A list from its first line, which is a load, to its last.
fn play(side: &mut impl Side, lines: &[Line]) -> Played {
    let mut digest = Digest::new();
    let mut played = Played {
        time: Duration::ZERO,
        calls: 0,
        refused: 0,
        digest: 0,
    };
    let mut is_on = false;
    let mut clock = Instant::now();
    for line in lines {
        match line {
            Line::Call(call) => {
                played.refused += u32::from(!side.call(call));
                played.calls += u32::from(is_on);
            }
            Line::Timer(true) => {
                is_on = true;
                clock = Instant::now();
            }
            Line::Timer(false) => {
                played.time += clock.elapsed();
                is_on = false;
            }
            Line::Digest => digest.fold(&side.picture().0),
        }
    }
    played.digest = digest.0;
    played
}

/// A workload with the least time of every side.
pub struct Timed<'a> {
    pub workload: &'a Workload,
    tight: [Tight; 3],
    tested: Tested,
    untested: Untested,
    best: [Option<Played>; SIDES.len()],
    /// The first that was not as expected.
    wrong: [Option<Played>; SIDES.len()],
}

impl<'a> Timed<'a> {
    pub fn new(workload: &'a Workload) -> Self {
        let tight = |trust, plus| Tight::new(Options { trust, plus });
        Timed {
            workload,
            tight: [tight(false, false), tight(true, false), tight(false, true)],
            tested: Tested::new(),
            untested: Untested::new(),
            best: [None; SIDES.len()],
            wrong: [None; SIDES.len()],
        }
    }

    /// A turn of every side.
    pub fn repeat(&mut self) {
        for k in 0..SIDES.len() {
            let start = Instant::now();
            (0..TIMES).for_each(|_| self.play(k));
            while start.elapsed() < TURN {
                self.play(k);
            }
        }
    }

    fn play(&mut self, k: usize) {
        let lines = &self.workload.lines;
        let played = match k {
            PROVED => play(&mut self.tested, lines),
            PROVED_WITHOUT => play(&mut self.untested, lines),
            _ => play(&mut self.tight[k], lines),
        };
        if played.refused != 0 || played.digest != self.workload.digest {
            self.wrong[k].get_or_insert(played);
        }
        match &mut self.best[k] {
            Some(best) if best.time <= played.time => {}
            best => *best = Some(played),
        }
    }

    pub fn calls(&self) -> u32 {
        self.best[TIGHT].map_or(0, |played| played.calls)
    }

    /// The least seconds of a timed call.
    pub fn seconds(&self, side: usize) -> f64 {
        let played = self.best[side].expect("every side has had a turn");
        played.time.as_secs_f64() / f64::from(played.calls)
    }

    /// Which sides came to another end than the reference model.
    pub fn differences(&self) -> impl Iterator<Item = String> + '_ {
        let told = |(side, wrong): (&str, &Option<Played>)| {
            let Played {
                refused, digest, ..
            } = (*wrong)?;
            let Workload {
                name,
                digest: expected,
                ..
            } = self.workload;
            Some(format!(
                "{name}, {side}: {refused} calls refused, digest {digest:016x}, expected {expected:016x}"
            ))
        };
        SIDES.into_iter().zip(&self.wrong).filter_map(told)
    }
}
