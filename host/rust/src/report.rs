//! What a call did, read from its report.

use crate::raw::REPORT;

/// How many instances a call made and how many went.
#[derive(Clone, Copy, Debug, PartialEq, Eq)]
pub struct Changed {
    /// Atoms and plans made.
    pub made: u32,
    /// Atoms and plans removed.
    pub gone: u32,
}

/// What a firing made: its plan, or the last atom of its actions.
#[derive(Clone, Copy, Debug, PartialEq, Eq)]
pub enum Made {
    /// The atom's id.
    Atom(u32),
    /// The plan's id.
    Plan(u32),
}

/// How the execution of a plan went.
#[derive(Clone, Copy, Debug, PartialEq, Eq)]
pub enum How {
    /// No step is left.
    Empty,
    /// Its subgoal lives.
    Held,
    /// The step was done.
    Done,
    /// The step failed.
    Failed,
}

/// What a step did.
#[derive(Clone, Copy, Debug, PartialEq, Eq)]
pub enum Did {
    /// A rule of the phase's set fired.
    Fired {
        /// The set.
        set: u32,
        /// The rule in its set.
        rule: u32,
        /// What it made, if anything.
        made: Option<Made>,
    },
    /// No rule of the set has a match: on to the next phase.
    MovedOn,
    /// A plan was executed.
    Executed {
        /// The plan's id.
        plan: u32,
        /// How it went.
        how: How,
    },
    /// A plan asks for the external action p(a, b) and waits for [`Controller::answer`](crate::Controller::answer).
    Waits {
        /// The plan's id.
        plan: u32,
        /// The action.
        p: u32,
        /// Its first argument.
        a: u32,
        /// Its second argument.
        b: u32,
    },
    /// No plan is due: the cycle ended.
    CycleEnded,
}

/// What a step did, with what it made and removed.
#[derive(Clone, Copy, Debug, PartialEq, Eq)]
pub struct Step {
    /// What it did.
    pub did: Did,
    /// Atoms and plans made.
    pub made: u32,
    /// Atoms and plans removed.
    pub gone: u32,
}

/// Why a run stopped.
#[derive(Clone, Copy, Debug, PartialEq, Eq)]
pub enum Stop {
    /// The cycle is over: the next call is a sense.
    Phase0,
    /// A plan waits for an answer.
    Waiting,
    /// The limit is reached.
    Limit,
    /// The next step would be refused with this number.
    Refused(u32),
}

/// What a run did.
#[derive(Clone, Copy, Debug, PartialEq, Eq)]
pub struct Run {
    /// The steps taken.
    pub steps: u32,
    /// Atoms and plans made.
    pub made: u32,
    /// Atoms and plans removed.
    pub gone: u32,
    /// Why it stopped.
    pub stop: Stop,
}

pub(crate) type Report = [u32; REPORT];

pub(crate) fn changed([made, gone, ..]: Report) -> Changed {
    Changed { made, gone }
}

pub(crate) fn step([made, gone, what, w, x, y, z, _]: Report) -> Step {
    let did = match what {
        1 => Did::Fired {
            set: w,
            rule: x,
            made: made_of(y, z),
        },
        2 => Did::MovedOn,
        3 => Did::Executed {
            plan: w,
            how: how_of(x),
        },
        4 => Did::Waits {
            plan: w,
            p: x,
            a: y,
            b: z,
        },
        5 => Did::CycleEnded,
        _ => unreachable!("a step does one of five things"),
    };
    Step { did, made, gone }
}

fn made_of(kind: u32, id: u32) -> Option<Made> {
    match kind {
        0 => None,
        1 => Some(Made::Atom(id)),
        2 => Some(Made::Plan(id)),
        _ => unreachable!("a firing makes nothing, an atom or a plan"),
    }
}

fn how_of(number: u32) -> How {
    match number {
        1 => How::Empty,
        2 => How::Held,
        3 => How::Done,
        4 => How::Failed,
        _ => unreachable!("an execution goes one of four ways"),
    }
}

pub(crate) fn run([made, gone, why, steps, number, ..]: Report) -> Run {
    let stop = match why {
        1 => Stop::Phase0,
        2 => Stop::Waiting,
        3 => Stop::Limit,
        4 => Stop::Refused(number),
        _ => unreachable!("a run stops for one of four reasons"),
    };
    Run {
        steps,
        made,
        gone,
        stop,
    }
}
