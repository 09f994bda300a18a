//! What a call gives.

#[derive(Clone, Copy, PartialEq, Eq, Debug)]
pub enum Made {
    Plan(u16),
    Atom(u16),
    None,
}

#[derive(Clone, Copy, PartialEq, Eq, Debug)]
pub enum How {
    Empty,
    Held,
    Done,
    Failed,
}

#[derive(Clone, Copy, PartialEq, Eq, Debug)]
pub enum Stop {
    Phase0,
    Waiting,
    Limit,
    Refused(u8),
}

#[derive(Clone, Copy, PartialEq, Eq, Debug)]
pub enum Did {
    Ok,
    Fired(u8, u8, Made),
    MovedOn,
    CycleEnded,
    Executed(u16, How),
    Waits(u16, u8, u16, u16),
    Ran(u32, Stop),
}

#[derive(Clone, Copy, PartialEq, Eq, Debug)]
pub struct Report {
    pub did: Did,
    pub made: u32,
    pub gone: u32,
}

/// What was done, or the refusal's number.
pub type Answer = Result<Report, u8>;
