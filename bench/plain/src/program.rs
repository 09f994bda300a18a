//! A program: its rows as the text has them, and where its rules stand among them.

use std::ops::Range;

use crate::config::Values;

/// The operand "any". Variables 1 to 8 are -1 to -8; constants are 0 and up.
pub const ANY: i32 = -9;

pub(crate) const MAX_SETS: u32 = 8;
pub(crate) const MAX_RULES: u32 = 32;
pub(crate) const MAX_ROWS: usize = 512;
pub(crate) const MAX_FLAG: i32 = 16;

/// The parts of a rule.
pub(crate) mod part {
    pub const REASON: u32 = 1;
    pub const CONTEXT: u32 = 2;
    pub const BODY: u32 = 3;
}

/// Ops by name. An odd query's negation is one higher.
pub(crate) mod op {
    pub const ATOM: u32 = 1;
    pub const NOT_ATOM: u32 = 2;
    pub const PLAN: u32 = 3;
    pub const NOT_PLAN: u32 = 4;
    pub const REMAINDER: u32 = 5;
    pub const NOT_REMAINDER: u32 = 6;
    pub const JUSTIFICATION: u32 = 7;
    pub const NOT_JUSTIFICATION: u32 = 8;
    pub const SUBGOAL: u32 = 9;
    pub const NOT_SUBGOAL: u32 = 10;
    pub const STATE: u32 = 11;
    pub const NOT_STATE: u32 = 12;
    pub const CYCLE: u32 = 13;
    pub const NOT_CYCLE: u32 = 14;

    pub const ADD_ATOM: u32 = 21;
    pub const DELETE_ATOM: u32 = 22;
    pub const SET_FLAG: u32 = 23;
    pub const CLEAR_FLAG: u32 = 24;
    pub const DELETE_PLAN: u32 = 25;

    pub const EXTERNAL: u32 = 31;
    pub const TEST: u32 = 32;
    pub const TEST_NONE: u32 = 33;
    pub const MAKE_ATOM: u32 = 34;
    pub const REMOVE_ATOM: u32 = 35;
    pub const MAKE_SUBGOAL: u32 = 36;

    pub const CEILING: u32 = 40;
    pub const INITIAL: u32 = 41;
}

/// One line of a program text.
#[derive(Clone, Copy, Debug, PartialEq, Eq)]
pub struct Row {
    pub set: u32,
    pub rule: u32,
    pub part: u32,
    pub op: u32,
    pub i: i32,
    pub p: u32,
    pub a: i32,
    pub b: i32,
}

/// The rows of a program. Any rows can be held; a call given rows that no text loads to is refused with 1.
#[derive(Clone, Debug, Default, PartialEq, Eq)]
pub struct Program {
    pub rows: Vec<Row>,
}

impl Program {
    /// The rows of set 0, which stand first.
    pub(crate) fn set_0(&self) -> impl Iterator<Item = &Row> {
        self.rows.iter().take_while(|r| r.set == 0)
    }
}

/// The place of a variable among the values, if the operand is one.
pub(crate) fn variable(operand: i32) -> Option<usize> {
    (-8..=-1)
        .contains(&operand)
        .then(|| (-1 - operand) as usize)
}

/// The number that a body operand stands for.
pub(crate) fn value(operand: i32, values: &Values) -> u32 {
    match variable(operand) {
        Some(v) => values[v],
        None => operand as u32,
    }
}

/// A set of variables, one bit each.
#[derive(Clone, Copy, Debug, Default)]
pub(crate) struct Variables(u8);

impl Variables {
    pub fn insert(&mut self, operand: i32) {
        if let Some(v) = variable(operand) {
            self.0 |= 1 << v;
        }
    }

    pub fn contains(self, place: usize) -> bool {
        self.0 >> place & 1 == 1
    }

    pub fn places(self) -> impl Iterator<Item = usize> {
        (0..8).filter(move |&v| self.contains(v))
    }
}

/// Where the parts of a rule begin and end among the rows.
#[derive(Clone, Copy, Debug)]
pub(crate) struct Rule {
    pub start: u16,
    pub context: u16,
    pub body: u16,
    pub end: u16,
    pub body_variables: Variables,
}

impl Rule {
    pub fn reason_count(&self) -> usize {
        usize::from(self.context - self.start)
    }

    pub fn context_count(&self) -> usize {
        usize::from(self.body - self.context)
    }

    pub fn body_count(&self) -> usize {
        usize::from(self.end - self.body)
    }

    pub fn is_object(&self) -> bool {
        self.reason_count() > 0
    }

    /// Reasons and context.
    pub fn queries(&self) -> Range<usize> {
        usize::from(self.start)..usize::from(self.body)
    }

    pub fn body(&self) -> Range<usize> {
        usize::from(self.body)..usize::from(self.end)
    }

    /// The first of the steps left, which are at most those of the body.
    pub fn first_step<'a>(&self, rows: &'a [Row], left: u32) -> Option<&'a Row> {
        let end = usize::from(self.end);
        rows[end - left as usize..end].first()
    }
}

/// The rules of a well-formed program.
#[derive(Debug)]
pub(crate) struct Layout {
    pub rules: Vec<Rule>,
    /// Where the rules of each set begin, set 1 first.
    pub set_starts: Vec<u16>,
}

impl Layout {
    pub fn set_count(&self) -> u32 {
        self.set_starts.len() as u32
    }

    /// The rules of a set in rising number; none if there is no such set.
    pub fn rules_of(&self, set: u32) -> &[Rule] {
        let set = set as usize;
        if set == 0 || set > self.set_starts.len() {
            return &[];
        }
        let start = usize::from(self.set_starts[set - 1]);
        let end = self
            .set_starts
            .get(set)
            .map_or(self.rules.len(), |&e| usize::from(e));
        &self.rules[start..end]
    }

    pub fn rule(&self, set: u32, number: u32) -> Option<&Rule> {
        self.rules_of(set).get((number as usize).checked_sub(1)?)
    }
}
