//! The rows of a program, and what one pass over them gives.

/// As written.
#[derive(Clone, Copy, Default, PartialEq, Eq, Debug)]
pub struct Row {
    pub set: u16,
    pub rule: u16,
    pub part: u16,
    pub op: u16,
    pub p: u16,
    pub i: i32,
    pub a: i32,
    pub b: i32,
}

/// One rule: its rows are start..context (reasons), context..body, body..end.
#[derive(Clone, Copy, Default)]
pub struct Rule {
    pub start: u16,
    pub context: u16,
    pub body: u16,
    pub end: u16,
    pub object: bool,
    /// The variables that the body uses, as a mask.
    pub body_vars: u8,
    /// How many atoms the actions add.
    pub adds: u8,
}

/// What a pass over well-formed rows gives: where sets and rules begin.
pub struct Index {
    /// How many sets.
    pub sets: usize,
    /// By set: its first rule.
    pub first: [u16; 10],
    pub rules: [Rule; 256],
    /// By predicate: at least, instead (0: no ceiling).
    pub ceiling: [(u16, u8); 256],
    /// How many predicates have a ceiling, and which.
    pub ceilings: usize,
    pub ceiled: [u8; 256],
}

/// Rows, with what the load knows of them.
pub struct Program {
    pub rows: Vec<Row>,
    pub index: Box<Index>,
}

impl Default for Program {
    fn default() -> Program {
        Program {
            rows: Vec::with_capacity(512),
            index: Box::new(Index::default()),
        }
    }
}

impl Default for Index {
    fn default() -> Index {
        Index {
            sets: 0,
            first: [0; 10],
            rules: [Rule::default(); 256],
            ceiling: [(0, 0); 256],
            ceilings: 0,
            ceiled: [0; 256],
        }
    }
}

impl Index {
    pub fn clear(&mut self) {
        self.sets = 0;
        for p in &self.ceiled[..self.ceilings] {
            self.ceiling[*p as usize] = (0, 0);
        }
        self.ceilings = 0;
    }

    #[inline]
    pub fn rule(&self, set: u8, rule: u8) -> &Rule {
        &self.rules[self.first[set as usize] as usize + rule as usize - 1]
    }

    #[inline]
    pub fn object_rule(&self, set: u8, rule: u8) -> Option<&Rule> {
        let s = set as usize;
        if s < 1 || s > self.sets || rule < 1 || rule as u16 > self.first[s + 1] - self.first[s] {
            return None;
        }
        let rule = self.rule(set, rule);
        rule.object.then_some(rule)
    }

    /// The variables that the body of this object rule uses, as a mask.
    pub fn body_vars(&self, set: u8, rule: u8) -> u8 {
        self.object_rule(set, rule).map_or(0, |r| r.body_vars)
    }
}

/// What an operand that has a value stands for.
#[inline]
pub fn value(operand: i32, values: &[u16; 8]) -> u16 {
    if operand >= 0 {
        operand as u16
    } else {
        values[(-operand - 1) as usize & 7]
    }
}

/// The variable of an operand as a mask, 0 if it is none.
#[inline]
pub fn var(x: i32) -> u8 {
    if (-8..0).contains(&x) {
        1 << (-x - 1)
    } else {
        0
    }
}
