//! Rows in their order: which row may follow, and what they say of their rules.

use crate::program::{var, Index, Row, Rule};
use crate::ANY;

/// Tests rows in text order; the state is what a next row is tested against.
pub struct Tester {
    pub set: u16,
    pub rule: u16,
    part: u16,
    now: Rule,
    /// Whether the set and this rule are of object rules, by the part of their first row.
    set_object: bool,
    rule_object: bool,
    known: u8,
    count: [u8; 4],
    initial: u16,
    rows: u16,
    rules: u16,
}

impl Tester {
    pub fn new() -> Tester {
        Tester {
            set: 0,
            rule: 0,
            part: 0,
            now: Rule::default(),
            set_object: false,
            rule_object: false,
            known: 0,
            count: [0; 4],
            initial: 0,
            rows: 0,
            rules: 0,
        }
    }

    /// The rule so far may not end here.
    #[inline]
    pub fn lacks(&self) -> bool {
        self.set != 0
            && ((self.count[1] == 0 && self.count[2] == 0)
                || (!self.rule_object && self.count[3] == 0))
    }

    /// Refusal 5, 3 or 4 of this row, or the row is taken and the index grows.
    #[inline(always)]
    pub fn take(&mut self, row: &Row, index: &mut Index) -> Result<(), u8> {
        if row.set > 8 || row.rule > 32 || self.rows >= 512 {
            return Err(5);
        }
        if row.set == 0 {
            if row.op == 41 && self.initial >= 256 {
                return Err(5);
            }
            if self.set != 0 || row.rule != 0 || row.part != 0 || row.i != 0 || row.p == 0 {
                return Err(3);
            }
            match row.op {
                40 => {
                    if row.a < 1 || row.b < 1 || row.b > 255 || index.ceiling[row.p as usize].1 != 0
                    {
                        return Err(3);
                    }
                    index.ceiling[row.p as usize] = (row.a as u16, row.b as u8);
                    index.ceiled[index.ceilings] = row.p as u8;
                    index.ceilings += 1;
                }
                41 => {
                    if row.a < 0 || row.b < 0 {
                        return Err(3);
                    }
                    self.initial += 1;
                }
                _ => return Err(3),
            }
            self.rows += 1;
            return Ok(());
        }
        let same_set = row.set == self.set;
        let same_rule = same_set && row.rule == self.rule;
        if !(1..=3).contains(&row.part) {
            return Err(3);
        }
        let most = [0u8, 4, 6, 8][row.part as usize];
        if same_rule {
            if self.count[row.part as usize] >= most {
                return Err(5);
            }
            if row.part < self.part {
                return Err(3);
            }
        } else {
            let in_order = if same_set {
                row.rule == self.rule + 1
            } else {
                row.set == self.set + 1 && row.rule == 1
            };
            if !in_order {
                return Err(3);
            }
        }
        let object = if same_rule {
            self.rule_object
        } else {
            row.part == 1
        };
        let set_object = if same_set { self.set_object } else { object };
        if object != set_object {
            return Err(3);
        }
        let known = if same_rule { self.known } else { 0 };
        let op_fits = match (object, row.part) {
            (true, 1) => row.op == 1,
            (true, 2) => row.op == 1 || row.op == 2,
            (true, _) => (31..=36).contains(&row.op),
            (false, 2) => (1..=14).contains(&row.op),
            (false, _) => (21..=25).contains(&row.op),
        };
        if !op_fits {
            return Err(3);
        }
        let mut gives = 0u8;
        let mut used = 0u8;
        let bad = match row.op {
            1 | 2 => {
                gives = var(row.i) | var(row.a) | var(row.b);
                row.p == 0
            }
            3 | 4 => {
                gives = var(row.i) | var(row.a) | var(row.b);
                row.p != 0
            }
            5..=10 => {
                gives = var(row.i) | var(row.a);
                row.p != 0 || row.b != 0
            }
            11 | 12 => {
                gives = var(row.i);
                row.p != 0 || row.b != 0 || !(1..=16).contains(&row.a)
            }
            13 | 14 => {
                gives = var(row.a);
                row.i != 0 || row.p != 0 || row.b != 0
            }
            21 => {
                gives = var(row.i);
                used = var(row.a) | var(row.b);
                row.p == 0 || row.i >= 0 || gives & known != 0 || row.a == ANY || row.b == ANY
            }
            22 | 25 | 35 => {
                used = var(row.i);
                row.i == ANY || row.p != 0 || row.a != 0 || row.b != 0
            }
            23 | 24 => {
                used = var(row.i);
                row.i == ANY || row.p != 0 || !(1..=16).contains(&row.a) || row.b != 0
            }
            31..=33 => {
                used = var(row.a) | var(row.b);
                row.i != 0 || row.p == 0 || row.a == ANY || row.b == ANY
            }
            _ => {
                used = var(row.a) | var(row.b);
                row.i != ANY || row.p == 0 || row.a == ANY || row.b == ANY
            }
        };
        if bad {
            return Err(3);
        }
        if used & !known != 0 {
            return Err(4);
        }
        // the row is taken
        if !same_rule {
            if !same_set {
                index.sets = row.set as usize;
                index.first[row.set as usize] = self.rules;
                self.set_object = object;
            }
            self.put(index);
            self.now = Rule {
                start: self.rows,
                context: self.rows,
                body: self.rows,
                end: self.rows,
                object,
                body_vars: 0,
                adds: 0,
            };
            self.rules += 1;
            self.rule_object = object;
            self.known = 0;
            self.count = [0; 4];
            self.set = row.set;
            self.rule = row.rule;
        }
        let at = self.rows + 1;
        match row.part {
            1 => {
                self.now.context = at;
                self.now.body = at;
            }
            2 => self.now.body = at,
            _ => {
                self.now.body_vars |= used;
                self.now.adds += (row.op == 21) as u8;
            }
        }
        if row.op == 21 || row.op & 1 == 1 {
            self.known |= gives;
        }
        self.count[row.part as usize] += 1;
        self.rows = at;
        self.part = row.part;
        Ok(())
    }

    #[inline]
    fn put(&mut self, index: &mut Index) {
        if self.rules != 0 {
            self.now.end = self.rows;
            index.rules[self.rules as usize - 1] = self.now;
        }
    }

    pub fn close(&mut self, index: &mut Index) {
        self.put(index);
        index.first[index.sets + 1] = self.rules;
    }
}

impl Index {
    /// One pass over rows handed in: are they a well-formed program, and where do its rules begin?
    pub fn of_rows(&mut self, rows: &[Row]) -> bool {
        self.clear();
        if rows.len() > 512 {
            return false;
        }
        let mut tester = Tester::new();
        for row in rows {
            let in_range = row.p <= 255
                && row.i >= -9
                && row.i <= 65535
                && row.a >= -9
                && row.a <= 65535
                && row.b >= -9
                && row.b <= 65535;
            let new_rule = row.set != tester.set || row.rule != tester.rule;
            if !in_range || (new_rule && tester.lacks()) || tester.take(row, self).is_err() {
                return false;
            }
        }
        if tester.lacks() {
            return false;
        }
        tester.close(self);
        true
    }
}
