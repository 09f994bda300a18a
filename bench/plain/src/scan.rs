//! The tests on rows, one after the other, shared by load and by the test that a program is well formed.

use crate::config::MAX_ATOMS;
use crate::program::{
    op, part, variable, Layout, Row, Rule, Variables, ANY, MAX_FLAG, MAX_ROWS, MAX_RULES, MAX_SETS,
};
use crate::refusal;

/// Why a readable row is not taken.
#[derive(Debug, PartialEq, Eq)]
pub(crate) enum Fault {
    /// The rule before it lacks rows: 3 at that rule's last line.
    RuleLacksRows,
    /// A refusal at the row itself.
    Row(u32),
}

/// What was seen so far.
pub(crate) struct Scan {
    count: usize,
    initial_atoms: usize,
    /// Of the last row.
    set: u32,
    rule: u32,
    part: u32,
    /// Whether the rule being read is an object rule; so is its whole set.
    object: bool,
    /// The variables of the rule being read that have a value.
    valued: Variables,
    ceilings: [bool; 256],
    layout: Layout,
}

impl Scan {
    pub fn new(rows: usize) -> Self {
        let rows = rows.min(MAX_ROWS);
        Scan {
            count: 0,
            initial_atoms: 0,
            set: 0,
            rule: 0,
            part: 0,
            object: false,
            valued: Variables::default(),
            ceilings: [false; 256],
            layout: Layout {
                rules: Vec::with_capacity(rows),
                set_starts: Vec::with_capacity(MAX_SETS as usize),
            },
        }
    }

    /// Takes the next row, whose numbers are in their columns' ranges, or says what is wrong with it: 5, then 3, then 4.
    pub fn take(&mut self, row: &Row) -> Result<(), Fault> {
        let same_rule = row.set == self.set && row.rule == self.rule;
        if !same_rule && self.lacks_rows() {
            return Err(Fault::RuleLacksRows);
        }
        if self.is_too_many(row, same_rule) {
            return Err(Fault::Row(refusal::TOO_MANY));
        }
        if !self.is_in_order(row, same_rule) {
            return Err(Fault::Row(refusal::BROKEN_RULE));
        }
        if !same_rule {
            self.begin_rule(row);
        }
        let lawful = if row.set == 0 {
            self.is_set_0_row(row)
        } else {
            self.is_rule_row(row)
        };
        if !lawful {
            return Err(Fault::Row(refusal::BROKEN_RULE));
        }
        if row.part == part::BODY && self.lacks_value(row) {
            return Err(Fault::Row(refusal::NO_VALUE));
        }
        self.note(row);
        Ok(())
    }

    /// Where the rules stand, unless the last one lacks rows.
    pub fn finish(self) -> Result<Layout, Fault> {
        if self.lacks_rows() {
            return Err(Fault::RuleLacksRows);
        }
        Ok(self.layout)
    }

    /// An object rule may have no body; a meta rule has context and body.
    fn lacks_rows(&self) -> bool {
        match self.layout.rules.last() {
            Some(rule) => {
                !rule.is_object() && (rule.context_count() == 0 || rule.body_count() == 0)
            }
            None => false,
        }
    }

    fn is_too_many(&self, row: &Row, same_rule: bool) -> bool {
        let part_is_full = || match (self.layout.rules.last(), row.part) {
            (Some(rule), part::REASON) => rule.reason_count() >= 4,
            (Some(rule), part::CONTEXT) => rule.context_count() >= 6,
            (Some(rule), part::BODY) => rule.body_count() >= 8,
            _ => false,
        };
        row.set > MAX_SETS
            || row.rule > MAX_RULES
            || self.count >= MAX_ROWS
            || same_rule && part_is_full()
            || row.set == 0 && row.op == op::INITIAL && self.initial_atoms >= MAX_ATOMS
    }

    /// By set, rule and part, without gaps, and with one kind of rule in a set.
    fn is_in_order(&self, row: &Row, same_rule: bool) -> bool {
        if same_rule {
            return row.part >= self.part;
        }
        if row.set == self.set {
            return row.set > 0
                && row.rule == self.rule + 1
                && (row.part == part::REASON) == self.object;
        }
        row.set == self.set + 1 && row.rule == 1
    }

    fn begin_rule(&mut self, row: &Row) {
        if row.set != self.set {
            self.layout.set_starts.push(self.layout.rules.len() as u16);
        }
        let at = self.count as u16;
        self.layout.rules.push(Rule {
            start: at,
            context: at,
            body: at,
            end: at,
            body_variables: Variables::default(),
        });
        self.object = row.part == part::REASON;
        self.valued = Variables::default();
    }

    fn is_set_0_row(&self, row: &Row) -> bool {
        row.rule == 0
            && row.part == 0
            && row.i == 0
            && row.p >= 1
            && match row.op {
                op::INITIAL => row.a >= 0 && row.b >= 0,
                op::CEILING => {
                    row.a >= 1 && (1..=255).contains(&row.b) && !self.ceilings[row.p as usize]
                }
                _ => false,
            }
    }

    fn is_rule_row(&self, row: &Row) -> bool {
        match row.part {
            part::REASON => row.op == op::ATOM && is_query(row),
            part::CONTEXT => is_query(row) && (!self.object || row.op <= op::NOT_ATOM),
            part::BODY if self.object => is_plan_step(row),
            part::BODY => self.is_action(row),
            _ => false,
        }
    }

    fn is_action(&self, row: &Row) -> bool {
        match row.op {
            op::ADD_ATOM => names_atom(row) && (row.i == ANY || self.is_new(row.i)),
            op::DELETE_ATOM | op::DELETE_PLAN => names_instance(row) && row.a == 0,
            op::SET_FLAG | op::CLEAR_FLAG => names_instance(row) && is_flag(row.a),
            _ => false,
        }
    }

    /// A variable that has no value yet.
    fn is_new(&self, operand: i32) -> bool {
        variable(operand).is_some_and(|v| !self.valued.contains(v))
    }

    /// The i of add-atom takes a value, every other body operand needs one.
    fn lacks_value(&self, row: &Row) -> bool {
        self.is_new(row.a) || self.is_new(row.b) || row.op != op::ADD_ATOM && self.is_new(row.i)
    }

    fn note(&mut self, row: &Row) {
        self.count += 1;
        (self.set, self.rule, self.part) = (row.set, row.rule, row.part);
        if row.set == 0 {
            match row.op {
                op::INITIAL => self.initial_atoms += 1,
                _ => self.ceilings[row.p as usize] = true,
            }
            return;
        }
        let rule = self
            .layout
            .rules
            .last_mut()
            .expect("a row of a rule stands in one");
        let after = self.count as u16;
        rule.end = after;
        match row.part {
            part::REASON => (rule.context, rule.body) = (after, after),
            part::CONTEXT => rule.body = after,
            _ => [row.i, row.a, row.b]
                .into_iter()
                .for_each(|x| rule.body_variables.insert(x)),
        }
        if row.part == part::BODY {
            if row.op == op::ADD_ATOM {
                self.valued.insert(row.i);
            }
        } else if row.op % 2 == 1 {
            [row.i, row.a, row.b]
                .into_iter()
                .for_each(|x| self.valued.insert(x));
        }
    }
}

/// The columns that a query leaves unused are 0.
fn is_query(row: &Row) -> bool {
    match row.op {
        op::ATOM | op::NOT_ATOM => row.p >= 1,
        op::PLAN | op::NOT_PLAN => row.p == 0,
        op::REMAINDER..=op::NOT_SUBGOAL => row.p == 0 && row.b == 0,
        op::STATE | op::NOT_STATE => row.p == 0 && is_flag(row.a) && row.b == 0,
        op::CYCLE | op::NOT_CYCLE => row.p == 0 && row.i == 0 && row.b == 0,
        _ => false,
    }
}

fn is_plan_step(row: &Row) -> bool {
    match row.op {
        op::EXTERNAL | op::TEST | op::TEST_NONE => names_atom(row) && row.i == 0,
        op::MAKE_ATOM | op::MAKE_SUBGOAL => names_atom(row) && row.i == ANY,
        op::REMOVE_ATOM => names_instance(row) && row.a == 0,
        _ => false,
    }
}

/// p(a, b) in a body, where "any" has no place.
fn names_atom(row: &Row) -> bool {
    row.p >= 1 && row.a != ANY && row.b != ANY
}

/// The instance i in a body.
fn names_instance(row: &Row) -> bool {
    row.i != ANY && row.p == 0 && row.b == 0
}

fn is_flag(operand: i32) -> bool {
    (1..=MAX_FLAG).contains(&operand)
}

/// Where the rules stand, if the rows are those of some text that loads.
pub(crate) fn layout(rows: &[Row]) -> Option<Layout> {
    let mut scan = Scan::new(rows.len());
    for row in rows {
        if !is_in_columns(row) || scan.take(row).is_err() {
            return None;
        }
    }
    scan.finish().ok()
}

/// p runs 0 to 255; the others 0 to 65,535, but i, a, b from -9.
fn is_in_columns(row: &Row) -> bool {
    let operand = |x: i32| (ANY..=65_535).contains(&x);
    row.set <= 65_535
        && row.rule <= 65_535
        && row.part <= 65_535
        && row.op <= 65_535
        && operand(row.i)
        && row.p <= 255
        && operand(row.a)
        && operand(row.b)
}
