//! Program texts: whole ones of every kind, and damaged ones.

use plain::{Program, Row};

use crate::random::Random;

pub const ANY: i64 = -9;
pub const NAMES: &str = "set rule part op i p a b\n";

/// set rule part op i p a b, as written.
pub type Line = [i64; 8];

pub fn lines_of(program: &Program) -> Vec<Line> {
    let line = |r: &Row| {
        let [set, rule, part, op, p] = [r.set, r.rule, r.part, r.op, r.p].map(i64::from);
        let [i, a, b] = [r.i, r.a, r.b].map(i64::from);
        [set, rule, part, op, i, p, a, b]
    };
    program.rows.iter().map(line).collect()
}

pub fn text_of(lines: &[Line]) -> Vec<u8> {
    let mut text = NAMES.to_string();
    for line in lines {
        let numbers: Vec<_> = line.iter().map(i64::to_string).collect();
        text += &numbers.join(" ");
        text += "\n";
    }
    text.into_bytes()
}

/// A program that loads.
pub fn whole(random: &mut Random) -> Vec<Line> {
    match random.below(16) {
        0 => nest(random),
        1 => many_rules(random),
        2 => vec![],
        3..=5 => long_rules(random),
        _ => mixed(random),
    }
}

/// Rule j raises a plan from p = j whose subgoal is p = j + 1; the last makes an atom, acts or is empty.
fn nest(random: &mut Random) -> Vec<Line> {
    let depth = random.between(2, 32) as i64;
    let mut lines = vec![];
    for j in 1..=depth {
        lines.push([1, j, 1, 1, -1, j, -2, -3]);
        let step = if j < depth { 36 } else { 34 };
        lines.push([1, j, 3, step, ANY, j + 1, -2, -3]);
        if random.once_in(3) {
            lines.push([1, j, 3, 31, 0, 9, -2, -3]);
        }
    }
    lines.extend(scheduling(2));
    lines
}

/// A set that schedules every plan.
fn scheduling(set: i64) -> [Line; 3] {
    [
        [set, 1, 2, 3, -1, 0, ANY, ANY],
        [set, 1, 2, 12, -1, 0, 2, 0],
        [set, 1, 3, 23, -1, 0, 2, 0],
    ]
}

/// Up to 8 sets of 32 rules, up to 512 rows in all.
fn many_rules(random: &mut Random) -> Vec<Line> {
    let mut lines: Vec<_> = (0..random.one_of(&[0, 2, 250, 256]))
        .map(|_| {
            [
                0,
                0,
                0,
                41,
                0,
                random.between(1, 9) as i64,
                0,
                random.below(3) as i64,
            ]
        })
        .collect();
    let rules = random.one_of(&[5, 31, 32]);
    for set in 1..=random.between(1, 8) as i64 {
        for rule in 1..=rules {
            if lines.len() + 2 > 512 {
                return lines;
            }
            lines.push([set, rule, 1, 1, -1, 255 - rule, -2, ANY]);
            if random.once_in(2) {
                lines.push([set, rule, 3, 31, 0, 1, -1, -2]);
            }
        }
    }
    lines
}

/// Rules of ten rows over atoms that are there from the start: more ways than a search tries before it goes the long way.
fn long_rules(random: &mut Random) -> Vec<Line> {
    let numbers = random.between(2, 6);
    let variables = random.between(3, 8);
    let mut author = Author {
        random,
        predicates: 3,
        numbers,
        variables,
        valued: vec![],
    };
    let mut lines = vec![];
    // what the rows of the last predicate ask for is rare or missing
    let counts = [
        author.random.between(4, 9),
        author.random.between(1, 3),
        author.random.below(2),
    ];
    for (p, count) in (1..).zip(counts) {
        for _ in 0..count {
            lines.push([0, 0, 0, 41, 0, p, author.number(), author.number()]);
        }
    }
    let is_object = !author.random.once_in(4);
    for rule in 1..=author.random.between(1, 2) as i64 {
        let rows = author.long_rule(rule, is_object);
        if is_object {
            lines.extend(rows);
        } else {
            lines.extend(author.guarded(rows));
        }
    }
    lines.extend(scheduling(2));
    lines
}

/// Small programs of all ops over few predicates and numbers, so that rows match each other's atoms.
struct Author<'a> {
    random: &'a mut Random,
    predicates: usize,
    numbers: usize,
    variables: usize,
    /// The variables of the rule that have a value.
    valued: Vec<i64>,
}

fn mixed(random: &mut Random) -> Vec<Line> {
    let predicates = random.between(1, 4);
    let numbers = random.between(1, 4);
    let variables = random.between(1, 8);
    let mut author = Author {
        random,
        predicates,
        numbers,
        variables,
        valued: vec![],
    };
    let mut lines = author.set_0();
    let sets = author.random.one_of(&[1, 1, 2, 2, 3, 4, 7]);
    for set in 1..=sets {
        let is_object = !author.random.once_in(4);
        for rule in 1..=author.random.one_of(&[1, 1, 2, 3]) {
            let rows = author.rule(set, rule, is_object);
            if is_object || author.random.once_in(3) {
                lines.extend(rows);
            } else {
                lines.extend(author.guarded(rows));
            }
        }
    }
    if !author.random.once_in(4) {
        lines.extend(scheduling(sets + 1));
    }
    lines
}

impl Author<'_> {
    fn set_0(&mut self) -> Vec<Line> {
        let mut lines = vec![];
        for p in 1..=self.predicates as i64 {
            if self.random.once_in(4) {
                let least = self.random.one_of(&[1, 1, 2, 65_535]);
                lines.push([0, 0, 0, 40, 0, p, least, self.predicate()]);
            }
        }
        for _ in 0..self.random.one_of(&[0, 0, 1, 2, 5]) {
            lines.push([
                0,
                0,
                0,
                41,
                0,
                self.predicate(),
                self.number(),
                self.number(),
            ]);
        }
        lines
    }

    fn rule(&mut self, set: i64, rule: i64, is_object: bool) -> Vec<Line> {
        self.valued.clear();
        let rows = if is_object {
            [
                self.random.one_of(&[1, 1, 1, 1, 2, 3, 4]),
                self.random.one_of(&[0, 0, 0, 1, 2, 6]),
                self.random.one_of(&[0, 1, 1, 2, 3, 8]),
            ]
        } else {
            [
                0,
                self.random.one_of(&[1, 2, 2, 3, 4, 6]),
                self.random.one_of(&[1, 1, 2, 3, 8]),
            ]
        };
        let mut lines = vec![];
        for (part, count) in (1..).zip(rows) {
            for _ in 0..count {
                let [op, i, p, a, b] = match (part, is_object) {
                    (1, _) => self.query(1),
                    (2, true) => {
                        let op = self.random.between(1, 2);
                        self.query(op)
                    }
                    (2, false) => {
                        let op = self.random.between(1, 14);
                        self.query(op)
                    }
                    (_, true) => self.step(),
                    (_, false) => self.action(),
                };
                lines.push([set, rule, part, op, i, p, a, b]);
            }
        }
        lines
    }

    /// Four reasons and six rows of context, or six rows of a meta rule; most operands are variables.
    fn long_rule(&mut self, rule: i64, is_object: bool) -> Vec<Line> {
        self.valued.clear();
        let reasons = if is_object { 4 } else { 0 };
        let mut lines = vec![];
        for k in 0..reasons + 6 {
            let part = if k < reasons { 1 } else { 2 };
            let op = match part {
                1 => 1,
                _ => self.random.one_of(&[1, 1, 2]),
            };
            let p = match part {
                1 => self.random.one_of(&[1, 1, 1, 2]),
                _ => self.predicate(),
            };
            let i = self.variable_once_in(4);
            let operands = [self.variable_but_once_in(3), self.variable_once_in(3)];
            if op == 1 {
                let variables = [i, operands[0], operands[1]];
                self.valued
                    .extend(variables.into_iter().filter(|&x| x != ANY));
            }
            lines.push([1, rule, part, op, i, p, operands[0], operands[1]]);
        }
        let [op, i, p, a, b] = if is_object {
            self.step()
        } else {
            self.action()
        };
        lines.push([1, rule, 3, op, i, p, a, b]);
        lines
    }

    fn variable_once_in(&mut self, n: usize) -> i64 {
        match self.random.below(n) {
            0 => self.variable(),
            _ => ANY,
        }
    }

    fn variable_but_once_in(&mut self, n: usize) -> i64 {
        match self.random.below(n) {
            0 => ANY,
            _ => self.variable(),
        }
    }

    /// A meta rule that first makes an atom and does not match once there is one: the phase is left.
    fn guarded(&mut self, rows: Vec<Line>) -> Vec<Line> {
        let [set, rule, ..] = rows[0];
        let (p, a) = (self.predicate(), self.number());
        let (mut context, mut body): (Vec<_>, Vec<_>) =
            rows.into_iter().partition(|line| line[2] == 2);
        context.truncate(5);
        context.insert(0, [set, rule, 2, 2, ANY, p, a, ANY]);
        let values: Vec<_> = context.iter().filter(|line| line[3] % 2 == 1).collect();
        let is_valued =
            |x: i64| x == ANY || x >= 0 || values.iter().any(|l| [l[4], l[6], l[7]].contains(&x));
        body.retain(|l| is_valued(l[4]) && is_valued(l[6]) && is_valued(l[7]));
        body.truncate(7);
        body.insert(0, [set, rule, 3, 21, ANY, p, a, 0]);
        context.into_iter().chain(body).collect()
    }

    fn predicate(&mut self) -> i64 {
        self.random.between(1, self.predicates) as i64
    }

    fn number(&mut self) -> i64 {
        match self.random.below(40) {
            0 => 65_535,
            _ => self.random.below(self.numbers) as i64,
        }
    }

    fn variable(&mut self) -> i64 {
        -(self.random.between(1, self.variables) as i64)
    }

    fn flag(&mut self) -> i64 {
        self.random.one_of(&[1, 2, 2, 3, 4, 5, 16])
    }

    /// An operand of a query.
    fn operand(&mut self) -> i64 {
        match self.random.below(8) {
            0 => self.number(),
            1..=3 => ANY,
            _ => self.variable(),
        }
    }

    /// The id that a query asks for.
    fn asked_id(&mut self) -> i64 {
        match self.random.below(16) {
            0 => self.random.between(0, 6) as i64,
            1..=7 => ANY,
            _ => self.variable(),
        }
    }

    fn query(&mut self, op: usize) -> [i64; 5] {
        let row = match op {
            1 | 2 => [
                self.asked_id(),
                self.predicate(),
                self.operand(),
                self.operand(),
            ],
            3 | 4 => [self.asked_id(), 0, self.operand(), self.operand()],
            5..=8 => [self.asked_id(), 0, self.operand(), 0],
            9 | 10 => [self.asked_id(), 0, self.asked_id(), 0],
            11 | 12 => [self.asked_id(), 0, self.flag(), 0],
            _ => [0, 0, self.operand(), 0],
        };
        let [i, p, a, b] = row;
        if op % 2 == 1 {
            let variables = [i, a, b].into_iter().filter(|&x| (-8..0).contains(&x));
            self.valued.extend(variables);
        }
        [op as i64, i, p, a, b]
    }

    /// A constant or a variable with a value.
    fn body_operand(&mut self) -> i64 {
        if self.valued.is_empty() || self.random.once_in(4) {
            return self.number();
        }
        self.random.one_of(&self.valued)
    }

    fn body_id(&mut self) -> i64 {
        if self.valued.is_empty() || self.random.once_in(6) {
            return self.random.between(0, 9) as i64;
        }
        self.random.one_of(&self.valued)
    }

    fn step(&mut self) -> [i64; 5] {
        let op = self.random.between(31, 36) as i64;
        match op {
            35 => [op, self.body_id(), 0, 0, 0],
            34 | 36 => [
                op,
                ANY,
                self.predicate(),
                self.body_operand(),
                self.body_operand(),
            ],
            _ => [
                op,
                0,
                self.predicate(),
                self.body_operand(),
                self.body_operand(),
            ],
        }
    }

    fn action(&mut self) -> [i64; 5] {
        let op = self.random.one_of(&[21, 21, 22, 23, 23, 24, 25]);
        match op {
            21 => {
                let (a, b) = (self.body_operand(), self.body_operand());
                let v = self.variable();
                let i = if self.valued.contains(&v) { ANY } else { v };
                if i != ANY {
                    self.valued.push(i);
                }
                [op, i, self.predicate(), a, b]
            }
            23 | 24 => [op, self.body_id(), 0, self.flag(), 0],
            _ => [op, self.body_id(), 0, 0, 0],
        }
    }
}

/// A text that may no longer load.
pub fn damaged(random: &mut Random, mut lines: Vec<Line>) -> Vec<u8> {
    for _ in 0..random.one_of(&[1, 1, 2]) {
        damage_lines(random, &mut lines);
    }
    let mut text = text_of(&lines);
    if random.once_in(3) {
        damage_bytes(random, &mut text);
    }
    text
}

fn damage_lines(random: &mut Random, lines: &mut Vec<Line>) {
    if lines.is_empty() {
        lines.push([0, 0, 0, 41, 0, 1, 0, 0]);
    }
    let k = random.below(lines.len());
    let line = lines[k];
    match random.below(10) {
        0 => {
            lines.remove(k);
        }
        1 => lines.insert(k, line),
        2 => {
            let j = random.below(lines.len());
            lines.swap(j, k);
        }
        3 => {
            // one row too many in a part, too many initial atoms, too many rows
            let count = random.one_of(&[4, 8, 256, 512]);
            lines.splice(k..k, vec![line; count]);
        }
        4 => lines.truncate(k),
        _ => {
            let numbers = [
                0,
                1,
                2,
                3,
                4,
                8,
                9,
                16,
                17,
                21,
                22,
                32,
                33,
                35,
                36,
                40,
                41,
                255,
                256,
                65_535,
                65_536,
                99_999,
                -1,
                -2,
                -8,
                -9,
                -10,
                line[2] + 1,
                line[3] + 1,
                line[1] + 1,
            ];
            lines[k][random.below(8)] = random.one_of(&numbers);
        }
    }
}

fn damage_bytes(random: &mut Random, text: &mut Vec<u8>) {
    let k = random.below(text.len());
    let byte = match random.below(3) {
        0 => random.word() as u8,
        _ => random.one_of(b"0129- +\n\r\ta"),
    };
    match random.below(5) {
        0 => text[k] = byte,
        1 => {
            text.remove(k);
        }
        2 => text.insert(k, byte),
        3 => {
            text.pop();
        }
        _ => text.truncate(k),
    }
}

#[cfg(test)]
mod tests {
    use super::*;

    #[test]
    fn whole_programs_load() {
        for case in 0..3_000 {
            let lines = whole(&mut Random::new(7, case));
            let program = plain::load(&text_of(&lines));
            assert_eq!(program.map(|p| lines_of(&p)), Ok(lines));
        }
    }
}
