//! Configurations: between the words of the library and those of the plain interpreter; built near the limits; damaged.

use juntiqel::raw::{ATOM_A, ATOM_B, ATOM_CYCLE, ATOM_ID, ATOM_P};
use juntiqel::raw::{OPERAND, PLAN, PLANS_AT, ROW, SCALARS, WORDS};
use plain::{Atom, Config, Plan, Program, Row, MAX_ATOMS, MAX_NEXT, MAX_PLANS, NO_VALUE};

use crate::random::Random;

/// Where each column of the atoms begins.
const COLUMNS: [usize; 5] = [ATOM_ID, ATOM_P, ATOM_A, ATOM_B, ATOM_CYCLE];

/// A configuration as the library is lent it.
#[derive(Clone, Debug, PartialEq, Eq)]
pub struct Image {
    pub words: Box<[u32; WORDS]>,
    pub scalars: [u32; SCALARS],
}

/// The program's rows as the library has them.
pub fn words_of(program: &Program) -> Vec<u32> {
    let operand = |x: i32| x.wrapping_add(OPERAND as i32) as u32;
    let row = |r: &Row| {
        [
            r.set,
            r.rule,
            r.part,
            r.op,
            operand(r.i),
            r.p,
            operand(r.a),
            operand(r.b),
        ]
    };
    program.rows.iter().flat_map(row).collect()
}

/// The rows that words stand for, if they are whole rows. An operand too large to be held is too large for any program.
pub fn program_of(words: &[u32]) -> Option<Program> {
    let operand = |w: u32| i32::try_from(i64::from(w) - i64::from(OPERAND)).unwrap_or(i32::MAX);
    let row = |w: &[u32]| Row {
        set: w[0],
        rule: w[1],
        part: w[2],
        op: w[3],
        i: operand(w[4]),
        p: w[5],
        a: operand(w[6]),
        b: operand(w[7]),
    };
    let rows = words.chunks_exact(ROW);
    rows.remainder().is_empty().then(|| Program {
        rows: rows.map(row).collect(),
    })
}

/// The live configuration. Counts above the limits are given one instance too many, which is not well formed either.
pub fn config_of(words: &[u32], scalars: &[u32]) -> Config {
    let live = |count: u32, limit: usize| (count as usize).min(limit + 1);
    let atom = |k: usize| match k {
        MAX_ATOMS.. => [0; 5],
        _ => COLUMNS.map(|column| words[column + k]),
    };
    let plan = |k: usize| match k {
        MAX_PLANS.. => &[0; PLAN],
        _ => &words[PLANS_AT + k * PLAN..][..PLAN],
    };
    Config {
        atoms: (0..live(scalars[4], MAX_ATOMS))
            .map(|k| atom_of(atom(k)))
            .collect(),
        plans: (0..live(scalars[5], MAX_PLANS))
            .map(|k| plan_of(plan(k)))
            .collect(),
        phase: scalars[0],
        cycle: scalars[1],
        next: scalars[2],
        waiting: scalars[3],
    }
}

fn atom_of([id, p, a, b, cycle]: [u32; 5]) -> Atom {
    Atom { id, p, a, b, cycle }
}

fn plan_of(w: &[u32]) -> Plan {
    Plan {
        id: w[0],
        set: w[1],
        rule: w[2],
        left: w[3],
        flags: w[4],
        subgoal: w[5],
        justifications: std::array::from_fn(|k| w[6 + k]),
        values: std::array::from_fn(|k| w[10 + k]),
    }
}

pub fn atom_words(x: &Atom) -> [u32; 5] {
    [x.id, x.p, x.a, x.b, x.cycle]
}

pub fn plan_words(q: &Plan) -> [u32; PLAN] {
    let mut words = [0; PLAN];
    words[..6].copy_from_slice(&[q.id, q.set, q.rule, q.left, q.flags, q.subgoal]);
    words[6..10].copy_from_slice(&q.justifications);
    words[10..].copy_from_slice(&q.values);
    words
}

impl Image {
    /// A configuration within the limits of the tables, with anything in the places that are not used.
    pub fn of(config: &Config, random: &mut Random) -> Self {
        let filler = random.one_of(&[0, 1, u32::MAX]);
        let mut words = Box::new([filler; WORDS]);
        for (k, x) in config.atoms.iter().enumerate().take(MAX_ATOMS) {
            for (column, word) in COLUMNS.into_iter().zip(atom_words(x)) {
                words[column + k] = word;
            }
        }
        let places = words[PLANS_AT..].chunks_exact_mut(PLAN);
        for (place, q) in places.zip(&config.plans) {
            place.copy_from_slice(&plan_words(q));
        }
        let counts = [config.atoms.len() as u32, config.plans.len() as u32];
        Image {
            words,
            scalars: [
                config.phase,
                config.cycle,
                config.next,
                config.waiting,
                counts[0],
                counts[1],
            ],
        }
    }

    /// One change: a live word, a scalar, or a record that becomes like another.
    pub fn damage(&mut self, random: &mut Random) {
        let plans = (self.scalars[5] as usize).min(MAX_PLANS);
        let atoms = (self.scalars[4] as usize).min(MAX_ATOMS);
        match random.below(6) {
            0 if plans > 1 => {
                let places: Vec<_> = (PLANS_AT..).take(PLAN).collect();
                self.liken(random, &places, PLAN, plans);
            }
            1 if atoms > 1 => self.liken(random, &COLUMNS, 1, atoms),
            _ => self.damage_word(random),
        }
    }

    /// A record becomes like another, at times but for its id. The first has its words at the places given, the next so far behind.
    fn liken(&mut self, random: &mut Random, places: &[usize], behind: usize, count: usize) {
        let (j, k) = (random.below(count), random.below(count));
        let from = usize::from(!random.once_in(4));
        for place in &places[from..] {
            self.words[place + k * behind] = self.words[place + j * behind];
        }
    }

    fn damage_word(&mut self, random: &mut Random) {
        let live = (self.scalars[4] as usize).min(MAX_ATOMS);
        let atoms = live * COLUMNS.len();
        let plans = (self.scalars[5] as usize).min(MAX_PLANS) * PLAN;
        let all = 2 * SCALARS + atoms + 2 * plans;
        let k = random.below(all);
        let place = if k < 2 * SCALARS {
            &mut self.scalars[k / 2]
        } else if k < 2 * SCALARS + atoms {
            let k = k - 2 * SCALARS;
            &mut self.words[COLUMNS[k / live] + k % live]
        } else {
            &mut self.words[PLANS_AT + (k - 2 * SCALARS - atoms) / 2]
        };
        *place = match random.below(8) {
            0 => random.word(),
            1 => place.wrapping_add(1),
            2 => place.wrapping_sub(1),
            3 => random.one_of(&[255, 256, 257, 64, 65, 65_535, 65_536, 65_537, u32::MAX]),
            4 => 0,
            _ => random.below(9) as u32,
        };
    }
}

/// An object rule, for plans.
struct Rule<'a> {
    set: u32,
    rule: u32,
    body: Vec<&'a Row>,
}

fn object_rules(program: &Program) -> Vec<Rule<'_>> {
    let mut rules: Vec<Rule> = vec![];
    for row in &program.rows {
        let is_same = |r: &Rule| (r.set, r.rule) == (row.set, row.rule);
        if row.part == 1 && !rules.last().is_some_and(is_same) {
            rules.push(Rule {
                set: row.set,
                rule: row.rule,
                body: vec![],
            });
        }
        if row.part == 3 {
            let of = rules.last_mut().filter(|r| is_same(r));
            of.into_iter().for_each(|r| r.body.push(row));
        }
    }
    rules
}

/// A well-formed configuration of a program, often near a limit.
pub fn built(random: &mut Random, program: &Program) -> Config {
    let rules = object_rules(program);
    let sets = program.rows.last().map_or(0, |r| r.set);
    let atoms = random.one_of(&[0, 1, 3, 8, 200, 254, 255, 256]);
    let plans = match atoms {
        0 => 0,
        _ if rules.is_empty() => 0,
        _ => random.one_of(&[0, 1, 2, 5, 62, 63, 64]),
    };
    let next = match random.below(3) {
        0 => 1 + (atoms + plans) as u32 + random.below(3) as u32,
        1 => MAX_NEXT - random.below(4) as u32,
        _ => random.between(400, 65_000) as u32,
    };
    let mut builder = Builder {
        random,
        rules: &rules,
        config: Config {
            phase: 0,
            cycle: 0,
            next,
            ..Config::empty()
        },
        goals: vec![],
    };
    builder.instances(atoms, plans, next - (atoms + plans) as u32);
    let mut config = builder.config;
    config.phase = random.between(0, sets as usize + 1) as u32;
    config.cycle = random.one_of(&[0, 1, 65_534, 65_535, 65_535]);
    if config.phase == sets + 1 && random.once_in(2) {
        config.waiting = actor(&config, &rules).unwrap_or(0);
    }
    config
}

/// A plan that could be waiting.
fn actor(config: &Config, rules: &[Rule]) -> Option<u32> {
    let is_actor = |q: &&Plan| first_step(q, rules).is_some_and(|r| r.op == 31);
    config.plans.iter().find(is_actor).map(|q| q.id)
}

fn first_step<'a>(q: &Plan, rules: &[Rule<'a>]) -> Option<&'a Row> {
    let rule = rules
        .iter()
        .find(|r| (r.set, r.rule) == (q.set, q.rule))
        .expect("the plan is of one of the rules");
    let at = rule.body.len() - q.left as usize;
    rule.body.get(at).copied()
}

struct Builder<'a, 'b> {
    random: &'a mut Random,
    rules: &'a [Rule<'b>],
    config: Config,
    /// Places of plans that still look for their subgoal, with p, a, b.
    goals: Vec<(usize, [u32; 3])>,
}

impl Builder<'_, '_> {
    /// Atoms and plans in turn, an atom first.
    fn instances(&mut self, atoms: usize, plans: usize, first: u32) {
        let mut left = (atoms, plans);
        for id in first..first + (atoms + plans) as u32 {
            let is_atom = self.config.atoms.is_empty()
                || left.1 == 0
                || left.0 > 0 && self.random.below(left.0 + left.1) < left.0;
            if is_atom {
                left.0 -= 1;
                self.atom(id);
            } else {
                left.1 -= 1;
                self.plan(id);
            }
        }
    }

    fn small(&mut self) -> u32 {
        self.random.below(4) as u32
    }

    fn atom(&mut self, id: u32) {
        let cycle = self.random.one_of(&[0, 0, 1, 65_535]);
        let [p, a, b] = match self.goals.pop() {
            Some((plan, atom)) if self.random.once_in(2) => {
                self.config.plans[plan].subgoal = id;
                atom
            }
            _ => [1 + self.small(), self.small(), self.small()],
        };
        self.config.atoms.push(Atom { id, p, a, b, cycle });
    }

    fn plan(&mut self, id: u32) {
        let rule = &self.rules[self.random.below(self.rules.len())];
        let plan = Plan {
            id,
            set: rule.set,
            rule: rule.rule,
            left: self.random.between(0, rule.body.len()) as u32,
            flags: self.random.one_of(&[0, 0, 2, 2, 2, 6, 10, 65_535]),
            subgoal: 0,
            justifications: self.justifications(),
            values: self.values(rule),
        };
        let goal = first_step(&plan, self.rules).filter(|r| r.op == 36);
        if let Some(row) = goal {
            let value = |x: i32| match x {
                -8..=-1 => plan.values[(-1 - x) as usize],
                _ => x as u32,
            };
            let atom = [row.p, value(row.a), value(row.b)];
            // an argument that is no argument of an atom cannot be met
            if atom.iter().all(|&n| n <= 65_535) {
                self.goals.push((self.config.plans.len(), atom));
            }
        }
        self.config.plans.push(plan);
    }

    fn justifications(&mut self) -> [u32; 4] {
        let count = self.random.one_of(&[1, 1, 2, 4]);
        let mut ids: Vec<_> = (0..count)
            .map(|_| self.config.atoms[self.random.below(self.config.atoms.len())].id)
            .collect();
        ids.sort();
        ids.dedup();
        std::array::from_fn(|k| ids.get(k).copied().unwrap_or(0))
    }

    /// The variables of the body have a value, others at times.
    fn values(&mut self, rule: &Rule) -> [u32; 8] {
        let mut values = [NO_VALUE; 8];
        for (k, value) in values.iter_mut().enumerate() {
            let variable = -1 - k as i32;
            let is_used = |r: &&Row| [r.i, r.a, r.b].contains(&variable);
            if rule.body.iter().any(is_used) || self.random.once_in(4) {
                *value = self.value();
            }
        }
        values
    }

    fn value(&mut self) -> u32 {
        match self.random.below(4) {
            0 => self.config.atoms[self.random.below(self.config.atoms.len())].id,
            1 => self.random.one_of(&[0, 1, 65_535]),
            _ => self.small(),
        }
    }
}

#[cfg(test)]
mod tests {
    use super::*;
    use crate::programs::{text_of, whole};

    #[test]
    fn built_configurations_are_well_formed() {
        for case in 0..3_000 {
            let mut random = Random::new(8, case);
            let program = plain::load(&text_of(&whole(&mut random))).unwrap();
            let mut config = built(&mut random, &program);
            let number = if config.waiting == 0 { 12 } else { 6 };
            assert_eq!(plain::delete(&program, &mut config, 0), Err(number));
        }
    }

    #[test]
    fn images_hold_the_configuration() {
        for case in 0..300 {
            let mut random = Random::new(9, case);
            let program = plain::load(&text_of(&whole(&mut random))).unwrap();
            assert_eq!(program_of(&words_of(&program)), Some(program.clone()));
            let config = built(&mut random, &program);
            let image = Image::of(&config, &mut random);
            assert_eq!(config_of(&image.words[..], &image.scalars), config);
        }
    }
}
