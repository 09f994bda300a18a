//! A case: a program, and items one after the other, each chosen by where the configuration stands.

use plain::{Config, Program};

use crate::configs::{built, program_of, words_of, Image};
use crate::pair::Pair;
use crate::programs::{damaged, lines_of, text_of, whole, Line};
use crate::random::Random;
use crate::script::{Call, Item, Longer};

/// What a case is mostly about.
#[derive(Clone, Copy, PartialEq)]
enum Theme {
    /// Calls in turn, and some out of turn.
    Calls,
    /// Configurations that are put together, often near a limit.
    Built,
    /// Texts that are damaged.
    Texts,
    /// Programs and configurations that are damaged, tables of wrong lengths, other programs.
    Damage,
}

pub struct Case {
    random: Random,
    theme: Theme,
    lines: Vec<Line>,
    /// What comes next in any case, last first.
    planned: Vec<Item>,
    left: usize,
}

impl Case {
    pub fn new(mut random: Random) -> Self {
        let themes = [
            Theme::Calls,
            Theme::Calls,
            Theme::Built,
            Theme::Built,
            Theme::Texts,
            Theme::Damage,
        ];
        let theme = random.one_of(&themes);
        let lines = whole(&mut random);
        let planned = vec![Item::Load(text_of(&lines), Longer::default())];
        Case {
            random,
            theme,
            lines,
            planned,
            left: 50,
        }
    }

    /// The next item, or none at the end of the case.
    pub fn next(&mut self, pair: &Pair) -> Option<Item> {
        if self.left == 0 {
            return None;
        }
        self.left -= 1;
        if let Some(item) = self.planned.pop() {
            return Some(item);
        }
        if cost(pair.program(), pair.config()) > MOST_COST {
            return None;
        }
        Some(self.choose(pair))
    }

    fn choose(&mut self, pair: &Pair) -> Item {
        match (self.theme, self.random.below(12)) {
            (Theme::Built, 0..=2) | (Theme::Damage, 8) => self.build(pair),
            (Theme::Built, 3) => self.damage_config(pair),
            (Theme::Texts, 0..=9) => self.text(),
            (Theme::Damage, 0..=3) => self.damage_config(pair),
            (Theme::Damage, 4..=5) => self.damage_program(pair),
            (Theme::Damage, 6) => self.other_program(pair),
            (Theme::Damage, 7 | 9) => {
                let longer = self.longer();
                self.any_item(pair, longer)
            }
            (_, 10) => self.any_item(pair, Longer::default()),
            _ => Item::Call(
                self.in_turn(pair.program(), pair.config()),
                Longer::default(),
            ),
        }
    }

    fn build(&mut self, pair: &Pair) -> Item {
        let config = built(&mut self.random, pair.program());
        Item::Config(Image::of(&config, &mut self.random))
    }

    fn text(&mut self) -> Item {
        if self.random.once_in(8) {
            self.lines = whole(&mut self.random);
        }
        Item::Load(
            damaged(&mut self.random, self.lines.clone()),
            Longer::default(),
        )
    }

    /// A damaged configuration, a call or two, and the whole one again.
    fn damage_config(&mut self, pair: &Pair) -> Item {
        let image = Image::of(pair.config(), &mut self.random);
        let mut wrong = image.clone();
        for _ in 0..self.random.one_of(&[1, 1, 1, 2, 3]) {
            wrong.damage(&mut self.random);
        }
        self.planned.push(Item::Config(image));
        self.plan_calls(pair.program(), pair.config());
        Item::Config(wrong)
    }

    /// Damaged rows.
    fn damage_program(&mut self, pair: &Pair) -> Item {
        let mut wrong = words_of(pair.program());
        if wrong.is_empty() || self.random.once_in(8) {
            let count = self.random.one_of(&[1, 4, 8, 9]);
            wrong.truncate(4096 - count);
            wrong.extend((0..count).map(|_| self.random.below(9) as u32));
        } else {
            let k = self.random.below(wrong.len());
            wrong[k] = match self.random.below(4) {
                0 => self.random.word(),
                1 => wrong[k].wrapping_add(1),
                2 => self
                    .random
                    .one_of(&[0, 1, 8, 9, 10, 17, 33, 256, 65_544, 65_545, u32::MAX]),
                _ => self.random.below(45) as u32,
            };
        }
        let program = program_of(&wrong).unwrap_or_default();
        self.with_program(pair, &program, Item::Rows(wrong))
    }

    /// The configuration with another program, a call or two, and its own program again; unless the calls would take long.
    fn with_program(&mut self, pair: &Pair, program: &Program, item: Item) -> Item {
        if cost(program, pair.config()) > MOST_COST {
            let call = self.in_turn(pair.program(), pair.config());
            return Item::Call(call, Longer::default());
        }
        self.planned
            .push(Item::Program(text_of(&lines_of(pair.program()))));
        self.plan_calls(program, pair.config());
        item
    }

    fn plan_calls(&mut self, program: &Program, config: &Config) {
        for _ in 0..self.random.between(1, 2) {
            let call = match self.random.below(3) {
                0 => self.any_call(program, config),
                _ => self.in_turn(program, config),
            };
            self.planned.push(Item::Call(call, Longer::default()));
        }
    }

    /// Another whole program under the same configuration.
    fn other_program(&mut self, pair: &Pair) -> Item {
        let mut lines = self.lines.clone();
        if self.random.once_in(2) {
            lines = whole(&mut self.random);
        } else {
            lines.pop();
        }
        let text = text_of(&lines);
        // refused, it leaves the program as it is
        let program = plain::load(&text).unwrap_or_else(|_| pair.program().clone());
        self.with_program(pair, &program, Item::Program(text))
    }

    fn longer(&mut self) -> Longer {
        let mut longer = Longer::default();
        let by = self.random.one_of(&[-4096, -8, -1, 1, 8]);
        match self.random.below(4) {
            0 => longer.program = by,
            1 => longer.words = by,
            2 => longer.scalars = by,
            _ => longer.report = by,
        }
        longer
    }

    fn any_item(&mut self, pair: &Pair, longer: Longer) -> Item {
        if self.random.once_in(6) {
            return Item::Load(text_of(&self.lines), longer);
        }
        Item::Call(self.any_call(pair.program(), pair.config()), longer)
    }

    /// A call in its turn.
    fn in_turn(&mut self, program: &Program, config: &Config) -> Call {
        if self.random.once_in(12) {
            return Call::Delete(self.id(config));
        }
        match () {
            _ if config.waiting != 0 => Call::Answer(self.random.one_of(&[0, 0, 1, 1, 1, 1, 2])),
            _ if config.phase == 0 => Call::Sense(self.readings(config)),
            _ if self.random.once_in(3) => Call::Run(self.limit(program)),
            _ => Call::Step,
        }
    }

    /// Any call with any arguments.
    fn any_call(&mut self, program: &Program, config: &Config) -> Call {
        match self.random.below(8) {
            0 | 1 => Call::Sense(self.any_readings(config)),
            2 => Call::Step,
            3 | 4 => Call::Answer(self.random.one_of(&[0, 1, 1, 2, u32::MAX])),
            5 => Call::Delete(self.id(config)),
            6 => Call::Delete(self.random.one_of(&[0, 1, 2, 3, 65_535, 65_536, u32::MAX])),
            _ => {
                let limit = self.limit(program);
                Call::Run(self.random.one_of(&[0, limit, 10_001, u32::MAX]))
            }
        }
    }

    /// The steps of a run: as many as are done in little time, even if the configuration fills up.
    fn limit(&mut self, program: &Program) -> u32 {
        let most = [12, 300, 10_000];
        let worst = worst_cost(program);
        let k = match () {
            _ if worst < 2_000 => self.random.below(3),
            _ if worst < 50_000 => self.random.below(2),
            _ => 0,
        };
        if k == 2 {
            return 10_000;
        }
        self.random.between(1, most[k]) as u32
    }

    fn id(&mut self, config: &Config) -> u32 {
        let ids = config.atoms.iter().map(|x| x.id);
        let ids: Vec<_> = ids.chain(config.plans.iter().map(|q| q.id)).collect();
        if ids.is_empty() || self.random.once_in(8) {
            return self.random.below(config.next as usize % 70_000 + 2) as u32;
        }
        self.random.one_of(&ids)
    }

    fn readings(&mut self, config: &Config) -> Vec<u32> {
        let count = self.random.one_of(&[0, 1, 1, 2, 3, 5]);
        let count = if self.random.once_in(40) { 64 } else { count };
        (0..count).flat_map(|_| self.reading(config)).collect()
    }

    fn reading(&mut self, config: &Config) -> [u32; 4] {
        let sign = self.random.one_of(&[1, 1, 2]);
        let atoms = &config.atoms;
        if sign == 2 && !atoms.is_empty() && self.random.once_in(2) {
            let x = atoms[self.random.below(atoms.len())];
            return [sign, x.p.clamp(1, 255), x.a & 0xffff, x.b & 0xffff];
        }
        let number = |random: &mut Random| match random.below(30) {
            0 => 65_535,
            _ => random.below(3) as u32,
        };
        [
            sign,
            self.random.between(1, 4) as u32,
            number(&mut self.random),
            number(&mut self.random),
        ]
    }

    /// Readings that may be out of range.
    fn any_readings(&mut self, config: &Config) -> Vec<u32> {
        let mut words = self.readings(config);
        match self.random.below(5) {
            0 => words = [1, 1, 0, 0].repeat(65),
            1 => words.push(1),
            2 | 3 if !words.is_empty() => {
                let k = self.random.below(words.len());
                words[k] = self.random.one_of(&[0, 3, 256, 65_536, u32::MAX]);
            }
            _ => {}
        }
        words
    }
}

/// The most candidates that a set's rules may have to be tried with.
const MOST_COST: u64 = 20_000;

/// How many tries the rules' rows can take at most: for each rule the product of the candidates of its rows, but of a row of context that
/// gives no variable a value one is tried.
fn cost(program: &Program, config: &Config) -> u64 {
    let mut atoms = [0; 256];
    for x in &config.atoms {
        atoms[x.p as usize % 256] += 1;
    }
    let plans = config.plans.len() as u64;
    cost_with(program, |p| atoms[p as usize % 256], plans)
}

fn worst_cost(program: &Program) -> u64 {
    cost_with(program, |_| 256, 64)
}

fn cost_with(program: &Program, atoms: impl Fn(u32) -> u64, plans: u64) -> u64 {
    let mut of_rule = 1_u64;
    let mut rule = (0, 0);
    let mut valued = vec![];
    let mut most = 1;
    for row in program.rows.iter().filter(|r| r.part == 1 || r.part == 2) {
        if rule != (row.set, row.rule) {
            rule = (row.set, row.rule);
            of_rule = 1;
            valued.clear();
        }
        let operands = [row.i, row.a, row.b].map(i64::from);
        let is_new = |x: &i64| (-8..0).contains(x) && !valued.contains(x);
        let new: Vec<_> = operands.into_iter().filter(is_new).collect();
        let candidates = match row.op {
            _ if row.part == 2 && new.is_empty() => 1,
            1 => atoms(row.p),
            3 | 5 | 9 | 11 => plans,
            7 => plans * 4,
            _ => 1,
        };
        if row.op % 2 == 1 {
            valued.extend(new);
        }
        of_rule = of_rule.saturating_mul(candidates.max(1));
        most = most.max(of_rule);
    }
    most
}
