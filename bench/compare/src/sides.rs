//! The sides behind one interface: the tight baseline, the library's tested calls on lent tables, and its calls without test through
//! a controller. Each holds a program and a configuration, which the calls change in place.

use juntiqel::raw::{self, PLAN, PLANS_AT, PROGRAM, REPORT, ROW, SCALARS, WORDS};
use juntiqel::raw::{ATOM_A, ATOM_B, ATOM_CYCLE, ATOM_ID, ATOM_P};
use juntiqel::Controller;
use tight::{Config, Machine, Options, Program};

use crate::digest::Picture;
use crate::workloads::Call;

pub trait Side {
    /// Whether it was accepted.
    fn call(&mut self, call: &Call) -> bool;
    fn picture(&self) -> Picture;
}

pub struct Tight {
    machine: Machine,
    program: Program,
    config: Box<Config>,
}

impl Tight {
    pub fn new(options: Options) -> Self {
        Tight {
            machine: Machine::new(options),
            program: Program::default(),
            config: Box::default(),
        }
    }
}

impl Side for Tight {
    fn call(&mut self, call: &Call) -> bool {
        let Tight {
            machine,
            program,
            config,
        } = self;
        match call {
            Call::Load(text) => machine.load(text, program, config).is_ok(),
            Call::Sense(rows) => machine.sense(program, config, rows).is_ok(),
            Call::Step => machine.step(program, config).is_ok(),
            Call::Answer(n) => machine.answer(program, config, *n).is_ok(),
            Call::Delete(id) => machine.delete(program, config, *id).is_ok(),
            Call::Run(limit) => machine.run(program, config, *limit).is_ok(),
        }
    }

    fn picture(&self) -> Picture {
        let c = &self.config;
        let mut picture = Picture::new([c.phase.into(), c.cycle.into(), c.next, c.waiting.into()]);
        for k in 0..c.atom_count {
            let [p, a, b] = [32, 16, 0].map(|by| (c.keys[k] >> by) as u16);
            picture.atom([c.ids[k], p, a, b, c.cycles[k]].map(u32::from));
        }
        for q in &c.plans[..c.plan_count] {
            let [set, rule, left] = [q.set, q.rule, q.left].map(u32::from);
            let [id, flags, subgoal] = [q.id, q.flags, q.sub].map(u32::from);
            let justifications = q.just.map(u32::from);
            let used = self.program.index.body_vars(q.set, q.rule);
            picture.plan(
                [id, set, rule, left, flags, subgoal],
                &justifications[..q.nj.into()],
                std::array::from_fn(|k| (used >> k & 1 != 0).then_some(q.values[k].into())),
            );
        }
        picture
    }
}

/// The tables that the library is lent.
#[derive(Clone)]
pub struct Tested {
    program: Box<[u32; PROGRAM]>,
    /// The words of the program.
    length: usize,
    words: Box<[u32; WORDS]>,
    scalars: [u32; SCALARS],
    report: [u32; REPORT],
}

impl Tested {
    pub fn new() -> Self {
        Tested {
            program: Box::new([0; PROGRAM]),
            length: 0,
            words: Box::new([0; WORDS]),
            scalars: [0; SCALARS],
            report: [0; REPORT],
        }
    }

    fn load(&mut self, text: &[u8]) -> bool {
        let program = &mut self.program[..];
        let words = &mut self.words[..];
        let refused = raw::load(text, program, words, &mut self.scalars, &mut self.report);
        self.length = self.report[0] as usize * ROW;
        refused == 0
    }

    /// How many atoms and plans live.
    pub fn alive(&self) -> [u32; 2] {
        [self.scalars[4], self.scalars[5]]
    }
}

impl Side for Tested {
    fn call(&mut self, call: &Call) -> bool {
        if let Call::Load(text) = call {
            return self.load(text);
        }
        let program = &self.program[..self.length];
        let words = &mut self.words[..];
        let (scalars, report) = (&mut self.scalars, &mut self.report);
        let refused = match call {
            Call::Load(_) => unreachable!("a load is done above"),
            Call::Sense(rows) => raw::sense(program, words, scalars, rows.as_flattened(), report),
            Call::Step => raw::step(program, words, scalars, report),
            Call::Answer(n) => raw::answer(program, words, scalars, *n, report),
            Call::Delete(id) => raw::delete(program, words, scalars, *id, report),
            Call::Run(limit) => raw::run(program, words, scalars, *limit, report),
        };
        refused == 0
    }

    fn picture(&self) -> Picture {
        pictured(&self.program[..self.length], &self.words, &self.scalars)
    }
}

/// A controller, whose types guarantee what the tested calls test.
pub struct Untested(Controller);

impl Untested {
    pub fn new() -> Self {
        Untested(Controller::load(b"set rule part op i p a b\n").expect("the empty program loads"))
    }
}

impl Side for Untested {
    fn call(&mut self, call: &Call) -> bool {
        let c = &mut self.0;
        match call {
            Call::Load(text) => Controller::load(text).map(|loaded| *c = loaded).is_ok(),
            Call::Sense(rows) => c.sense(rows).is_ok(),
            Call::Step => c.step().is_ok(),
            Call::Answer(n) => c.answer(*n == 1).is_ok(),
            Call::Delete(id) => c.delete(*id).is_ok(),
            Call::Run(limit) => c.run(*limit).is_ok(),
        }
    }

    fn picture(&self) -> Picture {
        pictured(self.0.program(), self.0.words(), self.0.scalars())
    }
}

fn pictured(program: &[u32], words: &[u32; WORDS], scalars: &[u32; SCALARS]) -> Picture {
    let [phase, cycle, next, waiting, atoms, plans] = *scalars;
    let mut picture = Picture::new([phase, cycle, next, waiting]);
    for k in 0..atoms as usize {
        let columns = [ATOM_ID, ATOM_P, ATOM_A, ATOM_B, ATOM_CYCLE];
        picture.atom(columns.map(|column| words[column + k]));
    }
    for q in words[PLANS_AT..].chunks_exact(PLAN).take(plans as usize) {
        let justifications = q[6..10].split(|&id| id == 0).next().unwrap_or_default();
        let is_used = |k: usize| {
            let variable = 8 - k as u32;
            let uses =
                |r: &[u32]| r[..3] == [q[1], q[2], 3] && [r[4], r[6], r[7]].contains(&variable);
            program.chunks_exact(ROW).any(uses)
        };
        picture.plan(
            std::array::from_fn(|k| q[k]),
            justifications,
            std::array::from_fn(|k| is_used(k).then_some(q[10 + k])),
        );
    }
    picture
}
