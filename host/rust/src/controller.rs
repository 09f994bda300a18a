//! A program and its configuration, with the calls that change them.

use crate::formed::Formed;
use crate::raw::{self, PLAN, PLANS_AT, SCALARS, WORDS};
use crate::raw::{ATOM_A, ATOM_B, ATOM_CYCLE, ATOM_ID, ATOM_P};
use crate::refusal::Refusal;
use crate::report::{self, Changed, Run, Step};

/// Sign (1 add, 2 withdraw), p, a, b.
pub type Reading = [u32; 4];

/// The reading p(a, b) is there.
pub fn add(p: u32, a: u32, b: u32) -> Reading {
    [1, p, a, b]
}

/// The reading p(a, b) is withdrawn, with all that was raised from it.
pub fn withdraw(p: u32, a: u32, b: u32) -> Reading {
    [2, p, a, b]
}

/// A live atom.
#[derive(Clone, Copy, Debug, PartialEq, Eq)]
pub struct Atom {
    /// Atoms and plans share one run of ids.
    pub id: u32,
    /// The predicate.
    pub p: u32,
    /// The first argument.
    pub a: u32,
    /// The second argument.
    pub b: u32,
    /// The cycle in which it was made.
    pub cycle: u32,
}

/// A live plan.
#[derive(Clone, Copy, Debug, PartialEq, Eq)]
pub struct Plan {
    /// Atoms and plans share one run of ids.
    pub id: u32,
    /// The set of its rule.
    pub set: u32,
    /// The rule in its set.
    pub rule: u32,
    /// How many steps of the rule's body are left.
    pub left: u32,
    /// Flag f has weight 2^(f-1).
    pub flags: u16,
    /// The id of its subgoal, if it has one.
    pub subgoal: Option<u32>,
    /// The ids of the atoms that justify it, rising, with zeros behind.
    pub justifications: [u32; 4],
    /// The values of variables 1 to 8.
    pub values: [Option<u32>; 8],
}

/// A program and its configuration. What a call may refuse is in [`Refusal`]; a refused call changes nothing.
#[derive(Clone, Debug)]
pub struct Controller {
    formed: Formed,
}

impl Controller {
    /// The program of a text, with its initial atoms. Refusals 2 to 5, with the line.
    pub fn load(text: &[u8]) -> Result<Self, Refusal> {
        let formed = Formed::load(text)?;
        Ok(Controller { formed })
    }

    /// Goes on from what [`program`](Self::program), [`words`](Self::words) and [`scalars`](Self::scalars) gave, under the same
    /// [`raw::VERSION`]. Refused with 1 if it is no program with a configuration of it.
    pub fn restore(program: &[u32], words: &[u32], scalars: &[u32]) -> Result<Self, Refusal> {
        let formed = Formed::restore(program, words, scalars)?;
        Ok(Controller { formed })
    }

    /// Goes on with the program of another text. Refusals 2 to 5 with the line, and 1 where the configuration is not one of that
    /// program.
    pub fn replace_program(&mut self, text: &[u8]) -> Result<(), Refusal> {
        self.formed.replace_program(text)
    }

    /// Takes up to 64 readings in order, in phase 0. Refusals 6 to 9.
    pub fn sense(&mut self, rows: &[Reading]) -> Result<Changed, Refusal> {
        self.formed.sense(rows.as_flattened()).map(report::changed)
    }

    /// One step of the deliberation cycle. Refusals 6 and 8 to 11.
    pub fn step(&mut self) -> Result<Step, Refusal> {
        self.formed.step().map(report::step)
    }

    /// Ends the waiting of a plan: whether its external action was done. Refusal 6.
    pub fn answer(&mut self, is_done: bool) -> Result<Changed, Refusal> {
        self.formed.answer(u32::from(is_done)).map(report::changed)
    }

    /// Deletes an atom or a plan with all that was raised from it, while no plan waits. Refusals 6 and 12.
    pub fn delete(&mut self, id: u32) -> Result<Changed, Refusal> {
        self.formed.delete(id).map(report::changed)
    }

    /// Takes steps until phase 0, a plan that waits, the limit (1 to 10,000), or a step that would be refused. Refusals 6 and 7.
    pub fn run(&mut self, limit: u32) -> Result<Run, Refusal> {
        self.formed.run(limit).map(report::run)
    }

    /// 0 sense, 1 to k the rule sets, k + 1 exec.
    pub fn phase(&self) -> u32 {
        self.scalars()[0]
    }

    /// How many cycles have ended.
    pub fn cycle(&self) -> u32 {
        self.scalars()[1]
    }

    /// The id of the next atom or plan.
    pub fn next_id(&self) -> u32 {
        self.scalars()[2]
    }

    /// The plan that waits for an answer.
    pub fn waiting(&self) -> Option<u32> {
        some(self.scalars()[3], 0)
    }

    /// The live atoms in rising id.
    pub fn atoms(&self) -> impl Iterator<Item = Atom> + '_ {
        let live = self.scalars()[4] as usize;
        let words = self.words();
        (0..live).map(|k| Atom {
            id: words[ATOM_ID + k],
            p: words[ATOM_P + k],
            a: words[ATOM_A + k],
            b: words[ATOM_B + k],
            cycle: words[ATOM_CYCLE + k],
        })
    }

    /// The live plans in rising id.
    pub fn plans(&self) -> impl Iterator<Item = Plan> + '_ {
        let live = self.scalars()[5] as usize;
        self.words()[PLANS_AT..]
            .chunks_exact(PLAN)
            .take(live)
            .map(plan)
    }

    /// The program's rows, 8 words each, as [`raw`] takes them.
    pub fn program(&self) -> &[u32] {
        self.formed.program()
    }

    /// The configuration's words, as [`raw`] takes them.
    pub fn words(&self) -> &[u32; WORDS] {
        self.formed.words()
    }

    /// The configuration's scalars, as [`raw`] takes them.
    pub fn scalars(&self) -> &[u32; SCALARS] {
        self.formed.scalars()
    }
}

/// A number, unless it stands for none.
fn some(n: u32, none: u32) -> Option<u32> {
    (n != none).then_some(n)
}

fn plan(words: &[u32]) -> Plan {
    Plan {
        id: words[0],
        set: words[1],
        rule: words[2],
        left: words[3],
        flags: words[4] as u16,
        subgoal: some(words[5], 0),
        justifications: std::array::from_fn(|k| words[6 + k]),
        values: std::array::from_fn(|k| some(words[10 + k], raw::NO_VALUE)),
    }
}
