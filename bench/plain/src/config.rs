//! The configuration: atom and plan instances, each in rising id, and the scalars.

use crate::program::{op, Program};
use crate::refusal;

pub const MAX_ATOMS: usize = 256;
pub const MAX_PLANS: usize = 64;
/// The next id when all ids are used.
pub const MAX_NEXT: u32 = 65_536;
/// The value of a variable that has none.
pub const NO_VALUE: u32 = 65_536;

/// The values of variables 1 to 8.
pub type Values = [u32; 8];

#[derive(Clone, Copy, Debug, PartialEq, Eq)]
pub struct Atom {
    pub id: u32,
    pub p: u32,
    pub a: u32,
    pub b: u32,
    /// The cycle in which it was made.
    pub cycle: u32,
}

#[derive(Clone, Copy, Debug, PartialEq, Eq)]
pub struct Plan {
    pub id: u32,
    pub set: u32,
    pub rule: u32,
    /// The number of steps of the rule's body that are left.
    pub left: u32,
    /// Flag f has weight 2^(f-1).
    pub flags: u32,
    /// The subgoal's id, or 0.
    pub subgoal: u32,
    /// In rising id, with zeros behind.
    pub justifications: [u32; 4],
    pub values: Values,
}

/// A configuration. Any numbers can be held; a call given one that is not well formed is refused with 1.
#[derive(Clone, Debug, PartialEq, Eq)]
pub struct Config {
    /// In rising id.
    pub atoms: Vec<Atom>,
    /// In rising id.
    pub plans: Vec<Plan>,
    /// 0 sense, 1 to k the rule sets, k + 1 exec.
    pub phase: u32,
    pub cycle: u32,
    pub next: u32,
    /// The plan that waits for an answer, or 0.
    pub waiting: u32,
}

/// Weights of the flags that the interpreter itself looks at.
pub(crate) mod flag {
    pub const SCHEDULED: u32 = 1 << 1;
    pub const STEPPED: u32 = 1 << 2;
    pub const FAILED: u32 = 1 << 3;

    pub fn weight(flag: i32) -> u32 {
        1 << (flag - 1)
    }
}

impl Atom {
    pub(crate) fn is(&self, p: u32, a: u32, b: u32) -> bool {
        self.p == p && self.a == a && self.b == b
    }
}

impl Plan {
    /// Scheduled and not stepped.
    pub(crate) fn is_due(&self) -> bool {
        self.flags & (flag::SCHEDULED | flag::STEPPED) == flag::SCHEDULED
    }
}

impl Config {
    /// No instances, phase 0, cycle 0, next id 1.
    pub fn empty() -> Self {
        Config {
            atoms: Vec::with_capacity(MAX_ATOMS),
            plans: Vec::with_capacity(MAX_PLANS),
            phase: 0,
            cycle: 0,
            next: 1,
            waiting: 0,
        }
    }

    /// The place of a live atom.
    pub(crate) fn atom_place(&self, id: u32) -> Option<usize> {
        atom_place(&self.atoms, id)
    }

    /// The place of a live plan.
    pub(crate) fn plan_place(&self, id: u32) -> Option<usize> {
        self.plans.binary_search_by_key(&id, |q| q.id).ok()
    }

    pub(crate) fn has_atom(&self, p: u32, a: u32, b: u32) -> bool {
        self.atoms.iter().any(|x| x.is(p, a, b))
    }

    /// Whether `n` more atoms meet no limit.
    pub(crate) fn has_room_for_atoms(&self, n: usize) -> bool {
        self.atoms.len() + n <= MAX_ATOMS && self.next as usize + n <= MAX_NEXT as usize
    }

    /// Takes the next id for an instance, or gives the limit that is met: 8 before that of its kind.
    fn take_id(&mut self, has_place: bool, no_place: u32) -> Result<u32, u32> {
        let id = self.next;
        if id == MAX_NEXT {
            return Err(refusal::NO_ID);
        }
        if !has_place {
            return Err(no_place);
        }
        self.next += 1;
        Ok(id)
    }

    /// Makes an atom and gives its id, or the limit that is met: 8 before 9.
    pub(crate) fn make_atom(&mut self, p: u32, a: u32, b: u32) -> Result<u32, u32> {
        let id = self.take_id(self.atoms.len() < MAX_ATOMS, refusal::NO_ATOM_PLACE)?;
        let cycle = self.cycle;
        self.atoms.push(Atom { id, p, a, b, cycle });
        Ok(id)
    }

    /// Makes a plan with no flags and gives its id, or the limit that is met: 8 before 10.
    pub(crate) fn make_plan(
        &mut self,
        set: u32,
        rule: u32,
        left: u32,
        justifications: [u32; 4],
        values: Values,
    ) -> Result<u32, u32> {
        let id = self.take_id(self.plans.len() < MAX_PLANS, refusal::NO_PLAN_PLACE)?;
        self.plans.push(Plan {
            id,
            set,
            rule,
            left,
            flags: 0,
            subgoal: 0,
            justifications,
            values,
        });
        Ok(id)
    }
}

/// The place of an atom among atoms in rising id.
pub(crate) fn atom_place(atoms: &[Atom], id: u32) -> Option<usize> {
    atoms.binary_search_by_key(&id, |x| x.id).ok()
}

impl Default for Config {
    fn default() -> Self {
        Config::empty()
    }
}

/// The configuration that a program starts with: its initial atoms in row order.
pub fn fresh(program: &Program) -> Config {
    let mut config = Config::empty();
    for row in program.set_0().filter(|r| r.op == op::INITIAL) {
        config.atoms.push(Atom {
            id: config.next,
            p: row.p,
            a: row.a as u32,
            b: row.b as u32,
            cycle: 0,
        });
        config.next += 1;
    }
    config
}
