//! A configuration, and the deletion of an instance with all that was raised from it.

use crate::{MAX_ATOMS, MAX_NEXT, MAX_PLANS};

pub const SCHEDULED: u16 = 1 << 1;
pub const STEPPED: u16 = 1 << 2;
pub const FAILED: u16 = 1 << 3;

#[derive(Clone, Copy, Default)]
pub struct Plan {
    pub id: u16,
    pub set: u8,
    pub rule: u8,
    pub left: u8,
    /// How many justifications.
    pub nj: u8,
    /// The variables that have a value, as a mask.
    pub bound: u8,
    pub just: [u16; 4],
    pub values: [u16; 8],
    /// The subgoal's id, 0 for none.
    pub sub: u16,
    pub flags: u16,
}

#[derive(Clone)]
pub struct Config {
    pub phase: u8,
    pub cycle: u16,
    pub next: u32,
    /// The plan's id, 0 for none.
    pub waiting: u16,
    /// How many are alive.
    pub atom_count: usize,
    pub plan_count: usize,
    pub ids: [u16; MAX_ATOMS],
    /// p << 32 | a << 16 | b.
    pub keys: [u64; MAX_ATOMS],
    pub cycles: [u16; MAX_ATOMS],
    pub plans: [Plan; MAX_PLANS],
}

/// An atom in one word.
#[inline]
pub fn key(p: u16, a: u16, b: u16) -> u64 {
    (p as u64) << 32 | (a as u64) << 16 | b as u64
}

impl Default for Config {
    fn default() -> Config {
        Config {
            phase: 0,
            cycle: 0,
            next: 1,
            waiting: 0,
            atom_count: 0,
            plan_count: 0,
            ids: [0; MAX_ATOMS],
            keys: [0; MAX_ATOMS],
            cycles: [0; MAX_ATOMS],
            plans: [Plan::default(); MAX_PLANS],
        }
    }
}

impl Config {
    pub fn fresh(&mut self) {
        self.phase = 0;
        self.cycle = 0;
        self.next = 1;
        self.waiting = 0;
        self.atom_count = 0;
        self.plan_count = 0;
    }

    #[inline]
    pub fn push_atom(&mut self, key: u64) -> u16 {
        let (n, id) = (self.atom_count, self.next as u16);
        self.ids[n] = id;
        self.keys[n] = key;
        self.cycles[n] = self.cycle;
        self.atom_count = n + 1;
        self.next += 1;
        id
    }

    #[inline]
    pub fn make_atom(&mut self, key: u64) -> Result<u16, u8> {
        if self.next == MAX_NEXT {
            return Err(8);
        }
        if self.atom_count == MAX_ATOMS {
            return Err(9);
        }
        Ok(self.push_atom(key))
    }

    #[inline]
    pub fn find_atom(&self, id: u16) -> Option<usize> {
        self.ids[..self.atom_count].binary_search(&id).ok()
    }

    #[inline]
    pub fn find_plan(&self, id: u16) -> Option<usize> {
        self.plans[..self.plan_count]
            .binary_search_by_key(&id, |p| p.id)
            .ok()
    }

    /// Deletes with all that was raised from it. What is reached stands above: one pass over the plans in rising id finds all.
    pub fn delete(&mut self, target: u16, dead: &mut [u64; 1024]) -> u32 {
        let mark = |dead: &mut [u64; 1024], id: u16| dead[id as usize >> 6] |= 1 << (id & 63);
        let is = |dead: &[u64; 1024], id: u16| dead[id as usize >> 6] >> (id & 63) & 1 != 0;
        mark(dead, target);
        let (n, mut kept, mut atoms_gone) = (self.plan_count, 0, 0u32);
        let from = self.find_atom(target);
        let from_atom =
            from.unwrap_or_else(|| self.ids[..self.atom_count].partition_point(|x| *x < target));
        atoms_gone += from.is_some() as u32;
        for at in 0..n {
            let plan = &mut self.plans[at];
            let goes = plan.id >= target
                && (plan.id == target
                    || plan.just[..plan.nj as usize].iter().any(|j| is(dead, *j)));
            if goes {
                if plan.sub != 0 {
                    mark(dead, plan.sub);
                    atoms_gone += 1;
                }
                continue;
            }
            if plan.sub != 0 && is(dead, plan.sub) {
                plan.sub = 0;
                plan.left -= 1;
            }
            if kept != at {
                self.plans[kept] = self.plans[at];
            }
            kept += 1;
        }
        self.plan_count = kept;
        if atoms_gone != 0 {
            let (mut to, mut removed) = (from_atom, 0);
            let mut at = from_atom;
            while at < self.atom_count {
                let id = self.ids[at];
                if is(dead, id) {
                    dead[id as usize >> 6] &= !(1 << (id & 63));
                    removed += 1;
                    if removed == atoms_gone {
                        at += 1;
                        break;
                    }
                } else {
                    self.ids[to] = id;
                    self.keys[to] = self.keys[at];
                    self.cycles[to] = self.cycles[at];
                    to += 1;
                }
                at += 1;
            }
            // none of the rest goes: it moves as a whole
            self.ids.copy_within(at..self.atom_count, to);
            self.keys.copy_within(at..self.atom_count, to);
            self.cycles.copy_within(at..self.atom_count, to);
            self.atom_count -= atoms_gone as usize;
        }
        dead[target as usize >> 6] &= !(1 << (target & 63)); // of a plan; those of atoms are cleared above
        atoms_gone + (n - kept) as u32
    }
}
