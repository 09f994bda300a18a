//! Deletion: what is reached from a target by links, from a plan to its subgoal and from an atom to each plan it justifies.

use crate::config::{atom_place, Config, MAX_ATOMS};

impl Config {
    /// Deletes the target and all that is reached from it, and gives how many went; none if it is not alive. Links lead to higher
    /// ids only, so one pass over the plans in rising id finds every plan that goes.
    pub(crate) fn remove(&mut self, target: u32) -> u32 {
        let Config { atoms, plans, .. } = self;
        let before = atoms.len() + plans.len();
        // Atoms that go, by their place.
        let mut dead = [false; MAX_ATOMS];
        let is_dead =
            |dead: &[bool], id: u32| id >= target && atom_place(atoms, id).is_some_and(|k| dead[k]);
        if let Some(k) = atom_place(atoms, target) {
            dead[k] = true;
        }
        plans.retain(|q| {
            let goes = q.id == target || q.justifications.iter().any(|&j| is_dead(&dead, j));
            if goes {
                if let Some(k) = atom_place(atoms, q.subgoal) {
                    dead[k] = true;
                }
            }
            !goes
        });
        // A surviving plan that loses its subgoal loses its first step too.
        for q in plans.iter_mut() {
            if is_dead(&dead, q.subgoal) {
                q.subgoal = 0;
                q.left -= 1;
            }
        }
        let mut dead = dead.into_iter();
        atoms.retain(|_| dead.next() == Some(false));
        (before - atoms.len() - plans.len()) as u32
    }
}
