//! Refusal 1: whether program and configuration are well formed.

use std::mem::replace;

use crate::config::{atom_place, Atom, Config, Plan, MAX_ATOMS, MAX_NEXT, MAX_PLANS, NO_VALUE};
use crate::program::{op, value, Layout, Program, Row, Rule};
use crate::{refusal, scan};

/// Where the program's rules stand, if program and configuration are well formed.
pub(crate) fn check(program: &Program, config: &Config) -> Result<Layout, u32> {
    match scan::layout(&program.rows) {
        Some(layout) if is_formed(&program.rows, &layout, config) => Ok(layout),
        _ => Err(refusal::NOT_WELL_FORMED),
    }
}

fn is_formed(rows: &[Row], layout: &Layout, config: &Config) -> bool {
    config.atoms.len() <= MAX_ATOMS
        && config.plans.len() <= MAX_PLANS
        && config.phase <= layout.set_count() + 1
        && config.cycle <= 65_535
        && (1..=MAX_NEXT).contains(&config.next)
        && rises(config.atoms.iter().map(|x| x.id), config.next)
        && rises(config.plans.iter().map(|q| q.id), config.next)
        && config.atoms.iter().all(is_formed_atom)
        && are_formed_plans(rows, layout, config)
        && is_formed_waiting(rows, layout, config)
}

/// Ids are 1 or more, below the next id, and rise.
fn rises(ids: impl Iterator<Item = u32>, next: u32) -> bool {
    let mut last = 0;
    for id in ids {
        if id <= last || id >= next {
            return false;
        }
        last = id;
    }
    true
}

fn is_formed_atom(x: &Atom) -> bool {
    (1..=255).contains(&x.p) && x.a <= 65_535 && x.b <= 65_535 && x.cycle <= 65_535
}

fn are_formed_plans(rows: &[Row], layout: &Layout, config: &Config) -> bool {
    let mut is_subgoal = [false; MAX_ATOMS];
    // How many atoms are older than the plan: its justifications are among these, its subgoal among the others.
    let mut older = 0;
    for q in &config.plans {
        let rest = config.atoms[older..].iter();
        older += rest.take_while(|x| x.id < q.id).count();
        let (before, after) = config.atoms.split_at(older);
        if after.first().is_some_and(|x| x.id == q.id) {
            return false;
        }
        let rule = match layout.rule(q.set, q.rule) {
            Some(rule) if rule.is_object() => rule,
            _ => return false,
        };
        if !is_justified(q, before) || !is_instance_of(q, rule) {
            return false;
        }
        if q.subgoal != 0 {
            let Some(k) = atom_place(after, q.subgoal) else {
                return false;
            };
            let shared = replace(&mut is_subgoal[older + k], true);
            if shared || !makes(rule.first_step(rows, q.left), q, &after[k]) {
                return false;
            }
        }
    }
    true
}

/// One to four justifications, rising, each among the atoms older than the plan.
fn is_justified(q: &Plan, older: &[Atom]) -> bool {
    let count = q.justifications.iter().take_while(|&&j| j != 0).count();
    let (ids, rest) = q.justifications.split_at(count);
    count > 0
        && rest.iter().all(|&j| j == 0)
        && ids.windows(2).all(|w| w[0] < w[1])
        && ids.iter().all(|&j| atom_place(older, j).is_some())
}

fn is_instance_of(q: &Plan, rule: &Rule) -> bool {
    q.left as usize <= rule.body_count()
        && q.flags <= 65_535
        && q.values.iter().all(|&v| v <= NO_VALUE)
        && rule
            .body_variables
            .places()
            .all(|v| q.values[v] != NO_VALUE)
}

/// Whether the plan's first step is a subgoal step equal to the atom.
fn makes(step: Option<&Row>, q: &Plan, x: &Atom) -> bool {
    step.is_some_and(|r| {
        r.op == op::MAKE_SUBGOAL && x.is(r.p, value(r.a, &q.values), value(r.b, &q.values))
    })
}

/// A waiting plan is alive, in exec phase, with an external action first.
fn is_formed_waiting(rows: &[Row], layout: &Layout, config: &Config) -> bool {
    let is_external = |q: &Plan| {
        let rule = layout.rule(q.set, q.rule)?;
        Some(rule.first_step(rows, q.left)?.op == op::EXTERNAL)
    };
    config.waiting == 0
        || config.phase == layout.set_count() + 1
            && config
                .plan_place(config.waiting)
                .is_some_and(|k| is_external(&config.plans[k]) == Some(true))
}
