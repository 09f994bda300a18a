//! The calls. Each tests that program and configuration are well formed (1), its turn (6), its numbers (7), and then works.

use crate::config::{flag, Config};
use crate::execute::execute;
use crate::fire::apply_set;
use crate::formed::check;
use crate::program::{op, Layout, Program};
use crate::refusal;

const MAX_SENSE_ROWS: usize = 64;
const MAX_STEPS: u32 = 10_000;

/// How many instances a call made and how many went.
#[derive(Clone, Copy, Debug, PartialEq, Eq)]
pub struct Changed {
    pub made: u32,
    pub gone: u32,
}

/// What a firing made: the plan, or the last atom.
#[derive(Clone, Copy, Debug, PartialEq, Eq)]
pub enum Made {
    Atom(u32),
    Plan(u32),
}

/// How the execution of a plan's step went.
#[derive(Clone, Copy, Debug, PartialEq, Eq)]
pub enum How {
    Empty,
    /// By its subgoal.
    Held,
    Done,
    Failed,
}

/// What a step did.
#[derive(Clone, Copy, Debug, PartialEq, Eq)]
pub enum Did {
    Fired {
        set: u32,
        rule: u32,
        made: Option<Made>,
    },
    /// To the next phase.
    Moved,
    Executed {
        plan: u32,
        how: How,
    },
    Waits {
        plan: u32,
        p: u32,
        a: u32,
        b: u32,
    },
    /// The cycle.
    Ended,
}

#[derive(Clone, Copy, Debug, PartialEq, Eq)]
pub struct Step {
    pub did: Did,
    pub made: u32,
    pub gone: u32,
}

/// Why a run stopped.
#[derive(Clone, Copy, Debug, PartialEq, Eq)]
pub enum Stop {
    Phase0,
    Waiting,
    Limit,
    /// The next step would be refused with this number.
    Refused(u32),
}

#[derive(Clone, Copy, Debug, PartialEq, Eq)]
pub struct Run {
    pub steps: u32,
    pub made: u32,
    pub gone: u32,
    pub stop: Stop,
}

/// Takes rows of sign (1 add, 2 withdraw), p, a, b in order; then phase 1.
pub fn sense(program: &Program, config: &mut Config, rows: &[[u32; 4]]) -> Result<Changed, u32> {
    check(program, config)?;
    if config.phase != 0 || config.waiting != 0 {
        return Err(refusal::OUT_OF_TURN);
    }
    let is_in_range = |&[sign, p, a, b]: &[u32; 4]| {
        (1..=2).contains(&sign) && (1..=255).contains(&p) && a <= 65_535 && b <= 65_535
    };
    if rows.len() > MAX_SENSE_ROWS || !rows.iter().all(is_in_range) {
        return Err(refusal::OUT_OF_RANGE);
    }
    let next = config.next;
    let adds = rows.iter().filter(|r| r[0] == 1).count();
    let gone = all_or_nothing(config, adds, |config| sense_rows(program, config, rows))?;
    config.phase = 1;
    Ok(Changed {
        made: config.next - next,
        gone,
    })
}

fn sense_rows(program: &Program, config: &mut Config, rows: &[[u32; 4]]) -> Result<u32, u32> {
    let mut gone = 0;
    for &[sign, p, a, b] in rows {
        let p = taken_as(program, p, b);
        if sign == 1 {
            config.make_atom(p, a, b)?;
            continue;
        }
        while let Some(id) = config.atoms.iter().find(|x| x.is(p, a, b)).map(|x| x.id) {
            gone += config.remove(id);
        }
    }
    Ok(gone)
}

/// A sensed p whose second argument reaches its ceiling is taken as another predicate, once.
fn taken_as(program: &Program, p: u32, b: u32) -> u32 {
    let ceiling = program.set_0().find(|r| r.op == op::CEILING && r.p == p);
    match ceiling {
        Some(row) if b >= row.a as u32 => row.b as u32,
        _ => p,
    }
}

/// One step of the deliberation cycle.
pub fn step(program: &Program, config: &mut Config) -> Result<Step, u32> {
    let layout = check(program, config)?;
    if !may_step(config) {
        return Err(refusal::OUT_OF_TURN);
    }
    take_step(program, &layout, config)
}

fn may_step(config: &Config) -> bool {
    config.phase != 0 && config.waiting == 0
}

fn take_step(program: &Program, layout: &Layout, config: &mut Config) -> Result<Step, u32> {
    let next = config.next;
    let (did, gone) = if config.phase <= layout.set_count() {
        apply_set(&program.rows, layout, config)?
    } else {
        execute(&program.rows, layout, config)?
    };
    Ok(Step {
        did,
        made: config.next - next,
        gone,
    })
}

/// Ends the waiting: 1 the action was done, 0 it failed.
pub fn answer(program: &Program, config: &mut Config, answer: u32) -> Result<Changed, u32> {
    check(program, config)?;
    if config.waiting == 0 {
        return Err(refusal::OUT_OF_TURN);
    }
    if answer > 1 {
        return Err(refusal::OUT_OF_RANGE);
    }
    let k = config
        .plan_place(config.waiting)
        .expect("a waiting plan is alive");
    let plan = &mut config.plans[k];
    plan.flags |= flag::STEPPED;
    if answer == 1 {
        plan.left -= 1;
    } else {
        plan.flags |= flag::FAILED;
    }
    config.waiting = 0;
    Ok(Changed { made: 0, gone: 0 })
}

/// Deletes an atom or a plan, with all that is reached from it.
pub fn delete(program: &Program, config: &mut Config, id: u32) -> Result<Changed, u32> {
    check(program, config)?;
    if config.waiting != 0 {
        return Err(refusal::OUT_OF_TURN);
    }
    if config.atom_place(id).is_none() && config.plan_place(id).is_none() {
        return Err(refusal::NOT_ALIVE);
    }
    Ok(Changed {
        made: 0,
        gone: config.remove(id),
    })
}

/// Takes steps until phase 0, waiting, the limit, or a step that would be refused.
pub fn run(program: &Program, config: &mut Config, limit: u32) -> Result<Run, u32> {
    run_watched(program, config, limit, |_, _| ())
}

/// As [`run`]; each step and the configuration after it is shown to `watch`.
pub fn run_watched(
    program: &Program,
    config: &mut Config,
    limit: u32,
    mut watch: impl FnMut(&Step, &Config),
) -> Result<Run, u32> {
    let layout = check(program, config)?;
    if !may_step(config) {
        return Err(refusal::OUT_OF_TURN);
    }
    if !(1..=MAX_STEPS).contains(&limit) {
        return Err(refusal::OUT_OF_RANGE);
    }
    let mut run = Run {
        steps: 0,
        made: 0,
        gone: 0,
        stop: Stop::Limit,
    };
    while run.steps < limit {
        match take_step(program, &layout, config) {
            Ok(step) => {
                run.steps += 1;
                run.made += step.made;
                run.gone += step.gone;
                watch(&step, config);
            }
            Err(number) => {
                run.stop = Stop::Refused(number);
                break;
            }
        }
        if config.phase == 0 {
            run.stop = Stop::Phase0;
            break;
        }
        if config.waiting != 0 {
            run.stop = Stop::Waiting;
            break;
        }
    }
    Ok(run)
}

/// Does a work that makes at most `adds` atoms, and undoes it if it is refused. Only a work that could meet a limit half way is done
/// with a copy at hand.
pub(crate) fn all_or_nothing<T>(
    config: &mut Config,
    adds: usize,
    work: impl FnOnce(&mut Config) -> Result<T, u32>,
) -> Result<T, u32> {
    if config.has_room_for_atoms(adds) {
        return work(config);
    }
    let before = config.clone();
    let done = work(config);
    if done.is_err() {
        *config = before;
    }
    done
}
