//! A step in phase k + 1: the lowest plan that is due executes its first step, or the cycle ends.

use crate::calls::{Did, How};
use crate::config::{flag, Config};
use crate::program::{op, value, Layout, Row};
use crate::refusal;

/// What the step did, and how many instances went.
pub(crate) fn execute(
    rows: &[Row],
    layout: &Layout,
    config: &mut Config,
) -> Result<(Did, u32), u32> {
    let Some(k) = config.plans.iter().position(|q| q.is_due()) else {
        end_cycle(config)?;
        return Ok((Did::Ended, 0));
    };
    let plan = config.plans[k];
    let rule = layout
        .rule(plan.set, plan.rule)
        .expect("a plan's rule is one of the program");
    let Some(row) = rule.first_step(rows, plan.left) else {
        return Ok(executed(config, k, How::Empty));
    };
    if plan.subgoal != 0 {
        return Ok(executed(config, k, How::Held));
    }
    let (p, a, b) = (
        row.p,
        value(row.a, &plan.values),
        value(row.b, &plan.values),
    );
    let how = match row.op {
        op::EXTERNAL => {
            config.waiting = plan.id;
            return Ok((
                Did::Waits {
                    plan: plan.id,
                    p,
                    a,
                    b,
                },
                0,
            ));
        }
        op::TEST | op::TEST_NONE => {
            if config.has_atom(p, a, b) == (row.op == op::TEST) {
                How::Done
            } else {
                How::Failed
            }
        }
        op::MAKE_ATOM => {
            config.make_atom(p, a, b)?;
            How::Done
        }
        op::REMOVE_ATOM => {
            let target = value(row.i, &plan.values);
            if config.atom_place(target).is_some() {
                config.plans[k].left -= 1;
                let done = executed(config, k, How::Done);
                // The deletion may take the plan itself.
                return Ok((done.0, config.remove(target)));
            }
            How::Failed
        }
        _ => {
            config.plans[k].subgoal = config.make_atom(p, a, b)?;
            return Ok(executed(config, k, How::Done));
        }
    };
    if how == How::Done {
        config.plans[k].left -= 1;
    }
    Ok(executed(config, k, how))
}

/// Sets stepped, and failed if it did.
fn executed(config: &mut Config, k: usize, how: How) -> (Did, u32) {
    let plan = &mut config.plans[k];
    plan.flags |= flag::STEPPED;
    if how == How::Failed {
        plan.flags |= flag::FAILED;
    }
    (Did::Executed { plan: plan.id, how }, 0)
}

fn end_cycle(config: &mut Config) -> Result<(), u32> {
    if config.cycle == 65_535 {
        return Err(refusal::LAST_CYCLE);
    }
    for q in &mut config.plans {
        q.flags &= !(flag::SCHEDULED | flag::STEPPED);
    }
    config.cycle += 1;
    config.phase = 0;
    Ok(())
}
