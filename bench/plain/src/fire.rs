//! A step in phases 1 to k: the first rule that has a match fires.

use crate::calls::{all_or_nothing, Did, Made};
use crate::config::{flag, Config, Values};
use crate::matching::firing;
use crate::program::{op, value, variable, Layout, Row};

/// What the step did, and how many instances went.
pub(crate) fn apply_set(
    rows: &[Row],
    layout: &Layout,
    config: &mut Config,
) -> Result<(Did, u32), u32> {
    let set = config.phase;
    let Some((number, rule, found)) = firing(rows, layout, config, set) else {
        config.phase += 1;
        return Ok((Did::Moved, 0));
    };
    if rule.is_object() {
        let id = config.make_plan(
            set,
            number,
            rule.body_count() as u32,
            found.justifications,
            found.values,
        )?;
        return Ok((
            Did::Fired {
                set,
                rule: number,
                made: Some(Made::Plan(id)),
            },
            0,
        ));
    }
    let body = &rows[rule.body()];
    let adds = body.iter().filter(|r| r.op == op::ADD_ATOM).count();
    let (made, gone) = all_or_nothing(config, adds, |config| act(config, body, found.values))?;
    Ok((
        Did::Fired {
            set,
            rule: number,
            made: made.map(Made::Atom),
        },
        gone,
    ))
}

/// The actions in order, up to the first whose id is not a live instance of its kind. Gives the last atom made and how many
/// instances went.
fn act(config: &mut Config, body: &[Row], mut values: Values) -> Result<(Option<u32>, u32), u32> {
    let mut made = None;
    let mut gone = 0;
    for row in body {
        let id = value(row.i, &values);
        match row.op {
            op::ADD_ATOM => {
                let id = config.make_atom(row.p, value(row.a, &values), value(row.b, &values))?;
                if let Some(v) = variable(row.i) {
                    values[v] = id;
                }
                made = Some(id);
            }
            op::DELETE_ATOM => {
                if config.atom_place(id).is_none() {
                    break;
                }
                gone += config.remove(id);
            }
            _ => {
                let Some(k) = config.plan_place(id) else {
                    break;
                };
                match row.op {
                    op::SET_FLAG => config.plans[k].flags |= flag::weight(row.a),
                    op::CLEAR_FLAG => config.plans[k].flags &= !flag::weight(row.a),
                    _ => gone += config.remove(id),
                }
            }
        }
    }
    Ok((made, gone))
}
