//! The work of the calls, on a program and a configuration that are well formed together.

use crate::answer::{Answer, Did, How, Made, Report};
use crate::config::{key, Config, Plan, FAILED, SCHEDULED, STEPPED};
use crate::program::{value, Index, Row, Rule};
use crate::search::{Filters, Search, FOUND};
use crate::{ANY, MAX_ATOMS, MAX_NEXT, MAX_PLANS};

/// Scratch places of the work.
pub struct Core {
    /// A mark for each id, all zero between the calls.
    pub dead: Box<[u64; 1024]>,
    /// The configuration before a call that may be refused on its way.
    undo: Box<Config>,
    filters: Box<Filters>,
    /// The better search.
    plus: bool,
}

impl Core {
    pub fn new(plus: bool) -> Core {
        Core {
            dead: Box::new([0; 1024]),
            undo: Box::default(),
            filters: Box::new([[0; 64]; 3]),
            plus,
        }
    }

    pub fn sense(&mut self, index: &Index, config: &mut Config, given: &[[u32; 4]]) -> Answer {
        if config.phase != 0 {
            return Err(6);
        }
        if given.len() > 64 {
            return Err(7);
        }
        let mut adds = 0;
        for &[sign, p, a, b] in given {
            if !(1..=2).contains(&sign) || !(1..=255).contains(&p) || a > 65_535 || b > 65_535 {
                return Err(7);
            }
            adds += (sign == 1) as usize;
        }
        let may_refuse =
            config.atom_count + adds > MAX_ATOMS || config.next + adds as u32 > MAX_NEXT;
        if may_refuse {
            (*self.undo).clone_from(config);
        }
        let (next, mut gone) = (config.next, 0);
        for &[sign, p, a, b] in given {
            let mut p = p as u16;
            let (at_least, instead) = index.ceiling[p as usize & 255];
            if instead != 0 && b as u16 >= at_least {
                p = instead as u16;
            }
            let wanted = key(p, a as u16, b as u16);
            if sign == 1 {
                if let Err(no) = config.make_atom(wanted) {
                    config.clone_from(&self.undo);
                    return Err(no);
                }
                continue;
            }
            // what a deletion takes stands at or above its target: the search goes on from there
            let mut from = 0;
            while let Some(at) = config.keys[from..config.atom_count]
                .iter()
                .position(|x| *x == wanted)
            {
                from += at;
                gone += config.delete(config.ids[from], &mut self.dead);
            }
        }
        config.phase = 1;
        Ok(Report {
            did: Did::Ok,
            made: config.next - next,
            gone,
        })
    }

    #[inline]
    pub fn one_step(&mut self, rows: &[Row], index: &Index, config: &mut Config) -> Answer {
        if config.phase as usize > index.sets {
            return self.exec_step(rows, index, config);
        }
        if self.plus {
            self.apply_step::<true>(rows, index, config)
        } else {
            self.apply_step::<false>(rows, index, config)
        }
    }

    fn apply_step<const PLUS: bool>(
        &mut self,
        rows: &[Row],
        index: &Index,
        config: &mut Config,
    ) -> Answer {
        let set = config.phase;
        let (from, to) = (
            index.first[set as usize] as usize,
            index.first[set as usize + 1] as usize,
        );
        for (n, rule) in index.rules[from..to].iter().enumerate() {
            let number = n as u8 + 1;
            let mut search = Search::<PLUS> {
                rows,
                config,
                rule,
                set,
                number,
                values: [0; 8],
                bound: 0,
                just: [0; 4],
                nj: 0,
                scans: 0,
                filters: &mut self.filters,
            };
            if search.go(rule.start as usize) & FOUND == 0 {
                continue;
            }
            let (values, bound, just, nj) = (search.values, search.bound, search.just, search.nj);
            if rule.object {
                if config.next == MAX_NEXT {
                    return Err(8);
                }
                if config.plan_count == MAX_PLANS {
                    return Err(10);
                }
                let id = config.next as u16;
                config.plans[config.plan_count] = Plan {
                    id,
                    set,
                    rule: number,
                    left: (rule.end - rule.body) as u8,
                    nj,
                    bound,
                    just,
                    values,
                    sub: 0,
                    flags: 0,
                };
                config.plan_count += 1;
                config.next += 1;
                return Ok(Report {
                    did: Did::Fired(set, number, Made::Plan(id)),
                    made: 1,
                    gone: 0,
                });
            }
            return self.fire_meta(rows, rule, set, number, values, config);
        }
        config.phase += 1;
        Ok(Report {
            did: Did::MovedOn,
            made: 0,
            gone: 0,
        })
    }

    fn fire_meta(
        &mut self,
        rows: &[Row],
        rule: &Rule,
        set: u8,
        number: u8,
        mut values: [u16; 8],
        config: &mut Config,
    ) -> Answer {
        let adds = rule.adds as usize;
        let may_refuse = adds != 0
            && (config.atom_count + adds > MAX_ATOMS || config.next + adds as u32 > MAX_NEXT);
        if may_refuse {
            (*self.undo).clone_from(config);
        }
        let (next, mut gone, mut last) = (config.next, 0, Made::None);
        for row in &rows[rule.body as usize..rule.end as usize] {
            if row.op == 21 {
                match config.make_atom(key(row.p, value(row.a, &values), value(row.b, &values))) {
                    Ok(id) => {
                        last = Made::Atom(id);
                        if row.i != ANY {
                            values[(-row.i - 1) as usize & 7] = id;
                        }
                    }
                    Err(no) => {
                        config.clone_from(&self.undo);
                        return Err(no);
                    }
                }
                continue;
            }
            let target = value(row.i, &values);
            if row.op == 22 {
                if config.find_atom(target).is_none() {
                    break;
                }
                gone += config.delete(target, &mut self.dead);
                continue;
            }
            let Some(at) = config.find_plan(target) else {
                break;
            };
            match row.op {
                23 => config.plans[at].flags |= 1 << (row.a - 1),
                24 => config.plans[at].flags &= !(1 << (row.a - 1)),
                _ => gone += config.delete(target, &mut self.dead),
            }
        }
        Ok(Report {
            did: Did::Fired(set, number, last),
            made: config.next - next,
            gone,
        })
    }

    fn exec_step(&mut self, rows: &[Row], index: &Index, config: &mut Config) -> Answer {
        let ready = |p: &Plan| p.flags & (SCHEDULED | STEPPED) == SCHEDULED;
        let Some(at) = config.plans[..config.plan_count].iter().position(ready) else {
            if config.cycle == 65535 {
                return Err(11);
            }
            for plan in &mut config.plans[..config.plan_count] {
                plan.flags &= !(SCHEDULED | STEPPED);
            }
            config.cycle += 1;
            config.phase = 0;
            return Ok(Report {
                did: Did::CycleEnded,
                made: 0,
                gone: 0,
            });
        };
        let executed = |id, how, made, gone| {
            Ok(Report {
                did: Did::Executed(id, how),
                made,
                gone,
            })
        };
        let plan = &mut config.plans[at];
        let id = plan.id;
        if plan.left == 0 || plan.sub != 0 {
            plan.flags |= STEPPED;
            return executed(
                id,
                if plan.left == 0 {
                    How::Empty
                } else {
                    How::Held
                },
                0,
                0,
            );
        }
        let row = &rows[(index.rule(plan.set, plan.rule).end - plan.left as u16) as usize];
        let (a, b) = (value(row.a, &plan.values), value(row.b, &plan.values));
        match row.op {
            31 => {
                config.waiting = id;
                Ok(Report {
                    did: Did::Waits(id, row.p as u8, a, b),
                    made: 0,
                    gone: 0,
                })
            }
            32 | 33 => {
                let wanted = key(row.p, a, b);
                let alive = config.keys[..config.atom_count].contains(&wanted);
                let plan = &mut config.plans[at];
                plan.flags |= STEPPED;
                if alive == (row.op == 32) {
                    plan.left -= 1;
                    return executed(id, How::Done, 0, 0);
                }
                plan.flags |= FAILED;
                executed(id, How::Failed, 0, 0)
            }
            34 | 36 => {
                let atom = config.make_atom(key(row.p, a, b))?;
                let plan = &mut config.plans[at];
                plan.flags |= STEPPED;
                if row.op == 34 {
                    plan.left -= 1;
                } else {
                    plan.sub = atom;
                }
                executed(id, How::Done, 1, 0)
            }
            _ => {
                let target = value(row.i, &plan.values);
                plan.flags |= STEPPED;
                if config.find_atom(target).is_none() {
                    config.plans[at].flags |= FAILED;
                    return executed(id, How::Failed, 0, 0);
                }
                config.plans[at].left -= 1;
                executed(id, How::Done, 0, config.delete(target, &mut self.dead))
            }
        }
    }
}
