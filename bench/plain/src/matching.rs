//! Matching: the backtracking search over a rule's queries, and the choice of the rule that fires.

use std::ops::ControlFlow::{self, Break, Continue};

use crate::config::{flag, Config, Values, NO_VALUE};
use crate::program::{op, part, variable, Layout, Row, Rule, Variables, ANY};

/// What the rows so far gave.
#[derive(Clone, Copy)]
pub(crate) struct Match {
    pub values: Values,
    /// The ids that the reasons matched, each once, rising, with zeros behind.
    pub justifications: [u32; 4],
}

/// The first rule of the set that has a match that counts, with its number.
pub(crate) fn firing<'a>(
    rows: &[Row],
    layout: &'a Layout,
    config: &Config,
    set: u32,
) -> Option<(u32, &'a Rule, Match)> {
    layout
        .rules_of(set)
        .iter()
        .zip(1..)
        .find_map(|(rule, number)| {
            let search = Search {
                config,
                set,
                number,
                object: rule.is_object(),
                body_variables: rule.body_variables,
            };
            let nothing = Match {
                values: [NO_VALUE; 8],
                justifications: [0; 4],
            };
            let found = search.first_match(&rows[rule.queries()], &nothing)?;
            Some((number, rule, found))
        })
}

struct Search<'a> {
    config: &'a Config,
    set: u32,
    number: u32,
    object: bool,
    body_variables: Variables,
}

impl Search<'_> {
    /// The first complete match of these rows that counts. Rows are tried left to right, candidates in rising id.
    fn first_match(&self, rows: &[Row], found: &Match) -> Option<Match> {
        let Some((row, rest)) = rows.split_first() else {
            return self.counts(found).then_some(*found);
        };
        let pattern = Pattern::new(row, &found.values);
        if row.op % 2 == 0 {
            let any_fits =
                self.candidates(row, &pattern, |c| match pattern.fit(c, &found.values) {
                    Some(_) => Break(()),
                    None => Continue(()),
                });
            return if any_fits.is_break() {
                None
            } else {
                self.first_match(rest, found)
            };
        }
        // Such a row gives the same whichever candidate fits, so a second one is not tried.
        let once = pattern.binds_nothing && row.part != part::REASON;
        let outcome = self.candidates(row, &pattern, |c| {
            let Some(values) = pattern.fit(c, &found.values) else {
                return Continue(());
            };
            let mut after = Match { values, ..*found };
            if row.part == part::REASON {
                insert(&mut after.justifications, c.i);
            }
            match self.first_match(rest, &after) {
                None if !once => Continue(()),
                outcome => Break(outcome),
            }
        });
        match outcome {
            Break(m) => m,
            Continue(()) => None,
        }
    }

    /// Gives the candidates of a query in rising id, those that agree with what the pattern asks, until one breaks.
    fn candidates<B>(
        &self,
        row: &Row,
        pattern: &Pattern,
        mut visit: impl FnMut(Candidate) -> ControlFlow<B>,
    ) -> ControlFlow<B> {
        let mut offer = |i, a, b| {
            let c = Candidate { i, a, b };
            if pattern.agrees(c) {
                visit(c)
            } else {
                Continue(())
            }
        };
        let config = self.config;
        if let op::ATOM | op::NOT_ATOM = row.op {
            let atoms = match pattern.i {
                Some(id) => config
                    .atom_place(id)
                    .map_or(&[][..], |k| &config.atoms[k..=k]),
                None => &config.atoms,
            };
            return atoms
                .iter()
                .filter(|x| x.p == row.p)
                .try_for_each(|x| offer(x.id, x.a, x.b));
        }
        if let op::CYCLE | op::NOT_CYCLE = row.op {
            return offer(0, config.cycle, 0);
        }
        let plans = match pattern.i {
            Some(id) => config
                .plan_place(id)
                .map_or(&[][..], |k| &config.plans[k..=k]),
            None => &config.plans,
        };
        match row.op {
            op::PLAN | op::NOT_PLAN => plans.iter().try_for_each(|q| offer(q.id, q.set, q.rule)),
            op::REMAINDER | op::NOT_REMAINDER => {
                plans.iter().try_for_each(|q| offer(q.id, q.left, 0))
            }
            op::JUSTIFICATION | op::NOT_JUSTIFICATION => plans.iter().try_for_each(|q| {
                let ids = q.justifications.iter().take_while(|&&j| j != 0);
                ids.copied().try_for_each(|j| offer(q.id, j, 0))
            }),
            op::SUBGOAL | op::NOT_SUBGOAL => plans
                .iter()
                .filter(|q| q.subgoal != 0)
                .try_for_each(|q| offer(q.id, q.subgoal, 0)),
            _ => {
                let weight = flag::weight(row.a);
                plans
                    .iter()
                    .filter(|q| q.flags & weight != 0)
                    .try_for_each(|q| offer(q.id, row.a as u32, 0))
            }
        }
    }

    /// An object rule's match counts only if no live plan has the same rule, justifications and values in the body.
    fn counts(&self, found: &Match) -> bool {
        !self.object
            || !self.config.plans.iter().any(|q| {
                q.set == self.set
                    && q.rule == self.number
                    && q.justifications == found.justifications
                    && self
                        .body_variables
                        .places()
                        .all(|v| q.values[v] == found.values[v])
            })
    }
}

/// What stands in the columns i, a and b.
#[derive(Clone, Copy)]
struct Candidate {
    i: u32,
    a: u32,
    b: u32,
}

/// A query's columns under the values so far: the number that each must have, if it is known, and the place of the variable that
/// it gives a value, if it does.
struct Pattern {
    i: Option<u32>,
    a: Option<u32>,
    b: Option<u32>,
    new: [Option<usize>; 3],
    binds_nothing: bool,
}

impl Pattern {
    fn new(row: &Row, values: &Values) -> Self {
        let column = |x: i32| match variable(x) {
            Some(v) if values[v] == NO_VALUE => (None, Some(v)),
            Some(v) => (Some(values[v]), None),
            None if x == ANY => (None, None),
            None => (Some(x as u32), None),
        };
        let ((i, new_i), (a, new_a), (b, new_b)) = (column(row.i), column(row.a), column(row.b));
        let new = [new_i, new_a, new_b];
        Pattern {
            i,
            a,
            b,
            new,
            binds_nothing: new == [None; 3],
        }
    }

    /// Whether each number that is known is the candidate's.
    fn agrees(&self, c: Candidate) -> bool {
        self.i.is_none_or(|n| n == c.i)
            && self.a.is_none_or(|n| n == c.a)
            && self.b.is_none_or(|n| n == c.b)
    }

    /// The values after a candidate that agrees, if it fits: a new variable may stand in two columns, which must then be equal.
    fn fit(&self, c: Candidate, values: &Values) -> Option<Values> {
        let mut after = *values;
        for (place, n) in self.new.into_iter().zip([c.i, c.a, c.b]) {
            let Some(v) = place else { continue };
            if after[v] == NO_VALUE {
                after[v] = n;
            } else if after[v] != n {
                return None;
            }
        }
        Some(after)
    }
}

/// Puts an id among rising ids, unless it is there.
fn insert(ids: &mut [u32; 4], id: u32) {
    let mut carried = id;
    for x in ids {
        if *x == carried {
            return;
        }
        if *x == 0 {
            *x = carried;
            return;
        }
        if carried < *x {
            std::mem::swap(x, &mut carried);
        }
    }
}
