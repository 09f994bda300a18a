//! Refusal 1: decisions 24 to 31 and 64 of docs/DECISIONS.md. `delete 0` tells: 1 where something is not well formed, else 12, or 6 while a plan waits.

mod common;

use common::*;
use plain::{Atom, Config, Did, Plan, Program, Row, NO_VALUE};

/// A plan for each atom 1 that makes the subgoal 3 (a, b), then acts; and a meta rule.
const RULES: &str = "1 1 1 1 -1 1 -2 -3 | 1 1 3 36 -9 3 -2 -3 | 1 1 3 31 0 9 -1 0 | 2 1 2 13 0 0 -9 0 | 2 1 3 22 1 0 0 0";

#[track_caller]
fn tells(rows: &str, config: Config, number: u32) {
    assert_eq!(Host::with(rows, config).delete(0), Err(number));
}

fn reason() -> Atom {
    atom(1, 1, 4, 5)
}

fn nested() -> Plan {
    plan(2, 2, 3, 0, three(1, 4, 5))
}

fn with_left(left: u32) -> Plan {
    plan(2, left, 0, 0, three(1, 4, 5))
}

/// The plan beside its reason, and the subgoal if it has one.
#[track_caller]
fn beside(q: Plan, number: u32) {
    let mut atoms = vec![reason()];
    if q.subgoal != 0 {
        atoms.push(atom(3, 3, 4, 5));
    }
    tells(RULES, config(atoms, vec![q], 0, 5), number);
}

#[test]
fn limits() {
    for (x, number) in [
        (atom(1, 1, 0, 0), 12),
        (atom(1, 0, 0, 0), 1),
        (atom(1, 255, 65_535, 65_535), 12),
        (atom(1, 256, 0, 0), 1),
        (atom(1, 1, 65_536, 0), 1),
        (atom(1, 1, 0, 65_536), 1),
        // 25: an atom's cycle may be later than the present one
        (
            Atom {
                cycle: 9,
                ..atom(1, 1, 0, 0)
            },
            12,
        ),
        (
            Atom {
                cycle: 65_536,
                ..atom(1, 1, 0, 0)
            },
            1,
        ),
    ] {
        tells(RULES, config(vec![x], vec![], 0, 2), number);
    }
    tells("", config(atoms_from(1, 256), vec![], 0, 257), 12);
    tells("", config(atoms_from(1, 257), vec![], 0, 258), 1);
    // 30: equal plans are not forbidden
    let plans = |n: u32| {
        (2..2 + n)
            .map(|id| plan(id, 0, 0, 0, three(1, 0, 0)))
            .collect()
    };
    tells(OBJ, config(atoms_from(1, 1), plans(64), 0, 66), 12);
    tells(OBJ, config(atoms_from(1, 1), plans(65), 0, 67), 1);
    let scalars = |phase, cycle, next| Config {
        cycle,
        ..config(vec![], vec![], phase, next)
    };
    for formed in [
        scalars(3, 0, 1),
        scalars(0, 65_535, 1),
        scalars(0, 0, 65_536),
    ] {
        tells(RULES, formed, 12);
    }
    for broken in [
        scalars(4, 0, 1),
        scalars(0, 65_536, 1),
        scalars(0, 0, 0),
        scalars(0, 0, 65_537),
    ] {
        tells(RULES, broken, 1);
    }
    // 26: at most as many steps are left as the body has
    beside(with_left(0), 12);
    beside(with_left(2), 12);
    beside(with_left(3), 1);
    beside(with_left(u32::MAX), 1);
    beside(
        Plan {
            flags: 65_535,
            ..with_left(2)
        },
        12,
    );
    beside(
        Plan {
            flags: 65_536,
            ..with_left(2)
        },
        1,
    );
    beside(
        Plan {
            values: three(65_535, 4, 5),
            ..with_left(2)
        },
        12,
    );
    beside(
        Plan {
            values: three(65_537, 4, 5),
            ..with_left(2)
        },
        1,
    );
}

#[test]
fn justifications() {
    for (justifications, number) in [
        ([0, 0, 0, 0], 1),
        ([1, 2, 3, 4], 12),
        ([1, 2, 0, 0], 12),
        ([1, 1, 0, 0], 1),
        // 31: they stand in rising id
        ([2, 1, 0, 0], 1),
        ([1, 0, 2, 0], 1),
        ([0, 1, 0, 0], 1),
        ([9, 0, 0, 0], 1),
    ] {
        let q = Plan {
            justifications,
            ..plan(6, 0, 0, 0, three(1, 0, 0))
        };
        tells(OBJ, config(atoms_from(1, 5), vec![q], 0, 7), number);
    }
    // a link's id order rises
    for (atom_id, plan_id, number) in [(3, 2, 1), (3, 4, 12), (3, 3, 1)] {
        let q = Plan {
            id: plan_id,
            justifications: [atom_id, 0, 0, 0],
            ..with_left(2)
        };
        tells(
            RULES,
            config(vec![atom(atom_id, 1, 4, 5)], vec![q], 0, 5),
            number,
        );
    }
    // a justification is an atom
    let second = Plan {
        id: 3,
        justifications: [2, 0, 0, 0],
        ..with_left(2)
    };
    tells(
        RULES,
        config(vec![reason()], vec![with_left(2), second], 0, 5),
        1,
    );
}

#[test]
fn values() {
    // 27: of the whole body, whatever is left of it
    beside(
        Plan {
            values: three(NO_VALUE, 4, 5),
            ..with_left(0)
        },
        1,
    );
    beside(
        Plan {
            values: three(1, NO_VALUE, 5),
            ..with_left(0)
        },
        1,
    );
    beside(
        Plan {
            values: three(1, 4, NO_VALUE),
            ..with_left(0)
        },
        1,
    );
    // 28: those that the body does not use are free
    beside(
        Plan {
            values: [1, 4, 5, 9, 9, 9, 9, 9],
            ..with_left(0)
        },
        12,
    );
    tells(
        OBJ,
        config(vec![reason()], vec![plan(2, 0, 0, 0, [NO_VALUE; 8])], 0, 3),
        12,
    );
}

#[test]
fn ids() {
    let atoms = |ids: &[u32]| ids.iter().map(|&id| atom(id, 1, 4, 5)).collect::<Vec<_>>();
    for (ids, number) in [
        (&[1, 2][..], 12),
        (&[1, 1], 1),
        (&[2, 1], 1),
        (&[0], 1),
        (&[4], 12),
        (&[5], 1),
    ] {
        tells(RULES, config(atoms(ids), vec![], 0, 5), number);
    }
    for (ids, number) in [
        (&[2, 3][..], 12),
        (&[2, 2], 1),
        (&[3, 2], 1),
        (&[4], 12),
        (&[5], 1),
        (&[1], 1),
    ] {
        let plans = ids.iter().map(|&id| Plan { id, ..with_left(2) }).collect();
        tells(RULES, config(vec![reason()], plans, 0, 5), number);
    }
    tells(RULES, config(atoms(&[1, 2]), vec![with_left(2)], 0, 5), 1);
}

#[test]
fn rules_and_subgoals() {
    // an object rule of the program given
    for (set, rule) in [
        (2, 1),
        (1, 2),
        (0, 0),
        (3, 1),
        (1, 0),
        (u32::MAX, 1),
        (1, u32::MAX),
    ] {
        beside(
            Plan {
                set,
                rule,
                ..with_left(0)
            },
            1,
        );
    }
    beside(nested(), 12);
    tells(RULES, config(vec![reason()], vec![nested()], 0, 5), 1);
    tells(
        RULES,
        config(
            vec![reason()],
            vec![
                nested(),
                Plan {
                    id: 3,
                    ..with_left(2)
                },
            ],
            0,
            5,
        ),
        1,
    );
    // a subgoal is younger than its plan, and no atom is that of two
    let goal = |id| vec![reason(), atom(id, 3, 4, 5)];
    tells(
        RULES,
        config(
            goal(2),
            vec![Plan {
                id: 3,
                subgoal: 2,
                ..nested()
            }],
            0,
            5,
        ),
        1,
    );
    let second = |subgoal| Plan {
        id: 3,
        subgoal,
        ..nested()
    };
    tells(
        RULES,
        config(
            goal(4),
            vec![
                Plan {
                    subgoal: 4,
                    ..nested()
                },
                second(4),
            ],
            0,
            5,
        ),
        1,
    );
    tells(
        RULES,
        config(
            goal(4),
            vec![
                Plan {
                    subgoal: 4,
                    ..nested()
                },
                second(0),
            ],
            0,
            5,
        ),
        12,
    );
    // its first step is a subgoal step equal to the atom
    beside(
        Plan {
            left: 1,
            ..nested()
        },
        1,
    );
    beside(
        Plan {
            left: 0,
            ..nested()
        },
        1,
    );
    for x in [atom(3, 4, 4, 5), atom(3, 3, 9, 5), atom(3, 3, 4, 9)] {
        tells(RULES, config(vec![reason(), x], vec![nested()], 0, 5), 1);
    }
}

#[test]
fn waiting() {
    for (left, phase, waiting, number) in [
        (1, 3, 2, 6),
        (1, 3, 1, 1),
        (1, 3, 9, 1),
        (1, 2, 2, 1),
        (1, 0, 2, 1),
        (2, 3, 2, 1),
        (0, 3, 2, 1),
    ] {
        let c = Config {
            waiting,
            ..config(vec![reason()], vec![with_left(left)], phase, 3)
        };
        tells(RULES, c, number);
    }
    // 29: nothing is asked of its flags
    let q = Plan {
        flags: 4,
        ..with_left(1)
    };
    let mut host = Host::with(
        RULES,
        Config {
            waiting: 2,
            ..config(vec![reason()], vec![q], 3, 3)
        },
    );
    assert_eq!(host.answer(1), Ok((0, 0)));
    assert_eq!(
        (host.plan(2).left, host.plan(2).flags, host.config.waiting),
        (0, 4, 0)
    );
}

#[test]
fn programs() {
    // 24: rows that no text loads to
    let row = Row {
        set: 1,
        rule: 1,
        part: 1,
        op: 1,
        i: -1,
        p: 1,
        a: -2,
        b: -3,
    };
    let number =
        |rows: Vec<Row>| plain::delete(&Program { rows }, &mut Config::empty(), 0).unwrap_err();
    assert_eq!(number(vec![]), 12);
    assert_eq!(number(vec![row]), 12);
    assert_eq!(number(vec![Row { a: 65_535, ..row }]), 12);
    for bad in [
        Row { rule: 2, ..row },
        Row { set: 65_536, ..row },
        Row { a: 65_536, ..row },
        Row { i: -10, ..row },
        Row { p: 256, ..row },
        Row {
            part: 2,
            op: 13,
            i: 0,
            p: 0,
            a: -9,
            b: 0,
            ..row
        },
    ] {
        assert_eq!(number(vec![bad]), 1, "{bad:?}");
    }
}

#[test]
fn every_call_tests_it_first() {
    let mut host = Host::with("", config(vec![], vec![], 5, 1));
    assert_eq!(host.sense(&[[0, 0, 0, 0]]), Err(1));
    assert_eq!(host.step(), Err(1));
    assert_eq!(host.answer(7), Err(1));
    assert_eq!(host.delete(0), Err(1));
    assert_eq!(host.run(0), Err(1));
}

/// An atom 1 7 8, a rule for it with this body, and a set that schedules every plan.
fn one_step(body: &str) -> String {
    let parts = ["0 0 0 41 0 1 7 8", OBJ, body, SCHEDULE];
    parts
        .into_iter()
        .filter(|t| !t.is_empty())
        .collect::<Vec<_>>()
        .join(" | ")
}

#[test]
fn another_program() {
    // 26, 64: a shorter body, another kind, a value that is missing
    for other in [
        one_step(""),
        String::from("1 1 2 13 0 0 -9 0 | 1 1 3 22 1 0 0 0"),
        String::from("1 1 1 1 -1 1 -2 -4 | 1 1 3 31 0 9 -4 0"),
    ] {
        let mut host = Host::new(&one_step("1 1 3 31 0 9 0 0"));
        host.sense(&[]).unwrap();
        host.step().unwrap();
        host.under(&other);
        assert_eq!(host.step(), Err(1), "{other}");
    }
    // 64: a phase that it has not; another subgoal; no external action where the plan waits
    let mut host = Host::new("1 1 1 1 -1 1 0 0 | 2 1 1 1 -1 1 0 0");
    host.sense(&[]).unwrap();
    host.run(2).unwrap();
    host.under("1 1 1 1 -1 1 0 0");
    assert_eq!(host.step(), Err(1));
    let mut host = Host::new(&one_step("1 1 3 36 -9 3 -2 -3"));
    host.sense(&[]).unwrap();
    host.run(5).unwrap();
    host.under(&one_step("1 1 3 36 -9 3 -3 -2"));
    assert_eq!(host.step(), Err(1));
    let mut host = Host::new(&one_step("1 1 3 31 0 9 0 0"));
    host.sense(&[]).unwrap();
    host.run(5).unwrap();
    host.under(&one_step("1 1 3 34 -9 9 0 0"));
    assert_eq!(host.answer(1), Err(1));
    // 28: a plan keeps the values of all its rule's variables
    let mut host = Host::new(&one_step("1 1 3 31 0 9 -1 0"));
    host.sense(&[]).unwrap();
    host.step().unwrap();
    host.under(&one_step("1 1 3 31 0 9 -3 0"));
    host.run(3).unwrap();
    assert_eq!(
        host.step().unwrap().did,
        Did::Waits {
            plan: 2,
            p: 9,
            a: 8,
            b: 0
        }
    );
    // 64: its ceilings hold, its initial atoms are not taken
    let mut host = Host::new("");
    host.under(&rows(&[ATOM, "0 0 0 40 0 1 10 2"]));
    assert_eq!(host.sense(&[[1, 1, 0, 10]]), Ok((1, 0)));
    assert_eq!(host.atoms(), [[1, 2, 0, 10]]);
}
