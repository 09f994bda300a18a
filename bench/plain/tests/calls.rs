//! What the calls do: decisions 23 and 41 to 68 of docs/DECISIONS.md.

mod common;

use common::*;
use plain::{Config, Did, How, Made, Plan, Run, Stop};

const EXTERNAL: &str = "1 1 3 31 0 9 0 0";

/// For each atom 1 a plan with the subgoal step p (a, b).
fn nesting(p: u32) -> String {
    rows(&[OBJ, &format!("1 1 3 36 -9 {p} -2 -3"), SCHEDULE])
}

/// A meta rule that matches at any time.
fn always(actions: &str) -> String {
    rows(&["1 1 2 13 0 0 -9 0", actions])
}

/// An object rule with this body; in exec phase the plan 2 of atom 1 7 8.
fn in_exec(body: &str, left: u32, flags: u32) -> Host {
    Host::with(
        &rows(&[OBJ, body]),
        config(
            vec![atom(1, 1, 7, 8)],
            vec![plan(2, left, 0, flags, three(1, 7, 8))],
            2,
            3,
        ),
    )
}

/// The first step after a sense of nothing: what it did, made and gone.
fn first_step(rows: &str) -> (Host, Did, u32, u32) {
    let mut host = Host::new(rows);
    host.sense(&[]).unwrap();
    let step = host.step().unwrap();
    (host, step.did, step.made, step.gone)
}

#[test]
fn sense_tests_its_rows_first() {
    let mut host = Host::new(&repeat(256, ATOM));
    // 41: 7, not 9; in phase 1 6
    let rows = [[1, 1, 0, 0], [3, 1, 0, 0]];
    assert_eq!(host.sense(&rows), Err(7));
    for row in [
        [0, 1, 0, 0],
        [1, 0, 0, 0],
        [1, 256, 0, 0],
        [1, 1, 65_536, 0],
        [2, 1, 0, 65_536],
    ] {
        assert_eq!(host.sense(&[row]), Err(7));
    }
    assert_eq!(host.sense(&[[2, 9, 0, 0]; 65]), Err(7));
    assert_eq!(host.sense(&[[2, 9, 0, 0]; 64]), Ok((0, 0)));
    assert_eq!(host.sense(&rows), Err(6));
}

#[test]
fn ceilings() {
    // 42: of the second argument, and once
    let mut host = Host::new("0 0 0 40 0 1 10 2 | 0 0 0 40 0 2 10 3");
    host.sense(&[[1, 1, 20, 5], [1, 1, 0, 10], [1, 2, 0, 10]])
        .unwrap();
    assert_eq!(host.atoms(), [[1, 1, 20, 5], [2, 2, 0, 10], [3, 3, 0, 10]]);
    // 23: of what is sensed only
    let mut host = Host::new("0 0 0 40 0 1 5 2 | 0 0 0 41 0 1 0 9");
    assert_eq!(host.sense(&[[2, 1, 0, 9]]), Ok((0, 0)));
    assert_eq!(host.atoms(), [[1, 1, 0, 9]]);
}

#[test]
fn withdrawals() {
    let mut host = Host::new("");
    let rows = [
        [1, 1, 0, 0],
        [1, 1, 0, 1],
        [1, 1, 1, 0],
        [1, 2, 0, 0],
        [1, 1, 0, 0],
        [2, 1, 0, 0],
    ];
    assert_eq!(host.sense(&rows), Ok((5, 2)));
    assert_eq!(host.alive(), [2, 3, 4]);
    // 43: an equal atom that has gone with a lower one counts once
    let mut host = Host::new(&nesting(1));
    host.sense(&[[1, 1, 4, 4]]).unwrap();
    host.run(10).unwrap();
    assert_eq!(host.sense(&[[2, 1, 4, 4]]), Ok((0, 3)));
    // 44: whoever made it
    let mut host = Host::new(&nesting(3));
    host.sense(&[[1, 1, 3, 1200]]).unwrap();
    host.run(10).unwrap();
    assert_eq!(host.sense(&[[2, 3, 3, 1200]]), Ok((0, 1)));
    assert_eq!((host.plan(2).left, host.plan(2).subgoal), (0, 0));
    // 63: made and removed in one call counts in both
    assert_eq!(
        Host::new("").sense(&[[1, 1, 0, 0], [2, 1, 0, 0]]),
        Ok((1, 1))
    );
}

#[test]
fn limits_are_no_part_of_a_match() {
    // 45: the first rule that matches is refused, 8 before 9
    let adds_first = rows(&[
        &always("1 1 3 21 -9 2 0 0"),
        "1 2 2 13 0 0 -9 0 | 1 2 3 22 1 0 0 0",
    ]);
    assert_eq!(
        Host::with(&adds_first, config(atoms_from(1, 256), vec![], 1, 257)).step(),
        Err(9)
    );
    assert_eq!(
        Host::with(&adds_first, config(atoms_from(1, 256), vec![], 1, 65_536)).step(),
        Err(8)
    );
    assert_eq!(
        Host::with(&adds_first, config(atoms_from(1, 255), vec![], 1, 65_536)).step(),
        Err(8)
    );
    let plans = |n: u32| {
        (3..3 + n)
            .map(|id| plan(id, 0, 0, 0, three(1, 0, 0)))
            .collect::<Vec<_>>()
    };
    assert_eq!(
        Host::with(OBJ, config(atoms_from(1, 2), plans(64), 1, 67)).step(),
        Err(10)
    );
    assert_eq!(
        Host::with(OBJ, config(atoms_from(1, 2), plans(64), 1, 65_536)).step(),
        Err(8)
    );
    let mut host = Host::with(OBJ, config(atoms_from(1, 2), plans(63), 1, 66));
    assert_eq!(host.step().unwrap().did, fired(1, Some(Made::Plan(66))));
    // exec steps meet them too
    for (body, next, number) in [
        ("1 1 3 34 -9 5 0 0", 258, 9),
        ("1 1 3 36 -9 5 0 0", 258, 9),
        ("1 1 3 36 -9 5 0 0", 65_536, 8),
    ] {
        let q = plan(257, 1, 0, 2, three(1, 0, 0));
        assert_eq!(
            Host::with(
                &rows(&[OBJ, body]),
                config(atoms_from(1, 256), vec![q], 2, next)
            )
            .step(),
            Err(number)
        );
    }
}

#[test]
fn limits_are_tested_as_they_are_met() {
    // 46: a place freed in the call is used; what a refused call did is undone
    let full = || config(atoms_from(1, 256), vec![], 1, 257);
    let mut host = Host::with(&always("1 1 3 22 1 0 0 0 | 1 1 3 21 -9 1 0 0"), full());
    let step = host.step().unwrap();
    assert_eq!(
        (step.did, step.made, step.gone),
        (fired(1, Some(Made::Atom(257))), 1, 1)
    );
    let twice = always("1 1 3 22 1 0 0 0 | 1 1 3 21 -9 1 0 0 | 1 1 3 21 -9 1 0 0");
    assert_eq!(Host::with(&twice, full()).step(), Err(9));
    let mut host = Host::new(&rows(&["0 0 0 41 0 9 0 0", &repeat(255, ATOM)]));
    assert_eq!(
        host.sense(&[[2, 9, 0, 0], [1, 1, 0, 0], [1, 1, 0, 0]]),
        Err(9)
    );
    assert_eq!(host.sense(&[[2, 9, 0, 0], [1, 1, 0, 0]]), Ok((1, 1)));
    let mut host = Host::with("", config(vec![], vec![], 0, 65_535));
    assert_eq!(host.sense(&[[1, 1, 0, 0], [1, 1, 0, 0]]), Err(8));
    assert_eq!(host.sense(&[[1, 1, 0, 0]]), Ok((1, 0)));
}

#[test]
fn what_a_firing_reports() {
    // 47: the last atom made, though deleted since
    let (host, did, made, gone) = first_step(&always(
        "1 1 3 21 -1 1 0 0 | 1 1 3 21 -2 1 0 0 | 1 1 3 22 -2 0 0 0 | 1 1 3 25 9 0 0 0 | 1 1 3 21 -3 1 0 0",
    ));
    assert_eq!((did, made, gone), (fired(1, Some(Made::Atom(2))), 2, 1));
    assert_eq!(host.alive(), [1]);
    // 48: a rule whose first action stops has fired, and fires again
    let (mut host, did, ..) = first_step(&always("1 1 3 22 9 0 0 0"));
    assert_eq!(did, fired(1, None));
    assert_eq!(
        host.run(7),
        Ok(Run {
            steps: 7,
            made: 0,
            gone: 0,
            stop: Stop::Limit
        })
    );
    // 49: a constant id is taken as it is
    let (_, did, _, gone) = first_step(&rows(&[ATOM, &always("1 1 3 22 1 0 0 0")]));
    assert_eq!((did, gone), (fired(1, None), 1));
    for action in ["1 1 3 25 1 0 0 0", "1 1 3 23 1 0 2 0 | 1 1 3 22 1 0 0 0"] {
        let (host, did, _, gone) = first_step(&rows(&[ATOM, &always(action)]));
        assert_eq!((did, gone, host.alive()), (fired(1, None), 0, vec![1]));
    }
}

#[test]
fn actions() {
    let on_plan = |actions: &str| {
        let mut host = Host::new(&rows(&[ATOM, OBJ, "2 1 2 3 -1 0 -9 -9", actions]));
        host.sense(&[]).unwrap();
        host.run(3).unwrap();
        host
    };
    let host = on_plan("2 1 3 21 -2 7 -1 0 | 2 1 3 21 -9 8 -2 0");
    assert_eq!(host.atoms()[1..], [[3, 7, 2, 0], [4, 8, 3, 0]]);
    let host =
        on_plan("2 1 3 23 -1 0 1 0 | 2 1 3 23 -1 0 1 0 | 2 1 3 23 -1 0 16 0 | 2 1 3 24 -1 0 5 0");
    assert_eq!(host.plan(2).flags, 32_769);
    assert_eq!(
        on_plan("2 1 3 23 -1 0 4 0 | 2 1 3 23 -1 0 16 0 | 2 1 3 24 -1 0 16 0")
            .plan(2)
            .flags,
        8
    );
    assert_eq!(on_plan("2 1 3 25 -1 0 0 0").alive(), [1]);
    assert!(on_plan("2 1 3 22 1 0 0 0").alive().is_empty());
    assert_eq!(
        on_plan("2 1 3 22 -1 0 0 0 | 2 1 3 25 -1 0 0 0").alive(),
        [1, 2]
    );
}

#[test]
fn which_plan_exec_takes() {
    // 50: scheduled and not stepped, whatever the other flags
    for (flags, did) in [(10, executed(How::Done)), (6, Did::Ended), (1, Did::Ended)] {
        assert_eq!(
            in_exec("1 1 3 34 -9 5 0 0", 1, flags).step().unwrap().did,
            did
        );
    }
    let plans = [(2, 0), (3, 2), (4, 2)].map(|(id, flags)| plan(id, 0, 0, flags, three(1, 7, 8)));
    let mut host = Host::with(OBJ, config(vec![atom(1, 1, 7, 8)], plans.to_vec(), 2, 5));
    assert_eq!(
        host.step().unwrap().did,
        Did::Executed {
            plan: 3,
            how: How::Empty
        }
    );
}

#[test]
fn steps_of_plans() {
    for (body, how, left, flags) in [
        // 51: a step that fails stays
        ("1 1 3 32 0 9 0 0", How::Failed, 1, 14),
        ("1 1 3 32 0 1 -2 -3", How::Done, 0, 6),
        ("1 1 3 33 0 1 -2 -3", How::Failed, 1, 14),
        ("1 1 3 33 0 1 -3 -2", How::Done, 0, 6),
        // 52: scheduled stays beside stepped
        ("1 1 3 34 -9 5 -2 -1", How::Done, 0, 6),
        // 53: 35 with the id of a plan, or a dead one
        ("1 1 3 35 2 0 0 0", How::Failed, 1, 14),
        ("1 1 3 35 99 0 0 0", How::Failed, 1, 14),
        // 54: the step stays while the link does
        ("1 1 3 36 -9 3 -2 -3", How::Done, 1, 6),
    ] {
        let mut host = in_exec(body, 1, 2);
        assert_eq!(host.step().unwrap().did, executed(how), "{body}");
        assert_eq!(
            (host.plan(2).left, host.plan(2).flags),
            (left, flags),
            "{body}"
        );
    }
    let mut host = in_exec("1 1 3 34 -9 5 -2 -1", 1, 2);
    assert_eq!(host.step().unwrap().made, 1);
    assert_eq!(host.atoms()[1], [3, 5, 7, 1]);
    let mut host = in_exec("1 1 3 36 -9 3 -2 -3", 1, 2);
    host.step().unwrap();
    assert_eq!((host.atoms()[1], host.plan(2).subgoal), ([3, 3, 7, 8], 3));
    host.config.plans[0].flags = 2;
    assert_eq!(host.step().unwrap().did, executed(How::Held));
    // 35 on another atom
    let atoms = vec![atom(1, 1, 7, 8), atom(3, 9, 0, 0)];
    let mut host = Host::with(
        &rows(&[OBJ, "1 1 3 35 3 0 0 0"]),
        config(atoms, vec![plan(2, 1, 0, 2, three(1, 7, 8))], 2, 4),
    );
    assert_eq!(host.step().unwrap().gone, 1);
    assert_eq!((host.alive(), host.plan(2).left), (vec![1, 2], 0));
}

#[test]
fn the_end_of_a_cycle() {
    // 55: clears flags 2 and 3 and no other
    let mut host = in_exec(EXTERNAL, 0, 65_535);
    assert_eq!(host.step().unwrap().did, Did::Ended);
    assert_eq!(
        (host.plan(2).flags, host.config.phase, host.config.cycle),
        (65_529, 0, 1)
    );
    // 56: 11 only where cycle 65,535 would end
    let last = |phase| Config {
        cycle: 65_535,
        ..config(vec![], vec![], phase, 1)
    };
    assert_eq!(Host::with("", last(1)).step(), Err(11));
    assert_eq!(Host::with(OBJ, last(1)).step().unwrap().did, Did::Moved);
    let mut host = in_exec(EXTERNAL, 0, 2);
    host.config.cycle = 65_535;
    assert_eq!(host.step().unwrap().did, executed(How::Empty));
    assert_eq!(host.step(), Err(11));
}

#[test]
fn waiting_and_answers() {
    // 66: the values of a and b, and only the waiting changes
    let mut host = in_exec("1 1 3 31 0 9 -3 -1", 1, 2);
    let step = host.step().unwrap();
    assert_eq!(
        (step.did, step.made, step.gone),
        (
            Did::Waits {
                plan: 2,
                p: 9,
                a: 8,
                b: 1
            },
            0,
            0
        )
    );
    assert_eq!(
        (host.plan(2).flags, host.plan(2).left, host.config.waiting),
        (2, 1, 2)
    );
    // every other call is out of turn
    assert_eq!(host.sense(&[]), Err(6));
    assert_eq!(host.step(), Err(6));
    assert_eq!(host.run(0), Err(6));
    assert_eq!(host.delete(0), Err(6));
    // 57: 6 before 7
    assert_eq!(in_exec(EXTERNAL, 1, 2).answer(7), Err(6));
    assert_eq!(host.answer(7), Err(7));
    assert_eq!(host.answer(2), Err(7));
    for (answer, left, flags) in [(1, 0, 6), (0, 1, 14)] {
        let mut host = in_exec(EXTERNAL, 1, 2);
        host.step().unwrap();
        assert_eq!(host.answer(answer), Ok((0, 0)));
        assert_eq!(
            (host.plan(2).left, host.plan(2).flags, host.config.waiting),
            (left, flags, 0)
        );
    }
}

#[test]
fn deletions() {
    // two cycles: atom 1, its plan 2, the subgoal 3, its plan 4, the subgoal 5
    let deep = || {
        let mut host = Host::new(&nesting(1));
        host.sense(&[[1, 1, 4, 4]]).unwrap();
        host.run(10).unwrap();
        host.sense(&[]).unwrap();
        host.run(10).unwrap();
        assert_eq!(host.alive(), [1, 2, 3, 4, 5]);
        host
    };
    for (id, gone, alive) in [
        (1, 5, &[][..]),
        (2, 4, &[1]),
        (3, 3, &[1, 2]),
        (4, 2, &[1, 2, 3]),
        (5, 1, &[1, 2, 3, 4]),
    ] {
        let mut host = deep();
        assert_eq!(host.delete(id), Ok(gone));
        assert_eq!(host.alive(), alive);
    }
    // not only the first time; and an id is not alive twice
    let mut host = deep();
    assert_eq!(host.delete(5), Ok(1));
    assert_eq!((host.plan(4).left, host.plan(4).subgoal), (0, 0));
    assert_eq!(host.delete(3), Ok(2));
    assert_eq!(host.delete(3), Err(12));
    assert_eq!(host.alive(), [1, 2]);
    // 58: in any phase, which stays; any number that is no live id
    for phase in 0..2 {
        let mut host = Host::new(ATOM);
        if phase == 1 {
            host.sense(&[]).unwrap();
        }
        for id in [0, 2, 65_536, u32::MAX] {
            assert_eq!(host.delete(id), Err(12));
        }
        assert_eq!(host.delete(1), Ok(1));
        assert_eq!(host.config.phase, phase);
    }
}

#[test]
fn a_plan_that_loses_its_subgoal() {
    // 67: its flags stay, and where it is not stepped it goes on in the same cycle
    let body = "1 1 3 36 -9 3 -2 -3 | 1 1 3 34 -9 5 0 0";
    let held = |flags| {
        let atoms = vec![atom(1, 1, 7, 8), atom(3, 3, 7, 8)];
        let mut host = Host::with(
            &rows(&[OBJ, body]),
            config(atoms, vec![plan(2, 2, 3, flags, three(1, 7, 8))], 2, 4),
        );
        assert_eq!(host.delete(3), Ok(1));
        assert_eq!((host.plan(2).left, host.plan(2).flags), (1, flags));
        host
    };
    assert_eq!(held(2).step().unwrap().did, executed(How::Done));
    assert_eq!(held(6).step().unwrap().did, Did::Ended);
}

#[test]
fn run_and_its_refusals() {
    // 59: 6 before 7; a first step that would be refused
    let mut host = Host::new("");
    assert_eq!(host.run(0), Err(6));
    host.sense(&[]).unwrap();
    assert_eq!(host.run(0), Err(7));
    assert_eq!(host.run(10_001), Err(7));
    assert_eq!(
        host.run(10_000),
        Ok(Run {
            steps: 1,
            made: 0,
            gone: 0,
            stop: Stop::Phase0
        })
    );
    let mut host = Host::with(
        "",
        Config {
            cycle: 65_535,
            ..config(vec![], vec![], 1, 1)
        },
    );
    assert_eq!(
        host.run(5),
        Ok(Run {
            steps: 0,
            made: 0,
            gone: 0,
            stop: Stop::Refused(11)
        })
    );
    // 60: phase 0, waiting, the limit, then a refusal
    let mut host = Host::new("");
    host.sense(&[]).unwrap();
    assert_eq!(host.run(1).unwrap().stop, Stop::Phase0);
    assert_eq!(in_exec(EXTERNAL, 1, 2).run(1).unwrap().stop, Stop::Waiting);
    let adding = always("1 1 3 21 -9 2 0 0");
    let almost = || Host::with(&adding, config(vec![], vec![], 1, 65_535));
    assert_eq!(
        almost().run(1),
        Ok(Run {
            steps: 1,
            made: 1,
            gone: 0,
            stop: Stop::Limit
        })
    );
    assert_eq!(
        almost().run(2),
        Ok(Run {
            steps: 1,
            made: 1,
            gone: 0,
            stop: Stop::Refused(8)
        })
    );
    // 63: summed over its steps
    let mut host = Host::new(&always("1 1 3 21 -1 1 0 0 | 1 1 3 22 -1 0 0 0"));
    host.sense(&[]).unwrap();
    assert_eq!(
        host.run(3),
        Ok(Run {
            steps: 3,
            made: 3,
            gone: 3,
            stop: Stop::Limit
        })
    );
    // a step that is refused leaves the steps before it
    let mut host = Host::with(&adding, config(atoms_from(1, 253), vec![], 1, 254));
    assert_eq!(
        host.run(10),
        Ok(Run {
            steps: 3,
            made: 3,
            gone: 0,
            stop: Stop::Refused(9)
        })
    );
    assert_eq!(host.config.atoms.len(), 256);
}

#[test]
fn a_run_is_its_steps_in_turn() {
    let mut one = Host::new(PRINTED);
    one.sense(&[[1, 1, 3, 1200], [1, 1, 4, 1300]]).unwrap();
    let mut other = Host {
        program: one.program.clone(),
        config: one.config.clone(),
    };
    let run = one.run(10_000).unwrap();
    let steps: Vec<_> = (0..run.steps).map(|_| other.step().unwrap()).collect();
    assert_eq!(one.config, other.config);
    assert_eq!(run.made, steps.iter().map(|s| s.made).sum());
    assert_eq!(steps.last().unwrap().did, Did::Ended);
}

#[test]
fn programs_without_sets() {
    // 62: with k = 0 phase 1 is exec
    let (host, did, ..) = first_step("");
    assert_eq!((did, host.config.cycle), (Did::Ended, 1));
}

#[test]
fn cycles_of_atoms() {
    // 68: the cycle in which it was made; initial atoms 0
    let mut host = Host::new(ATOM);
    for p in 2..5 {
        host.sense(&[[1, p, 0, 0]]).unwrap();
        host.step().unwrap();
    }
    assert_eq!(
        host.config
            .atoms
            .iter()
            .map(|x| x.cycle)
            .collect::<Vec<_>>(),
        [0, 0, 1, 2]
    );
}

#[test]
fn what_a_new_plan_is() {
    let (host, did, made, gone) = first_step(&rows(&["0 0 0 41 0 1 7 8", OBJ, EXTERNAL, EXTERNAL]));
    assert_eq!((did, made, gone), (fired(1, Some(Made::Plan(2))), 1, 0));
    assert_eq!(
        host.plan(2),
        &Plan {
            left: 2,
            ..plan(2, 0, 0, 0, three(1, 7, 8))
        }
    );
    let (host, did, ..) = first_step(OBJ);
    assert_eq!((did, host.config.phase), (Did::Moved, 2));
}
