//! Which rule fires, and with which match: decisions 32 to 40 of docs/DECISIONS.md.

mod common;

use common::*;
use plain::{Did, Made, Stop};

/// The justifications of the plans after a sense of nothing and as many steps as set 1 takes.
fn plans_of(rows: &str) -> Vec<Vec<u32>> {
    let mut host = Host::new(rows);
    host.sense(&[]).unwrap();
    while host.config.phase == 1 {
        host.step().unwrap();
    }
    host.justifications()
}

/// The atoms 7 that the meta rules make.
fn sevens(rows: &str, steps: u32) -> Vec<[u32; 2]> {
    let mut host = Host::new(rows);
    host.sense(&[]).unwrap();
    host.run(steps).unwrap();
    host.config
        .atoms
        .iter()
        .filter(|x| x.p == 7)
        .map(|x| [x.a, x.b])
        .collect()
}

#[test]
fn a_new_variable_twice_in_a_row() {
    assert_eq!(
        plans_of("0 0 0 41 0 1 5 6 | 0 0 0 41 0 1 7 7 | 1 1 1 1 -1 1 -2 -2"),
        [[2]]
    );
    assert_eq!(
        plans_of("0 0 0 41 0 1 5 6 | 0 0 0 41 0 1 2 9 | 1 1 1 1 -1 1 -1 -2"),
        [[2]]
    );
}

#[test]
fn new_variables_of_a_negation() {
    let rule = "1 1 1 1 -1 1 -2 -3 | 1 1 2 2 -9 1 -4 -4";
    assert_eq!(plans_of(&rows(&["0 0 0 41 0 1 5 6", rule])), [[1]]);
    assert!(plans_of(&rows(&["0 0 0 41 0 1 7 7", "0 0 0 41 0 1 5 6", rule])).is_empty());
    // they have no value afterwards, and a later row gives them one
    let mut host =
        Host::new("0 0 0 41 0 1 5 6 | 1 1 1 1 -1 1 -2 -3 | 1 1 2 2 -4 2 -5 -9 | 1 1 2 1 -4 1 -5 -9 | 1 1 3 31 0 9 -4 -5");
    host.sense(&[]).unwrap();
    host.step().unwrap();
    assert_eq!(host.plan(2).values[3..5], [1, 5]);
    // a variable with a value keeps it
    let rule = "1 1 1 1 -1 1 -2 -9 | 1 1 2 2 -9 2 -2 -9";
    assert!(plans_of(&rows(&["0 0 0 41 0 1 5 0", "0 0 0 41 0 2 5 0", rule])).is_empty());
    assert_eq!(
        plans_of(&rows(&["0 0 0 41 0 1 5 0", "0 0 0 41 0 2 6 0", rule])),
        [[1]]
    );
}

#[test]
fn any_binds_nothing() {
    assert_eq!(plans_of("0 0 0 41 0 1 5 6 | 1 1 1 1 -9 1 -9 -9"), [[1]]);
    // 12 with any holds exactly when no plan is scheduled
    let mut host = Host::new(&rows(&[
        ATOM,
        ATOM,
        OBJ,
        "2 1 2 3 -1 0 -9 -9 | 2 1 2 12 -9 0 2 0 | 2 1 3 23 -1 0 2 0",
    ]));
    host.sense(&[]).unwrap();
    host.run(5).unwrap();
    assert_eq!(
        (host.config.phase, host.plan(3).flags, host.plan(4).flags),
        (3, 2, 0)
    );
    // 7 and 9 with any
    assert_eq!(
        sevens(
            &rows(&[ATOM, OBJ, "2 1 2 7 -9 0 1 0 | 2 1 3 21 -9 7 0 0"]),
            3
        ),
        [[0, 0]]
    );
    assert!(sevens(
        &rows(&[ATOM, OBJ, "2 1 2 9 -9 0 -9 0 | 2 1 3 21 -9 7 0 0"]),
        3
    )
    .is_empty());
}

#[test]
fn candidates_of_each_query() {
    let on_plan = |t: &str| rows(&[ATOM, OBJ, "1 1 3 31 0 9 0 0", t]);
    assert_eq!(
        sevens(&on_plan("2 1 2 3 -9 0 -1 -2 | 2 1 3 21 -9 7 -1 -2"), 3),
        [[1, 1]]
    );
    assert_eq!(
        sevens(&on_plan("2 1 2 5 -1 0 -2 0 | 2 1 3 21 -9 7 -1 -2"), 3),
        [[2, 1]]
    );
    // 7: plan, then atom
    let two = rows(&[ATOM, ATOM, "1 1 1 1 -1 1 -9 -9 | 1 1 1 1 -2 1 -9 -9"]);
    let pairs = "2 1 2 7 -1 0 -2 0 | 2 1 2 2 -9 7 -1 -2 | 2 1 3 21 -9 7 -1 -2";
    assert_eq!(
        sevens(&rows(&[&two, pairs]), 9),
        [[3, 1], [4, 1], [4, 2], [5, 2]]
    );
    // 9: each plan that has a subgoal
    let goals = "2 2 2 9 -1 0 -2 0 | 2 2 2 2 -9 7 -1 -2 | 2 2 3 21 -9 7 -1 -2";
    let mut host = Host::new(&rows(&[ATOM, OBJ, "1 1 3 36 -9 3 0 0", SCHEDULE, goals]));
    host.sense(&[]).unwrap();
    host.run(10).unwrap();
    host.sense(&[]).unwrap();
    host.run(3).unwrap();
    assert_eq!(host.atoms(), [[1, 1, 0, 0], [3, 3, 0, 0], [4, 7, 2, 3]]);
    // 11: each plan whose flag is set
    let flags = "2 1 2 3 -1 0 -9 -9 | 2 1 2 12 -1 0 16 0 | 2 1 3 23 -1 0 16 0 | 2 2 2 11 -1 0 16 0 | 2 2 2 2 -9 7 -1 -9 | 2 2 3 21 -9 7 -1 0";
    assert_eq!(sevens(&rows(&[ATOM, OBJ, flags]), 5), [[2, 0]]);
    // 13: the present cycle
    let mut host = Host::new("1 1 2 13 0 0 -1 0 | 1 1 2 2 -9 7 -1 -9 | 1 1 3 21 -9 7 -1 0");
    for _ in 0..2 {
        host.sense(&[]).unwrap();
        host.run(9).unwrap();
    }
    assert_eq!(host.atoms(), [[1, 7, 0, 0], [2, 7, 1, 0]]);
}

#[test]
fn ids_and_arguments_are_the_same_numbers() {
    assert_eq!(
        plans_of("0 0 0 41 0 1 2 0 | 0 0 0 41 0 3 9 9 | 1 1 1 1 -1 1 -2 -9 | 1 1 1 1 -2 3 -9 -9"),
        [[1, 2]]
    );
}

#[test]
fn the_search_goes_on_to_a_match_that_counts() {
    assert_eq!(plans_of(&rows(&[ATOM, ATOM, OBJ])), [[1], [2]]);
    // and back to another candidate of an earlier row
    let atoms = "0 0 0 41 0 1 5 0 | 0 0 0 41 0 1 6 0 | 0 0 0 41 0 2 6 0";
    assert_eq!(
        plans_of(&rows(&[atoms, "1 1 1 1 -9 1 -1 -9 | 1 1 1 1 -9 2 -1 -9"])),
        [[2, 3]]
    );
}

#[test]
fn justifications_are_a_set() {
    let two = rows(&[ATOM, ATOM, "1 1 1 1 -1 1 -9 -9 | 1 1 1 1 -2 1 -9 -9"]);
    assert_eq!(plans_of(&two), [vec![1], vec![1, 2], vec![2]]);
    assert_eq!(
        plans_of(&rows(&[&two, "1 1 3 35 -1 0 0 0"])),
        [vec![1], vec![1, 2], vec![1, 2], vec![2]]
    );
}

#[test]
fn variables_outside_the_body_make_no_new_plan() {
    let two = rows(&[
        ATOM,
        "0 0 0 41 0 2 1 1 | 0 0 0 41 0 2 2 2 | 1 1 1 1 -1 1 -9 -9 | 1 1 2 1 -9 2 -2 -3",
    ]);
    assert_eq!(plans_of(&two), [[1]]);
    assert_eq!(plans_of(&rows(&[&two, "1 1 3 31 0 1 -2 0"])), [[1], [1]]);
}

#[test]
fn a_negation_holds_of_an_id_that_is_no_plans() {
    let mut host =
        Host::new("0 0 0 41 0 5 0 0 | 1 1 2 12 99 0 2 0 | 1 1 2 12 1 0 2 0 | 1 1 3 21 -9 1 0 0");
    host.sense(&[]).unwrap();
    assert_eq!(host.step().unwrap().did, fired(1, Some(Made::Atom(2))));
}

#[test]
fn the_first_rule_that_has_a_match_fires() {
    let mut host = Host::new(&rows(&[
        ATOM,
        "1 1 1 1 -1 9 -9 -9 | 1 2 1 1 -1 1 -9 -9 | 1 3 1 1 -1 1 -9 -9",
    ]));
    host.sense(&[]).unwrap();
    assert_eq!(host.step().unwrap().did, fired(2, Some(Made::Plan(2))));
    assert_eq!(host.step().unwrap().did, fired(3, Some(Made::Plan(3))));
    assert_eq!(host.step().unwrap().did, Did::Moved);
}

#[test]
fn a_row_that_binds_nothing_is_tried_once() {
    // five rows that each fit 250 atoms, then one that fits none: 250^5 tries without the cut
    let same = repeat(5, "1 1 2 1 -9 1 -9 -9");
    let never = "1 1 2 1 -9 9 -9 -9 | 1 1 3 21 -9 7 0 0";
    let mut host = Host::new(&rows(&[&repeat(250, ATOM), &same, never]));
    host.sense(&[]).unwrap();
    assert_eq!(host.run(9).unwrap().stop, Stop::Phase0);
}
