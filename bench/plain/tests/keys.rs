//! Document 01's "Keys from the test board".

mod common;

use common::*;
use plain::{How, Made, Stop};

fn after_printed_run() -> Host {
    let mut host = Host::new(PRINTED);
    assert_eq!(host.sense(&[[1, 1, 3, 1200]]), Ok((1, 0)));
    let run = host.run(10).unwrap();
    assert_eq!(
        (run.steps, run.made, run.gone, run.stop),
        (6, 2, 0, Stop::Phase0)
    );
    host
}

#[test]
fn the_printed_run() {
    let host = after_printed_run();
    assert_eq!((host.config.phase, host.config.cycle), (0, 1));
    assert_eq!(host.alive(), [1, 2, 3]);
    assert_eq!(host.atoms(), [[1, 1, 3, 1200], [3, 3, 3, 1200]]);
    let q = host.plan(2);
    assert_eq!((q.set, q.rule, q.left, q.subgoal), (1, 1, 1, 3));
}

#[test]
fn then_a_withdrawal_takes_all_three() {
    let mut host = after_printed_run();
    assert_eq!(host.sense(&[[2, 1, 3, 1200]]), Ok((0, 3)));
    assert!(host.alive().is_empty());
}

#[test]
fn depth_4094_stays_and_4095_becomes_2() {
    let mut host = Host::new(PRINTED);
    host.sense(&[[1, 1, 3, 4094], [1, 1, 3, 4095]]).unwrap();
    assert_eq!(host.atoms(), [[1, 1, 3, 4094], [2, 2, 3, 4095]]);
}

#[test]
fn a_withdrawal_passes_the_ceiling() {
    let mut host = Host::new("0 0 0 40 0 1 4095 2");
    host.sense(&[[1, 1, 3, 4095]]).unwrap();
    host.step().unwrap();
    assert_eq!(host.atoms(), [[1, 2, 3, 4095]]);
    assert_eq!(host.sense(&[[2, 1, 3, 4095]]), Ok((0, 1)));
    assert!(host.alive().is_empty());
}

#[test]
fn deleting_the_subgoal_takes_the_step() {
    let mut host = after_printed_run();
    assert_eq!(host.delete(3), Ok(1));
    assert_eq!(host.alive(), [1, 2]);
    let q = host.plan(2);
    assert_eq!((q.left, q.subgoal), (0, 0));
}

#[test]
fn one_of_two_justifications_takes_the_plan() {
    let mut host = Host::new("1 1 1 1 -9 1 -1 -9 | 1 1 1 1 -9 2 -1 -9");
    host.sense(&[[1, 1, 7, 0], [1, 2, 7, 0]]).unwrap();
    host.step().unwrap();
    assert_eq!(host.justifications(), [[1, 2]]);
    assert_eq!(host.delete(1), Ok(2));
    assert_eq!(host.alive(), [2]);
}

#[test]
fn step_35_on_the_own_justification_takes_both() {
    let mut host = Host::new(&rows(&[
        "1 1 1 1 -1 1 -9 -9",
        "1 1 3 35 -1 0 0 0",
        SCHEDULE,
    ]));
    host.sense(&[[1, 1, 7, 0]]).unwrap();
    host.run(4).unwrap();
    assert_eq!(host.alive(), [1, 2]);
    let step = host.step().unwrap();
    assert_eq!((step.did, step.gone), (executed(How::Done), 2));
    assert!(host.alive().is_empty());
}

#[test]
fn two_reasons_matching_one_atom_are_one_justification() {
    let mut host = Host::new("1 1 1 1 -1 1 -9 -9 | 1 1 1 1 -2 1 -9 -9");
    host.sense(&[[1, 1, 7, 0]]).unwrap();
    assert_eq!(host.step().unwrap().did, fired(1, Some(Made::Plan(2))));
    assert_eq!(host.justifications(), [[1]]);
}

#[test]
fn an_empty_sense() {
    let mut host = Host::new(PRINTED);
    assert_eq!(host.sense(&[]), Ok((0, 0)));
    assert_eq!(host.config.phase, 1);
}

#[test]
fn delete_0() {
    assert_eq!(Host::new(PRINTED).delete(0), Err(12));
}

#[test]
fn atom_256_is_the_last_until_a_delete() {
    let mut host = Host::new("");
    for _ in 0..4 {
        host.sense(&[[1, 1, 0, 0]; 63]).unwrap();
        host.step().unwrap();
    }
    for _ in 252..256 {
        assert_eq!(host.sense(&[[1, 1, 0, 0]]), Ok((1, 0)));
        host.step().unwrap();
    }
    assert_eq!(host.config.atoms.len(), 256);
    assert_eq!(host.sense(&[[1, 1, 0, 0]]), Err(9));
    assert_eq!(host.delete(7), Ok(1));
    assert_eq!(host.sense(&[[1, 1, 0, 0]]), Ok((1, 0)));
    assert_eq!(host.config.atoms.len(), 256);
}
