//! The safe calls: the board's keys that calls can show, every kind of answer, every refusal that a host meets first.

use juntiqel::{add, raw, withdraw, Changed, Controller, Did, How, Made, Refusal, Stop};

const NAMES: &str = "set rule part op i p a b\n";
const PRINTED: &str =
    "0 0 0 40 0 1 4095 2|1 1 1 1 -1 1 -2 -3|1 1 3 36 -9 3 -2 -3|2 1 2 3 -1 0 -9 -9|2 1 2 12 -1 0 2 0|2 1 3 23 -1 0 2 0";

fn text(rows: &str) -> Vec<u8> {
    let lines = rows.split('|').filter(|row| !row.is_empty());
    let lines: String = lines.map(|row| format!("{row}\n")).collect();
    format!("{NAMES}{lines}").into_bytes()
}

fn load(rows: &str) -> Controller {
    Controller::load(&text(rows)).unwrap()
}

fn refused<T: std::fmt::Debug>(result: Result<T, Refusal>) -> u32 {
    result.unwrap_err().number
}

/// The answer of a call that makes or removes.
fn changed(made: u32, gone: u32) -> Result<Changed, Refusal> {
    Ok(Changed { made, gone })
}

fn after_printed_run() -> Controller {
    let mut c = load(PRINTED);
    assert_eq!(c.sense(&[add(1, 3, 1200)]), changed(1, 0));
    let run = c.run(10).unwrap();
    assert_eq!(
        (run.steps, run.made, run.gone, run.stop),
        (6, 2, 0, Stop::Phase0)
    );
    c
}

#[test]
fn the_printed_run() {
    let mut c = after_printed_run();
    assert_eq!(
        (c.phase(), c.cycle(), c.next_id(), c.waiting()),
        (0, 1, 4, None)
    );
    let atoms: Vec<_> = c.atoms().map(|x| [x.id, x.p, x.a, x.b, x.cycle]).collect();
    assert_eq!(atoms, [[1, 1, 3, 1200, 0], [3, 3, 3, 1200, 0]]);
    let q = c.plans().next().unwrap();
    assert_eq!((q.id, q.set, q.rule, q.left, q.flags), (2, 1, 1, 1, 0));
    assert_eq!((q.subgoal, q.justifications), (Some(3), [1, 0, 0, 0]));
    assert_eq!(q.values[..4], [Some(1), Some(3), Some(1200), None]);
    assert_eq!(c.sense(&[withdraw(1, 3, 1200)]), changed(0, 3));
    assert_eq!((c.atoms().count(), c.plans().count()), (0, 0));
}

#[test]
fn its_steps() {
    let mut c = load(PRINTED);
    c.sense(&[add(1, 3, 1200)]).unwrap();
    let steps: Vec<_> = (0..6).map(|_| c.step().unwrap()).collect();
    let fired = |set, made| Did::Fired { set, rule: 1, made };
    let executed = Did::Executed {
        plan: 2,
        how: How::Done,
    };
    let did: Vec<_> = steps.iter().map(|s| s.did).collect();
    assert_eq!(
        did,
        [
            fired(1, Some(Made::Plan(2))),
            Did::MovedOn,
            fired(2, None),
            Did::MovedOn,
            executed,
            Did::CycleEnded
        ]
    );
    assert!(steps.iter().all(|s| s.gone == 0));
    assert_eq!(steps.iter().map(|s| s.made).sum::<u32>(), 2);
}

#[test]
fn the_ways_of_an_execution() {
    // a test that fails, an action, and a set that schedules
    let mut c = load("1 1 1 1 -1 1 -9 -9|1 1 3 32 0 9 0 0|1 2 1 1 -1 2 -2 -3|1 2 3 31 0 7 -2 -3|2 1 2 3 -1 0 -9 -9|2 1 2 12 -1 0 2 0|2 1 3 23 -1 0 2 0");
    c.sense(&[add(1, 0, 0), add(2, 5, 6)]).unwrap();
    assert_eq!(refused(c.run(0)), 7);
    assert_eq!(refused(c.run(10_001)), 7);
    let run = c.run(100).unwrap();
    assert_eq!(
        (run.steps, run.made, run.stop),
        (8, 2, Stop::Waiting),
        "{c:?}"
    );
    assert_eq!(c.waiting(), Some(4));
    let failed = c.plans().find(|q| q.id == 3).unwrap();
    assert_eq!(failed.flags, 2 + 4 + 8);
    assert_eq!(
        [
            refused(c.step()),
            refused(c.sense(&[])),
            refused(c.delete(1))
        ],
        [6, 6, 6]
    );
    let before = c.clone();
    assert_eq!(c.answer(true), changed(0, 0));
    assert_eq!(c.plans().find(|q| q.id == 4).unwrap().left, 0);
    let mut other = before;
    assert_eq!(other.answer(false), changed(0, 0));
    let q = other.plans().find(|q| q.id == 4).unwrap();
    assert_eq!((q.left, q.flags), (1, 2 + 4 + 8));
    assert_eq!(c.run(1).unwrap().stop, Stop::Phase0);
}

#[test]
fn a_step_that_waits() {
    let mut c = load("1 1 1 1 -1 1 -2 -3|1 1 3 31 0 9 -2 -3|2 1 2 3 -1 0 -9 -9|2 1 2 12 -1 0 2 0|2 1 3 23 -1 0 2 0");
    c.sense(&[add(1, 5, 6)]).unwrap();
    assert_eq!(c.run(4).unwrap().stop, Stop::Limit);
    let waits = Did::Waits {
        plan: 2,
        p: 9,
        a: 5,
        b: 6,
    };
    assert_eq!(c.step().unwrap().did, waits);
}

#[test]
fn a_meta_rule_makes_an_atom_until_there_is_no_place() {
    let mut c = load("0 0 0 41 0 1 0 0|1 1 2 1 -9 1 -9 -9|1 1 3 21 -9 2 0 0");
    c.sense(&[]).unwrap();
    let fired = Did::Fired {
        set: 1,
        rule: 1,
        made: Some(Made::Atom(2)),
    };
    assert_eq!(c.step().unwrap().did, fired);
    let run = c.run(10_000).unwrap();
    assert_eq!((run.steps, run.stop), (254, Stop::Refused(9)));
    assert_eq!(refused(c.step()), 9);
    assert_eq!(c.delete(2), changed(0, 1));
    assert_eq!(c.step().unwrap().made, 1);
}

#[test]
fn refusals() {
    for (rows, number, line) in [
        ("0 0 0 41 0 1 0", 2, 2),
        ("0 0 0 42 0 1 0 0", 3, 2),
        ("1 1 1 1 -1 1 -2 -3|1 1 3 31 0 9 -4 0", 4, 3),
        ("9 1 1 1 -1 1 -2 -3", 5, 2),
    ] {
        let line = Some(line);
        assert_eq!(
            Controller::load(&text(rows)).unwrap_err(),
            Refusal { number, line }
        );
    }
    let mut c = after_printed_run();
    assert_eq!(refused(c.sense(&[[3, 1, 0, 0]])), 7);
    assert_eq!(refused(c.sense(&[add(1, 0, 0); 65])), 7);
    assert_eq!(refused(c.delete(9)), 12);
    assert_eq!(c.delete(3), changed(0, 1));
}

#[test]
fn refusals_in_words() {
    let refusal = Controller::load(b"").unwrap_err();
    assert_eq!(
        refusal.to_string(),
        "refused 2 at line 1: text not as laid out"
    );
    let refusal = load("").answer(true).unwrap_err();
    assert_eq!(refusal.to_string(), "refused 6: call out of turn");
}

/// All that a host can save.
fn saved(c: &Controller) -> (Vec<u32>, Vec<u32>, Vec<u32>) {
    (
        c.program().to_vec(),
        c.words().to_vec(),
        c.scalars().to_vec(),
    )
}

#[test]
fn another_program() {
    let mut c = after_printed_run();
    let before = saved(&c);
    assert_eq!(
        c.replace_program(b"").unwrap_err(),
        Controller::load(b"").unwrap_err()
    );
    // without rule 1 the plan is no plan of the program
    let not_of_it = Refusal {
        number: 1,
        line: None,
    };
    assert_eq!(c.replace_program(&text("")), Err(not_of_it));
    assert_eq!(saved(&c), before);
    assert_eq!(c.sense(&[]), changed(0, 0));
    let more = format!("{PRINTED}|3 1 2 1 -9 3 -9 -9|3 1 3 21 -9 4 0 0");
    c.replace_program(&text(&more)).unwrap();
    assert_eq!(c.program().len(), before.0.len() + 16);
    assert_eq!(c.run(3).unwrap().steps, 3);
    // in phase 3 it is a configuration of three sets or more, or of two in their exec
    assert_eq!(c.phase(), 3);
    c.replace_program(&text(PRINTED)).unwrap();
    assert_eq!(c.program(), before.0);
}

#[test]
fn what_was_saved_goes_on() {
    let mut c = load(PRINTED);
    c.sense(&[add(1, 3, 1200)]).unwrap();
    let mut other = c.clone();
    while c.phase() != 0 {
        let (program, words, scalars) = saved(&other);
        other = Controller::restore(&program, &words, &scalars).unwrap();
        assert_eq!(saved(&other), (program, words, scalars));
        assert_eq!(other.step(), c.step());
        assert_eq!(saved(&other), saved(&c));
    }
    assert_eq!(other.sense(&[withdraw(1, 3, 1200)]), changed(0, 3));
}

#[test]
fn what_is_no_pair_is_not_restored() {
    let (program, words, scalars) = saved(&after_printed_run());
    let restored = |program: &[u32], words: &[u32], scalars: &[u32]| {
        refused(Controller::restore(program, words, scalars))
    };
    assert_eq!(restored(&[], &words, &scalars), 1);
    assert_eq!(restored(&program[16..], &words, &scalars), 1);
    assert_eq!(restored(&program[..program.len() - 1], &words, &scalars), 1);
    // the atom that justifies the plan has another id; the plan has no steps left but a subgoal
    for (place, word) in [(0, 2), (raw::PLANS_AT + 3, 0)] {
        let mut wrong = words.clone();
        wrong[place] = word;
        assert_eq!(restored(&program, &wrong, &scalars), 1);
    }
    for (place, word) in [(0, 9), (2, 3), (3, 2), (4, 257), (5, u32::MAX)] {
        let mut wrong = scalars.clone();
        wrong[place] = word;
        assert_eq!(restored(&program, &words, &wrong), 1);
    }
}

#[test]
fn tables_of_another_length_are_not_restored() {
    let (program, words, scalars) = saved(&after_printed_run());
    let longer = |table: &[u32]| [table, &[0]].concat();
    for words in [&[][..], &words[1..], &longer(&words)] {
        assert_eq!(refused(Controller::restore(&program, words, &scalars)), 1);
    }
    for scalars in [&[][..], &scalars[1..], &longer(&scalars)] {
        assert_eq!(refused(Controller::restore(&program, &words, scalars)), 1);
    }
}
