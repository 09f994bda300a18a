//! Whatever is called in whatever order: what 01 says of every call, on programs and calls made at random from a fixed seed.

mod common;

use std::collections::HashMap;

use common::*;
use plain::{Config, Did, How, Made, Program, Row, Stop, ANY};

/// A small generator (xorshift).
struct Random(u64);

impl Random {
    fn below(&mut self, n: u32) -> u32 {
        self.0 ^= self.0 << 13;
        self.0 ^= self.0 >> 7;
        self.0 ^= self.0 << 17;
        (self.0 >> 33) as u32 % n
    }

    fn one_of<T: Copy>(&mut self, of: &[T]) -> T {
        of[self.below(of.len() as u32) as usize]
    }

    /// A variable, a small constant or any.
    fn operand(&mut self) -> i32 {
        match self.below(4) {
            0 => self.below(3) as i32,
            1 => ANY,
            _ => -1 - self.below(4) as i32,
        }
    }

    /// A variable or a small constant.
    fn body_operand(&mut self) -> i32 {
        match self.below(3) {
            0 => self.below(6) as i32,
            _ => -1 - self.below(4) as i32,
        }
    }

    /// A row that could stand in this part of a rule of this kind.
    fn row(&mut self, set: u32, rule: u32, part: u32, object: bool) -> Row {
        let op = match (part, object) {
            (1, _) => 1,
            (2, true) => 1 + self.below(2),
            (2, false) => 1 + self.below(14),
            (_, true) => 31 + self.below(6),
            (_, false) => 21 + self.below(5),
        };
        let p = 1 + self.below(3);
        let flag = self.one_of(&[1, 2, 2, 3, 5]);
        let (i, a, b) = (
            self.one_of(&[ANY, ANY, -1, -1, -2, 2]),
            self.operand(),
            self.operand(),
        );
        let (bi, ba, bb) = (
            self.body_operand(),
            self.body_operand(),
            self.body_operand(),
        );
        let (i, p, a, b) = match op {
            1 | 2 => (i, p, a, b),
            3 | 4 => (i, 0, a, b),
            5..=10 => (i, 0, a, 0),
            11 | 12 => (i, 0, flag, 0),
            13 | 14 => (0, 0, a, 0),
            21 => (self.one_of(&[ANY, -5, -6]), p, ba, bb),
            22 | 25 | 35 => (bi, 0, 0, 0),
            23 | 24 => (bi, 0, flag, 0),
            34 | 36 => (ANY, p, ba, bb),
            _ => (0, p, ba, bb),
        };
        Row {
            set,
            rule,
            part,
            op,
            i,
            p,
            a,
            b,
        }
    }

    /// A program that loads: rows that would be refused where they stand are left out.
    fn program(&mut self) -> Program {
        let mut rows = vec![];
        for _ in 0..self.below(4) {
            rows.push(Row {
                set: 0,
                rule: 0,
                part: 0,
                op: 41,
                i: 0,
                p: 1 + self.below(3),
                a: self.below(3) as i32,
                b: self.below(3) as i32,
            });
        }
        if self.below(2) == 0 {
            rows.push(Row {
                set: 0,
                rule: 0,
                part: 0,
                op: 40,
                i: 0,
                p: 1,
                a: 2,
                b: 3,
            });
        }
        let mut set = 0;
        for _ in 0..1 + self.below(3) {
            let object = self.below(4) > 0;
            let mut rule = 0;
            for _ in 0..1 + self.below(3) {
                let mut longer = rows.clone();
                let here = if rule == 0 { set + 1 } else { set };
                for part in if object { 1..=3 } else { 2..=3 } {
                    let rows = match (part, object) {
                        (1, _) => 1 + self.below(3) / 2,
                        (2, true) => self.below(2),
                        (2, false) => 1 + self.below(3),
                        _ => 1 + self.below(3),
                    };
                    for _ in 0..rows {
                        longer.push(self.row(here, rule + 1, part, object));
                        if let Err((4, _)) = plain::load(&text_of(&longer)) {
                            longer.pop();
                        }
                    }
                }
                if plain::load(&text_of(&longer)).is_ok() {
                    set = here;
                    rule += 1;
                    rows = longer;
                }
            }
        }
        if self.below(4) > 0 {
            // so that plans are executed
            for (part, op, a) in [(2, 3, ANY), (2, 12, 2), (3, 23, 2)] {
                let b = if op == 3 { ANY } else { 0 };
                rows.push(Row {
                    set: set + 1,
                    rule: 1,
                    part,
                    op,
                    i: -1,
                    p: 0,
                    a,
                    b,
                });
            }
        }
        plain::load(&text_of(&rows)).unwrap_or_else(|refusal| panic!("{refusal:?} {rows:?}"))
    }
}

fn text_of(rows: &[Row]) -> Vec<u8> {
    let lines = rows.iter().map(|r| {
        format!(
            "{} {} {} {} {} {} {} {}",
            r.set, r.rule, r.part, r.op, r.i, r.p, r.a, r.b
        )
    });
    text(&lines.collect::<Vec<_>>().join(" | "))
}

fn alive(config: &Config) -> u32 {
    (config.atoms.len() + config.plans.len()) as u32
}

#[test]
fn whatever_is_called() {
    let mut random = Random(0x9e37_79b9_7f4a_7c15);
    let mut seen = HashMap::new();
    for _ in 0..400 {
        let program = random.program();
        assert_eq!(plain::load(&text_of(&program.rows)), Ok(program.clone()));
        let config = plain::fresh(&program);
        let mut host = Host { program, config };
        for _ in 0..60 {
            let before = host.config.clone();
            // mostly a call in its turn
            let call = match random.below(5) {
                0 => random.below(12),
                _ if before.phase == 0 => 0,
                _ if before.waiting != 0 => 7,
                _ => random.one_of(&[3, 3, 10]),
            };
            // `Host` asserts that a refused call leaves the configuration as it was
            let changed = match call {
                0..=2 => {
                    let rows: Vec<_> = (0..random.below(4))
                        .map(|_| {
                            [
                                1 + random.below(2),
                                1 + random.below(3),
                                random.below(3),
                                random.below(3),
                            ]
                        })
                        .collect();
                    host.sense(&rows)
                }
                3..=6 => host.step().map(|step| {
                    *seen.entry(kind(step.did)).or_insert(0) += 1;
                    (step.made, step.gone)
                }),
                7..=8 => host.answer(random.below(2)),
                9 => host
                    .delete(1 + random.below(before.next))
                    .map(|gone| (0, gone)),
                _ => {
                    let limit = 1 + random.below(20);
                    let mut steps = Host {
                        program: host.program.clone(),
                        config: before.clone(),
                    };
                    let run = host.run(limit);
                    if let Ok(run) = run {
                        // a run is its steps in turn
                        (0..run.steps).for_each(|_| assert!(steps.step().is_ok()));
                        assert_eq!(steps.config, host.config);
                        match run.stop {
                            Stop::Phase0 => assert_eq!(host.config.phase, 0),
                            Stop::Waiting => assert_ne!(host.config.waiting, 0),
                            Stop::Limit => assert_eq!(run.steps, limit),
                            Stop::Refused(n) => assert_eq!(steps.step(), Err(n)),
                        }
                    }
                    run.map(|r| (r.made, r.gone))
                }
            };
            match changed {
                Ok((made, gone)) => {
                    assert_eq!(made, host.config.next - before.next);
                    assert_eq!(alive(&before) + made, alive(&host.config) + gone);
                }
                Err(number) => assert!((6..=12).contains(&number), "{number}"),
            }
            // what an accepted call leaves is well formed
            let number = if host.config.waiting != 0 { 6 } else { 12 };
            assert_eq!(host.delete(0), Err(number));
        }
    }
    // every kind of step was among them
    let kinds = [
        "fired plan",
        "fired atom",
        "fired none",
        "moved",
        "empty",
        "held",
        "done",
        "failed",
        "waits",
        "ended",
    ];
    assert!(kinds.iter().all(|k| seen.get(k) > Some(&20)), "{seen:?}");
}

fn kind(did: Did) -> &'static str {
    match did {
        Did::Fired {
            made: Some(Made::Plan(_)),
            ..
        } => "fired plan",
        Did::Fired {
            made: Some(Made::Atom(_)),
            ..
        } => "fired atom",
        Did::Fired { made: None, .. } => "fired none",
        Did::Moved => "moved",
        Did::Executed {
            how: How::Empty, ..
        } => "empty",
        Did::Executed { how: How::Held, .. } => "held",
        Did::Executed { how: How::Done, .. } => "done",
        Did::Executed {
            how: How::Failed, ..
        } => "failed",
        Did::Waits { .. } => "waits",
        Did::Ended => "ended",
    }
}
