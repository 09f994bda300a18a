//! What the tests are built from. A program is written without its names line, rows parted by ` | `, so that its first row is line 2.
#![allow(dead_code)]

use plain::{Atom, Config, Did, How, Made, Plan, Program, Step, NO_VALUE};

pub const ATOM: &str = "0 0 0 41 0 1 0 0";
pub const OBJ: &str = "1 1 1 1 -1 1 -2 -3";
/// A set that schedules every plan.
pub const SCHEDULE: &str = "2 1 2 3 -1 0 -9 -9 | 2 1 2 12 -1 0 2 0 | 2 1 3 23 -1 0 2 0";
/// The program that document 01 prints.
pub const PRINTED: &str =
    "0 0 0 40 0 1 4095 2 | 1 1 1 1 -1 1 -2 -3 | 1 1 3 36 -9 3 -2 -3 | 2 1 2 3 -1 0 -9 -9 | 2 1 2 12 -1 0 2 0 | 2 1 3 23 -1 0 2 0";

pub fn text(rows: &str) -> Vec<u8> {
    let mut text = String::from("set rule part op i p a b\n");
    for row in rows.split(" | ").filter(|r| !r.is_empty()) {
        text += row;
        text += "\n";
    }
    text.into_bytes()
}

pub fn rows(parts: &[&str]) -> String {
    parts.join(" | ")
}

pub fn repeat(n: usize, row: &str) -> String {
    vec![row; n].join(" | ")
}

pub fn program(rows: &str) -> Program {
    plain::load(&text(rows)).unwrap_or_else(|(n, line)| panic!("refused {n} at {line}: {rows}"))
}

/// A program and its configuration, for calls in turn.
pub struct Host {
    pub program: Program,
    pub config: Config,
}

impl Host {
    pub fn new(rows: &str) -> Self {
        let program = program(rows);
        let config = plain::fresh(&program);
        Host { program, config }
    }

    pub fn with(rows: &str, config: Config) -> Self {
        Host {
            program: program(rows),
            config,
        }
    }

    /// Goes on with another program.
    pub fn under(&mut self, rows: &str) {
        self.program = program(rows);
    }

    /// The given call, or its refusal, which must leave the configuration as it was.
    fn call<T>(
        &mut self,
        call: impl FnOnce(&Program, &mut Config) -> Result<T, u32>,
    ) -> Result<T, u32> {
        let before = self.config.clone();
        let done = call(&self.program, &mut self.config);
        if done.is_err() {
            assert_eq!(self.config, before);
        }
        done
    }

    /// Made and gone.
    pub fn sense(&mut self, rows: &[[u32; 4]]) -> Result<(u32, u32), u32> {
        self.call(|p, c| plain::sense(p, c, rows))
            .map(|d| (d.made, d.gone))
    }

    pub fn step(&mut self) -> Result<Step, u32> {
        self.call(plain::step)
    }

    pub fn answer(&mut self, n: u32) -> Result<(u32, u32), u32> {
        self.call(|p, c| plain::answer(p, c, n))
            .map(|d| (d.made, d.gone))
    }

    /// Gone.
    pub fn delete(&mut self, id: u32) -> Result<u32, u32> {
        self.call(|p, c| plain::delete(p, c, id)).map(|d| d.gone)
    }

    pub fn run(&mut self, limit: u32) -> Result<plain::Run, u32> {
        self.call(|p, c| plain::run(p, c, limit))
    }

    /// The ids alive.
    pub fn alive(&self) -> Vec<u32> {
        let mut ids: Vec<_> = self
            .config
            .atoms
            .iter()
            .map(|x| x.id)
            .chain(self.config.plans.iter().map(|q| q.id))
            .collect();
        ids.sort();
        ids
    }

    /// Id, p, a and b of the live atoms.
    pub fn atoms(&self) -> Vec<[u32; 4]> {
        self.config
            .atoms
            .iter()
            .map(|x| [x.id, x.p, x.a, x.b])
            .collect()
    }

    pub fn plan(&self, id: u32) -> &Plan {
        self.config
            .plans
            .iter()
            .find(|q| q.id == id)
            .expect("the plan is alive")
    }

    /// The justifications of each plan.
    pub fn justifications(&self) -> Vec<Vec<u32>> {
        let ids = |q: &Plan| {
            q.justifications
                .iter()
                .copied()
                .filter(|&j| j != 0)
                .collect()
        };
        self.config.plans.iter().map(ids).collect()
    }
}

/// A rule of set 1 fired and made this.
pub fn fired(rule: u32, made: Option<Made>) -> Did {
    Did::Fired { set: 1, rule, made }
}

/// Plan 2 was executed.
pub fn executed(how: How) -> Did {
    Did::Executed { plan: 2, how }
}

pub fn atom(id: u32, p: u32, a: u32, b: u32) -> Atom {
    Atom {
        id,
        p,
        a,
        b,
        cycle: 0,
    }
}

/// `n` atoms 1 0 0 with ids from `from` on.
pub fn atoms_from(from: u32, n: u32) -> Vec<Atom> {
    (from..from + n).map(|id| atom(id, 1, 0, 0)).collect()
}

/// The values of variables 1, 2 and 3; the others have none.
pub fn three(x: u32, y: u32, z: u32) -> [u32; 8] {
    [x, y, z, NO_VALUE, NO_VALUE, NO_VALUE, NO_VALUE, NO_VALUE]
}

/// A plan of rule 1 of set 1, justified by atom 1.
pub fn plan(id: u32, left: u32, subgoal: u32, flags: u32, values: [u32; 8]) -> Plan {
    Plan {
        id,
        set: 1,
        rule: 1,
        left,
        flags,
        subgoal,
        justifications: [1, 0, 0, 0],
        values,
    }
}

pub fn config(atoms: Vec<Atom>, plans: Vec<Plan>, phase: u32, next: u32) -> Config {
    Config {
        atoms,
        plans,
        phase,
        cycle: 0,
        next,
        waiting: 0,
    }
}
