//! The calls on lent words: wrong lengths, words beside what was lent, and what is no program or configuration.

use juntiqel::raw::{self, PLANS_AT, PROGRAM, REPORT, ROW, SCALARS, WORDS};
use juntiqel::raw::{ATOM_A, ATOM_B, ATOM_CYCLE, ATOM_ID, ATOM_P};

const TEXT: &[u8] = b"set rule part op i p a b
1 1 1 1 -1 1 -2 -3
1 1 3 31 0 9 -2 -3
2 1 2 3 -1 0 -9 -9
2 1 2 12 -1 0 2 0
2 1 3 23 -1 0 2 0
";
const CANARY: u32 = 0xdead_beef;
/// Words beside each table.
const BESIDE: usize = 16;

/// A table with room on both sides.
#[derive(Clone, Debug, PartialEq)]
struct Table {
    all: Vec<u32>,
    length: usize,
}

impl Table {
    fn new(length: usize) -> Self {
        Table {
            all: vec![CANARY; length + 2 * BESIDE],
            length,
        }
    }

    fn lent(&mut self) -> &mut [u32] {
        &mut self.all[BESIDE..BESIDE + self.length]
    }

    fn is_kept_beside(&self, length: usize) -> bool {
        let (before, rest) = self.all.split_at(BESIDE);
        let beside = before.iter().chain(&rest[length..]);
        beside.into_iter().all(|&w| w == CANARY)
    }
}

#[derive(Clone, Debug, PartialEq)]
struct Host {
    program: Table,
    words: Table,
    scalars: Table,
    report: Table,
}

/// The calls by number: sense, step, answer, delete, run, check, load. A check has no report.
const CALLS: usize = 7;
const CHECK: usize = 5;
const LOAD: usize = 6;

impl Host {
    fn empty() -> Self {
        Host {
            program: Table::new(PROGRAM),
            words: Table::new(WORDS),
            scalars: Table::new(SCALARS),
            report: Table::new(REPORT),
        }
    }

    fn load(&mut self) -> u64 {
        raw::load(
            TEXT,
            self.program.lent(),
            self.words.lent(),
            self.scalars.lent(),
            self.report.lent(),
        )
    }

    fn loaded() -> Self {
        let mut host = Host::empty();
        assert_eq!(host.load(), 0);
        assert_eq!(host.report.lent(), [5, 0, 0, 0, 0, 0, 0, 0]);
        host.program.length = 5 * ROW;
        host
    }

    fn call(&mut self, k: usize) -> u64 {
        let program = self.program.lent();
        let words = self.words.lent();
        let scalars = self.scalars.lent();
        let report = self.report.lent();
        u64::from(match k {
            0 => raw::sense(program, words, scalars, &[1, 1, 5, 6], report),
            1 => raw::step(program, words, scalars, report),
            2 => raw::answer(program, words, scalars, 1, report),
            3 => raw::delete(program, words, scalars, 1, report),
            4 => raw::run(program, words, scalars, 10, report),
            CHECK => raw::check(program, words, scalars),
            _ => return self.load(),
        })
    }

    /// The call is refused with this, and every word is as it was.
    #[track_caller]
    fn refuses(&mut self, k: usize, number: u64) {
        let before = self.clone();
        assert_eq!(self.call(k), number, "call {k}");
        assert!(*self == before, "call {k} changed something");
    }

    fn is_kept_beside(&self) -> bool {
        self.words.is_kept_beside(WORDS)
            && self.scalars.is_kept_beside(SCALARS)
            && self.report.is_kept_beside(REPORT)
            && self.program.is_kept_beside(PROGRAM)
    }
}

#[test]
fn a_table_of_another_length_is_refused_with_1() {
    for k in 0..CALLS {
        for change in [-1, 1, 8, isize::MIN] {
            let longer = |length: usize| length.checked_add_signed(change).unwrap_or(0);
            let mut host = Host::loaded();
            if k == LOAD {
                host.program.length = PROGRAM;
            }
            host.words.length = longer(WORDS);
            host.refuses(k, 1);
            host.words.length = WORDS;
            host.scalars.length = longer(SCALARS);
            host.refuses(k, 1);
            host.scalars.length = SCALARS;
            host.report.length = longer(REPORT);
            let number = u64::from(k != CHECK);
            host.refuses(k, number);
        }
    }
    let mut host = Host::loaded();
    for length in [0, 8, PROGRAM - 8, PROGRAM - 1, PROGRAM + 8] {
        host.program.length = length;
        host.refuses(LOAD, 1);
    }
}

#[test]
fn a_slice_that_is_no_program_is_refused_with_1() {
    for k in 0..LOAD {
        let mut host = Host::loaded();
        for length in [1, 5 * ROW - 1, 5 * ROW + 1, 4 * ROW, PROGRAM] {
            host.program.length = length;
            host.refuses(k, 1);
        }
        host.program.length = 5 * ROW;
        host.program.lent()[3] = 99;
        host.refuses(k, 1);
    }
}

#[test]
fn what_is_no_configuration_is_refused_with_1() {
    for k in 0..LOAD {
        let wrong = [
            (0, 9),
            (1, 65_536),
            (2, 0),
            (3, 7),
            (4, 257),
            (4, u32::MAX),
            (5, 65),
        ];
        for (place, word) in wrong {
            let mut host = Host::loaded();
            host.scalars.lent()[place] = word;
            host.refuses(k, 1);
        }
    }
}

#[test]
fn words_beside_the_tables_are_kept() {
    let mut host = Host::loaded();
    assert!(host.is_kept_beside());
    for k in [CHECK, 0, 4, CHECK, 2, 1, 3, CHECK] {
        assert_eq!(host.call(k), 0, "call {k}");
        assert!(host.is_kept_beside(), "call {k}");
    }
}

#[test]
fn reports() {
    let mut host = Host::loaded();
    assert_eq!(host.call(0), 0);
    assert_eq!(host.report.lent(), [1, 0, 0, 0, 0, 0, 0, 0]);
    let steps: Vec<Vec<u32>> = (0..5)
        .map(|_| {
            assert_eq!(host.call(1), 0);
            host.report.lent().to_vec()
        })
        .collect();
    assert_eq!(
        steps,
        [
            [1, 0, 1, 1, 1, 2, 2, 0],
            [0, 0, 2, 0, 0, 0, 0, 0],
            [0, 0, 1, 2, 1, 0, 0, 0],
            [0, 0, 2, 0, 0, 0, 0, 0],
            [0, 0, 4, 2, 9, 5, 6, 0],
        ]
    );
    let words = host.words.lent();
    let columns = [ATOM_ID, ATOM_P, ATOM_A, ATOM_B, ATOM_CYCLE];
    assert_eq!(columns.map(|column| words[column]), [1, 1, 5, 6, 0]);
    assert_eq!(
        words[PLANS_AT..PLANS_AT + 10],
        [2, 1, 1, 1, 2, 0, 1, 0, 0, 0]
    );
    assert_eq!(
        words[PLANS_AT + 10..PLANS_AT + 14],
        [1, 5, 6, raw::NO_VALUE]
    );
    assert_eq!(host.scalars.lent(), [3, 0, 3, 2, 1, 1]);
    assert_eq!(host.call(2), 0);
    assert_eq!(host.report.lent(), [0; 8]);
    assert_eq!(host.call(4), 0);
    assert_eq!(host.report.lent(), [0, 0, 1, 1, 0, 0, 0, 0]);
    assert_eq!(host.call(3), 0);
    assert_eq!(host.report.lent(), [0, 2, 0, 0, 0, 0, 0, 0]);
}
