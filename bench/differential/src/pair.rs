//! Both implementations side by side: each item is done to both, and all that can be seen must be equal.

use std::any::Any;
use std::panic::{catch_unwind, AssertUnwindSafe};

use juntiqel::raw::{self, PROGRAM, REPORT, SCALARS, WORDS};
use juntiqel::Controller;
use plain::{Changed, Config, Did, How, Made, Program, Run, Step, Stop};

use crate::configs::{config_of, program_of, words_of};
use crate::controlled;
use crate::counts::Counts;
use crate::script::{Call, Item, Longer};

/// Words beside each table, which no call may touch.
const BESIDE: usize = 16;
const CANARY: u32 = 0x5eed_cafe;

type Report = [u32; REPORT];

/// A table of the library with words beside it.
#[derive(Clone, PartialEq)]
struct Table {
    all: Vec<u32>,
    length: usize,
}

impl Table {
    fn new(length: usize) -> Self {
        Table {
            all: vec![CANARY; length + 2 * BESIDE],
            length,
        }
    }

    /// What is lent, if it is to be so much longer.
    fn lent(&mut self, longer: isize) -> &mut [u32] {
        let length = self.length.saturating_add_signed(longer);
        let end = (BESIDE + length).min(self.all.len());
        &mut self.all[BESIDE..end]
    }

    fn words(&self) -> &[u32] {
        &self.all[BESIDE..BESIDE + self.length]
    }

    fn put(&mut self, words: &[u32]) {
        self.length = words.len();
        self.all[BESIDE..BESIDE + words.len()].copy_from_slice(words);
    }

    fn is_kept_beside(&self, length: usize) -> bool {
        let (before, rest) = self.all.split_at(BESIDE);
        before.iter().chain(&rest[length..]).all(|&w| w == CANARY)
    }
}

/// The library's side.
#[derive(Clone, PartialEq)]
struct Proved {
    program: Table,
    words: Table,
    scalars: Table,
    report: Table,
}

impl Proved {
    fn load(&mut self, text: &[u8], longer: Longer) -> u64 {
        raw::load(
            text,
            self.program.lent(longer.program),
            self.words.lent(longer.words),
            self.scalars.lent(longer.scalars),
            self.report.lent(longer.report),
        )
    }

    fn call(&mut self, call: &Call, longer: Longer) -> u32 {
        let program = self.program.lent(longer.program);
        let words = self.words.lent(longer.words);
        let scalars = self.scalars.lent(longer.scalars);
        let report = self.report.lent(longer.report);
        match call {
            Call::Sense(rows) => raw::sense(program, words, scalars, rows, report),
            Call::Step => raw::step(program, words, scalars, report),
            Call::Answer(n) => raw::answer(program, words, scalars, *n, report),
            Call::Delete(id) => raw::delete(program, words, scalars, *id, report),
            Call::Run(limit) => raw::run(program, words, scalars, *limit, report),
        }
    }

    fn is_kept_beside(&self) -> bool {
        self.program.is_kept_beside(PROGRAM)
            && self.words.is_kept_beside(WORDS)
            && self.scalars.is_kept_beside(SCALARS)
            && self.report.is_kept_beside(REPORT)
    }

    fn config(&self) -> Config {
        config_of(self.words.words(), self.scalars.words())
    }
}

pub struct Pair {
    proved: Proved,
    program: Program,
    config: Config,
}

/// In what the two differ.
#[derive(Debug)]
pub struct Difference(pub String);

impl Pair {
    /// The empty program with its fresh configuration.
    pub fn new() -> Self {
        let mut proved = Proved {
            program: Table::new(PROGRAM),
            words: Table::new(WORDS),
            scalars: Table::new(SCALARS),
            report: Table::new(REPORT),
        };
        proved.program.length = 0;
        proved.words.lent(0).fill(0);
        proved.scalars.put(&[0, 0, 1, 0, 0, 0]);
        Pair {
            proved,
            program: Program::default(),
            config: Config::empty(),
        }
    }

    pub fn program(&self) -> &Program {
        &self.program
    }

    pub fn config(&self) -> &Config {
        &self.config
    }

    /// Does it to both. A panic is a difference too.
    pub fn play(&mut self, item: &Item, counts: &mut Counts) -> Result<(), Difference> {
        let played = catch_unwind(AssertUnwindSafe(|| self.play_item(item, counts)));
        played.unwrap_or_else(|panic| Err(Difference(format!("a panic: {}", message(&*panic)))))
    }

    fn play_item(&mut self, item: &Item, counts: &mut Counts) -> Result<(), Difference> {
        if let Item::Load(_, longer) | Item::Call(_, longer) = item {
            counts.lent(*longer);
        }
        match item {
            Item::Load(text, longer) => self.load(text, *longer, counts),
            Item::Program(text) => self.load_program(text),
            Item::Rows(words) => {
                self.proved.program.put(words);
                self.program = program_of(words).unwrap_or_default();
                Ok(())
            }
            Item::Config(image) => {
                self.proved.words.put(&image.words[..]);
                self.proved.scalars.put(&image.scalars);
                self.config = self.proved.config();
                Ok(())
            }
            Item::Call(call, longer) => self.call(call, *longer, counts),
        }
    }

    fn load(&mut self, text: &[u8], longer: Longer, counts: &mut Counts) -> Result<(), Difference> {
        let before = self.proved.clone();
        self.proved.program.length = PROGRAM;
        let result = self.proved.load(text, longer);
        self.proved.program.length = before.program.length;
        let expected = match plain::load(text) {
            _ if longer != Longer::default() => Err((1, 0)),
            loaded => loaded,
        };
        match expected {
            Ok(program) => {
                same("the load", result, 0)?;
                let mut report = [0; REPORT];
                report[0] = program.rows.len() as u32;
                same("the report", self.proved.report.words(), &report)?;
                self.proved.program.length = program.rows.len() * raw::ROW;
                same(
                    "the program",
                    self.proved.program.words(),
                    &words_of(&program),
                )?;
                self.config = plain::fresh(&program);
                self.program = program;
                counts.load(0);
            }
            Err((number, line)) => {
                same(
                    "the load",
                    result,
                    u64::from(number) | u64::from(line) << 32,
                )?;
                self.is_untouched(&before)?;
                counts.load(number);
            }
        }
        self.is_equal()
    }

    fn load_program(&mut self, text: &[u8]) -> Result<(), Difference> {
        let mut aside = self.proved.clone();
        aside.program.length = PROGRAM;
        let result = aside.load(text, Longer::default());
        let expected = plain::load(text);
        let number = match &expected {
            Ok(_) => 0,
            Err((number, line)) => u64::from(*number) | u64::from(*line) << 32,
        };
        same("the load", result, number)?;
        if let Ok(program) = expected {
            self.proved.program.put(&words_of(&program));
            self.program = program;
        }
        Ok(())
    }

    fn call(&mut self, call: &Call, longer: Longer, counts: &mut Counts) -> Result<(), Difference> {
        let before = self.proved.clone();
        let number = self.proved.call(call, longer);
        let is_lent_wrong = Longer {
            program: 0,
            ..longer
        } != Longer::default();
        let lent = before.program.clone().lent(longer.program).to_vec();
        let expected = match program_of(&lent) {
            Some(_) if is_lent_wrong => Err(1),
            Some(program) => work(&program, &mut self.config, call, counts),
            None => Err(1),
        };
        match expected {
            Ok(report) => {
                same("the answer", number, 0)?;
                same("the report", self.proved.report.words(), &report)?;
                counts.call(call, 0);
            }
            Err(expected) => {
                same("the answer", number, expected)?;
                self.is_untouched(&before)?;
                counts.call(call, expected);
            }
        }
        same(
            "the program",
            self.proved.program.words(),
            before.program.words(),
        )?;
        self.is_equal()?;
        // what is lent for the report is beyond what a check and a controller are given
        if longer.report == 0 {
            return self.is_equal_without_test(before, call, longer, number, counts);
        }
        Ok(())
    }

    /// The check of what was there before, and the same call without a test, if it is well formed: both as the tested call says, and
    /// what the call leaves is well formed again.
    fn is_equal_without_test(
        &self,
        mut before: Proved,
        call: &Call,
        longer: Longer,
        number: u32,
        counts: &mut Counts,
    ) -> Result<(), Difference> {
        let program = before.program.lent(longer.program);
        let words = before.words.lent(longer.words);
        let scalars = before.scalars.lent(longer.scalars);
        let refused = u32::from(number == 1);
        same("the check", raw::check(program, words, scalars), refused)?;
        let mut controller = match Controller::restore(program, words, scalars) {
            Err(refusal) => return same("what restores", refusal.number, refused),
            Ok(controller) => controller,
        };
        same("what restores", 0, refused)?;
        let Some(answer) = controlled::work(&mut controller, call) else {
            return Ok(());
        };
        same("without test", answer.err().unwrap_or(0), number)?;
        if let Ok(report) = answer {
            let of_tested = self.proved.report.words();
            same("the report without test", &report[..], of_tested)?;
        }
        let (words, scalars) = (controller.words(), controller.scalars());
        let of_tested = self.proved.scalars.words();
        same("the scalars without test", &scalars[..], of_tested)?;
        // the first place that differs tells more than all words
        let mut places = words.iter().zip(self.proved.words.words());
        let place = places.position(|(word, of_tested)| word != of_tested);
        same("the first word that differs without test", place, None)?;
        let left = raw::check(controller.program(), words, scalars);
        same("the check of what is left", left, 0)?;
        counts.without_test(call, number);
        Ok(())
    }

    fn is_untouched(&self, before: &Proved) -> Result<(), Difference> {
        if self.proved == *before {
            return Ok(());
        }
        Err(Difference("a refused call has changed lent words".into()))
    }

    fn is_equal(&self) -> Result<(), Difference> {
        if !self.proved.is_kept_beside() {
            return Err(Difference("words beside the tables have changed".into()));
        }
        same("the configuration", &self.proved.config(), &self.config)
    }
}

fn message(panic: &dyn Any) -> &str {
    let text = panic.downcast_ref::<String>().map(String::as_str);
    text.or_else(|| panic.downcast_ref().copied())
        .unwrap_or("without words")
}

/// One is the proved library's, the other what it should be: the plain interpreter's, or the tested call's.
fn same<T: PartialEq + std::fmt::Debug>(what: &str, proved: T, other: T) -> Result<(), Difference> {
    if proved == other {
        return Ok(());
    }
    Err(Difference(format!(
        "{what}: proved {proved:?}, it should be {other:?}"
    )))
}

/// The call on the plain interpreter: its report, or the refusal's number.
fn work(
    program: &Program,
    config: &mut Config,
    call: &Call,
    counts: &mut Counts,
) -> Result<Report, u32> {
    match call {
        Call::Sense(rows) => plain::sense(program, config, &fours(rows)).map(changed),
        Call::Step => {
            let step = plain::step(program, config)?;
            counts.step(step.did);
            Ok(stepped(step))
        }
        Call::Answer(n) => plain::answer(program, config, *n).map(changed),
        Call::Delete(id) => plain::delete(program, config, *id).map(changed),
        Call::Run(limit) => {
            let run = plain::run(program, config, *limit)?;
            counts.run(run.stop);
            Ok(ran(run))
        }
    }
}

/// Rows of a sense. Words left over are no row, so a row out of range stands for them.
fn fours(words: &[u32]) -> Vec<[u32; 4]> {
    let rows = words.chunks(4);
    rows.map(|w| w.try_into().unwrap_or([0; 4])).collect()
}

fn changed(c: Changed) -> Report {
    [c.made, c.gone, 0, 0, 0, 0, 0, 0]
}

fn stepped(step: Step) -> Report {
    let [what, w, x, y, z] = match step.did {
        Did::Fired { set, rule, made } => match made {
            None => [1, set, rule, 0, 0],
            Some(Made::Atom(id)) => [1, set, rule, 1, id],
            Some(Made::Plan(id)) => [1, set, rule, 2, id],
        },
        Did::Moved => [2, 0, 0, 0, 0],
        Did::Executed { plan, how } => {
            let how = match how {
                How::Empty => 1,
                How::Held => 2,
                How::Done => 3,
                How::Failed => 4,
            };
            [3, plan, how, 0, 0]
        }
        Did::Waits { plan, p, a, b } => [4, plan, p, a, b],
        Did::Ended => [5, 0, 0, 0, 0],
    };
    [step.made, step.gone, what, w, x, y, z, 0]
}

fn ran(run: Run) -> Report {
    let (why, number) = match run.stop {
        Stop::Phase0 => (1, 0),
        Stop::Waiting => (2, 0),
        Stop::Limit => (3, 0),
        Stop::Refused(number) => (4, number),
    };
    [run.made, run.gone, why, run.steps, number, 0, 0, 0]
}
