//! What was met: every answer of every call must be among it.

use std::collections::BTreeMap;
use std::fmt;

use plain::{Did, How, Made, Stop};

use crate::script::{Call, Longer};

#[derive(Default)]
pub struct Counts {
    pub calls: u64,
    /// By call and number, 0 for accepted ones.
    answers: BTreeMap<(&'static str, u32), u64>,
    /// The same of the calls without a test.
    without_test: BTreeMap<(&'static str, u32), u64>,
    steps: BTreeMap<&'static str, u64>,
    /// By reason and the refusal's number.
    stops: BTreeMap<(&'static str, u32), u64>,
    /// Tables of a wrong length.
    lent: BTreeMap<&'static str, u64>,
}

/// The numbers that each call can give.
const ANSWERS: [(&str, &[u32]); 6] = [
    ("load", &[0, 1, 2, 3, 4, 5]),
    ("sense", &[0, 1, 6, 7, 8, 9]),
    ("step", &[0, 1, 6, 8, 9, 10, 11]),
    ("answer", &[0, 1, 6, 7]),
    ("delete", &[0, 1, 6, 12]),
    ("run", &[0, 1, 6, 7]),
];

const STEPS: [&str; 10] = [
    "fired none",
    "fired atom",
    "fired plan",
    "moved on",
    "executed empty",
    "executed held",
    "executed done",
    "executed failed",
    "waits",
    "cycle ended",
];

const STOPS: [(&str, u32); 7] = [
    ("phase 0", 0),
    ("waiting", 0),
    ("limit", 0),
    ("refused", 8),
    ("refused", 9),
    ("refused", 10),
    ("refused", 11),
];

const LENT: [&str; 8] = [
    "short program",
    "long program",
    "short words",
    "long words",
    "short scalars",
    "long scalars",
    "short report",
    "long report",
];

impl Counts {
    pub fn load(&mut self, number: u32) {
        self.answer("load", number);
    }

    pub fn call(&mut self, call: &Call, number: u32) {
        self.answer(name(call), number);
    }

    pub fn without_test(&mut self, call: &Call, number: u32) {
        *self.without_test.entry((name(call), number)).or_default() += 1;
    }

    fn answer(&mut self, name: &'static str, number: u32) {
        self.calls += 1;
        *self.answers.entry((name, number)).or_default() += 1;
    }

    pub fn step(&mut self, did: Did) {
        let name = match did {
            Did::Fired { made, .. } => match made {
                None => "fired none",
                Some(Made::Atom(_)) => "fired atom",
                Some(Made::Plan(_)) => "fired plan",
            },
            Did::Moved => "moved on",
            Did::Executed { how, .. } => match how {
                How::Empty => "executed empty",
                How::Held => "executed held",
                How::Done => "executed done",
                How::Failed => "executed failed",
            },
            Did::Waits { .. } => "waits",
            Did::Ended => "cycle ended",
        };
        *self.steps.entry(name).or_default() += 1;
    }

    pub fn run(&mut self, stop: Stop) {
        let name = match stop {
            Stop::Phase0 => ("phase 0", 0),
            Stop::Waiting => ("waiting", 0),
            Stop::Limit => ("limit", 0),
            Stop::Refused(number) => ("refused", number),
        };
        *self.stops.entry(name).or_default() += 1;
    }

    pub fn lent(&mut self, longer: Longer) {
        let Longer {
            program,
            words,
            scalars,
            report,
        } = longer;
        for (k, by) in [program, words, scalars, report].into_iter().enumerate() {
            if by != 0 {
                let name = LENT[2 * k + usize::from(by > 0)];
                *self.lent.entry(name).or_default() += 1;
            }
        }
    }

    /// The answers that were never met.
    pub fn missing(&self) -> Vec<String> {
        let every = || {
            let numbers = |(name, numbers): (&'static str, &'static [u32])| {
                numbers.iter().map(move |&number| (name, number))
            };
            ANSWERS.into_iter().flat_map(numbers)
        };
        let answers = every()
            .filter(|answer| !self.answers.contains_key(answer))
            .map(|(name, number)| format!("{name} {number}"));
        let without_test = every()
            .filter(|&(name, number)| can_be_without_test(name, number))
            .filter(|answer| !self.without_test.contains_key(answer))
            .map(|(name, number)| format!("{name} {number} without test"));
        let steps = STEPS
            .into_iter()
            .filter(|step| !self.steps.contains_key(step))
            .map(str::to_string);
        let stops = STOPS
            .into_iter()
            .filter(|stop| !self.stops.contains_key(stop))
            .map(|(name, number)| format!("run until {name} {number}"));
        let lent = LENT
            .into_iter()
            .filter(|name| !self.lent.contains_key(name))
            .map(str::to_string);
        let answers = answers.chain(without_test);
        answers.chain(steps).chain(stops).chain(lent).collect()
    }

    pub fn refused(&self) -> u64 {
        self.refusals().values().sum()
    }

    /// How often each number of the table was given.
    fn refusals(&self) -> BTreeMap<u32, u64> {
        let mut refusals = BTreeMap::new();
        for (&(_, number), count) in self.answers.iter().filter(|((_, n), _)| *n != 0) {
            *refusals.entry(number).or_default() += count;
        }
        refusals
    }
}

fn name(call: &Call) -> &'static str {
    match call {
        Call::Sense(_) => "sense",
        Call::Step => "step",
        Call::Answer(_) => "answer",
        Call::Delete(_) => "delete",
        Call::Run(_) => "run",
    }
}

/// Without a test nothing is refused with 1, a load always tests, and a controller's answer is in range.
fn can_be_without_test(name: &str, number: u32) -> bool {
    name != "load" && number != 1 && (name, number) != ("answer", 7)
}

impl fmt::Display for Counts {
    fn fmt(&self, f: &mut fmt::Formatter) -> fmt::Result {
        for (name, _) in ANSWERS {
            write!(f, "{name}:")?;
            for (&(_, number), count) in self.answers.iter().filter(|((n, _), _)| *n == name) {
                match number {
                    0 => write!(f, " accepted {count}")?,
                    _ => write!(f, ", refused {number} {count}")?,
                }
            }
            writeln!(f)?;
        }
        let steps: Vec<_> = self.steps.iter().map(|(s, n)| format!("{s} {n}")).collect();
        writeln!(f, "steps: {}", steps.join(", "))?;
        let stop = |(&(name, number), count): (&(&str, u32), &u64)| match number {
            0 => format!("{name} {count}"),
            _ => format!("{name} {number} {count}"),
        };
        let stops: Vec<_> = self.stops.iter().map(stop).collect();
        writeln!(f, "runs until: {}", stops.join(", "))?;
        let lent: Vec<_> = self.lent.iter().map(|(s, n)| format!("{s} {n}")).collect();
        writeln!(f, "lent: {}", lent.join(", "))?;
        let refusal = |(number, count)| format!("{number}: {count}");
        let refusals: Vec<_> = self.refusals().into_iter().map(refusal).collect();
        writeln!(f, "refusals by number: {}", refusals.join(", "))?;
        let without_test: u64 = self.without_test.values().sum();
        writeln!(f, "calls again without test: {without_test}")
    }
}
