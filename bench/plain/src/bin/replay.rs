//! Replays a script of calls, read from standard input, and prints what each call gave. Numbers are in base ten, with one space
//! between words and byte 10 at the end of each line; blank lines and lines that begin with `#` are passed over.
//!
//! | line | prints |
//! |---|---|
//! | `load FILE` | `loaded`; program and configuration are those of FILE, which counts as empty if it cannot be opened |
//! | `program FILE` | `program`; the program is that of FILE, the configuration stays |
//! | `sense S P A B ..` | `sensed made M gone G` |
//! | `step` | what the step did, `made M gone G` |
//! | `answer N` | `answered made 0 gone 0` |
//! | `delete N` | `deleted made 0 gone G` |
//! | `run N` | `ran STEPS until REASON made M gone G` |
//! | `trace N` | each step of `run N`, then its line |
//! | `show` | the live instances, as keyrun lists them |
//! | `dump` | the whole configuration, as the lines below |
//! | `config PHASE CYCLE NEXT WAITING` | nothing; begins a configuration without instances |
//! | `atom ID P A B CYCLE` | nothing; one more atom |
//! | `plan ID SET RULE LEFT FLAGS SUB J1 .. J4 V1 .. V8` | nothing; one more plan |
//!
//! A refused call prints `refused N: WORDS`, a refused load `refused N line L: WORDS`. A line that is not understood prints
//! `error line L: REASON` and ends the replay.

use std::fmt;
use std::io::{self, BufWriter, Read, Write};
use std::process::ExitCode;

use plain::{Atom, Changed, Config, Did, How, Made, Plan, Program, Run, Step, Stop};

fn main() -> io::Result<ExitCode> {
    let mut script = Vec::new();
    io::stdin().lock().read_to_end(&mut script)?;
    let mut out = BufWriter::new(io::stdout().lock());
    let mut replay = Replay {
        program: Program::default(),
        config: Config::empty(),
    };
    for (number, line) in (1..).zip(script.split_inclusive(|&c| c == b'\n')) {
        let outcome = match read_line(line) {
            Ok(words) => replay.line(&words, &mut out),
            Err(reason) => Err(Error::Script(reason)),
        };
        match outcome {
            Ok(()) => {}
            Err(Error::Script(reason)) => {
                writeln!(out, "error line {number}: {reason}")?;
                out.flush()?;
                return Ok(ExitCode::FAILURE);
            }
            Err(Error::Output(e)) => return Err(e),
        }
    }
    out.flush()?;
    Ok(ExitCode::SUCCESS)
}

/// Why a replay ends before its script does.
enum Error {
    Script(String),
    Output(io::Error),
}

impl From<io::Error> for Error {
    fn from(e: io::Error) -> Self {
        Error::Output(e)
    }
}

/// The words of a line; none of a line that is passed over.
fn read_line(line: &[u8]) -> Result<Vec<&str>, String> {
    let line = line
        .strip_suffix(b"\n")
        .ok_or("the line is not ended by byte 10")?;
    let line = std::str::from_utf8(line).map_err(|_| "the line is no text")?;
    if line.starts_with('#') || line.chars().all(|c| c == ' ') {
        return Ok(Vec::new());
    }
    Ok(line.split(' ').collect())
}

/// A number without sign or leading zero.
fn number(word: &str) -> Result<u32, Error> {
    let spelled = word == "0" || !word.starts_with(['0', '+']);
    match word.parse() {
        Ok(n) if spelled => Ok(n),
        _ => Err(Error::Script(format!("not a number: `{word}`"))),
    }
}

/// As many numbers as there are words.
fn numbers<const N: usize>(words: &[&str]) -> Result<[u32; N], Error> {
    if words.len() != N {
        return Err(Error::Script(format!(
            "{N} numbers are wanted, {} are there",
            words.len()
        )));
    }
    let mut ns = [0; N];
    for (n, word) in ns.iter_mut().zip(words) {
        *n = number(word)?;
    }
    Ok(ns)
}

struct Replay {
    program: Program,
    config: Config,
}

impl Replay {
    fn line(&mut self, words: &[&str], out: &mut impl Write) -> Result<(), Error> {
        let Some((&word, rest)) = words.split_first() else {
            return Ok(());
        };
        match word {
            "load" | "program" => self.load(word, rest, out)?,
            "sense" => {
                let rows = rest.chunks(4).map(numbers).collect::<Result<Vec<_>, _>>()?;
                let changed = plain::sense(&self.program, &mut self.config, &rows);
                print_changed(out, "sensed", changed)?;
            }
            "step" => {
                let [] = numbers(rest)?;
                match plain::step(&self.program, &mut self.config) {
                    Ok(step) => print_step(out, &step, &self.config)?,
                    Err(n) => print_refusal(out, n)?,
                }
            }
            "answer" => self.change(rest, out, "answered", plain::answer)?,
            "delete" => self.change(rest, out, "deleted", plain::delete)?,
            "run" => {
                let [limit] = numbers(rest)?;
                print_run(out, plain::run(&self.program, &mut self.config, limit))?;
            }
            "trace" => {
                let [limit] = numbers(rest)?;
                let mut printed = Ok(());
                let run =
                    plain::run_watched(&self.program, &mut self.config, limit, |step, config| {
                        if printed.is_ok() {
                            printed = print_step(out, step, config);
                        }
                    });
                printed?;
                print_run(out, run)?;
            }
            "show" => {
                let [] = numbers(rest)?;
                print_listing(out, &self.config)?;
            }
            "dump" => {
                let [] = numbers(rest)?;
                print_dump(out, &self.config)?;
            }
            "config" => {
                let [phase, cycle, next, waiting] = numbers(rest)?;
                self.config = Config {
                    phase,
                    cycle,
                    next,
                    waiting,
                    ..Config::empty()
                };
            }
            "atom" => {
                let [id, p, a, b, cycle] = numbers(rest)?;
                self.config.atoms.push(Atom { id, p, a, b, cycle });
            }
            "plan" => {
                let [id, set, rule, left, flags, subgoal, j1, j2, j3, j4, values @ ..] =
                    numbers::<18>(rest)?;
                let justifications = [j1, j2, j3, j4];
                self.config.plans.push(Plan {
                    id,
                    set,
                    rule,
                    left,
                    flags,
                    subgoal,
                    justifications,
                    values,
                });
            }
            _ => return Err(Error::Script(format!("unknown word: `{word}`"))),
        }
        Ok(())
    }

    /// A call with one number.
    fn change(
        &mut self,
        rest: &[&str],
        out: &mut impl Write,
        word: &str,
        call: fn(&Program, &mut Config, u32) -> Result<Changed, u32>,
    ) -> Result<(), Error> {
        let [n] = numbers(rest)?;
        print_changed(out, word, call(&self.program, &mut self.config, n))?;
        Ok(())
    }

    fn load(&mut self, word: &str, rest: &[&str], out: &mut impl Write) -> Result<(), Error> {
        let [file] = rest else {
            return Err(Error::Script(format!("`{word}` takes one file")));
        };
        let text = std::fs::read(file).unwrap_or_default();
        match plain::load(&text) {
            Ok(program) => {
                if word == "load" {
                    self.config = plain::fresh(&program);
                    writeln!(out, "loaded")?;
                } else {
                    writeln!(out, "program")?;
                }
                self.program = program;
            }
            Err((n, line)) => writeln!(out, "refused {n} line {line}: {}", words_of(n))?,
        }
        Ok(())
    }
}

fn words_of(refusal: u32) -> &'static str {
    match refusal {
        1 => "program or configuration not well formed",
        2 => "text not as laid out",
        3 => "row breaks a rule of its op, part or order",
        4 => "body variable without value",
        5 => "set over 8, rule over 32, too many rows or initial atoms",
        6 => "call out of turn",
        7 => "sense row, number of sense rows, answer or run limit out of range",
        8 => "next id 65536 and one more needed",
        9 => "256 atoms alive and one more needed",
        10 => "64 plans alive and one more needed",
        11 => "cycle 65535 would end",
        _ => "delete of an id not alive",
    }
}

fn print_refusal(out: &mut impl Write, n: u32) -> io::Result<()> {
    writeln!(out, "refused {n}: {}", words_of(n))
}

fn print_changed(
    out: &mut impl Write,
    word: &str,
    changed: Result<Changed, u32>,
) -> io::Result<()> {
    match changed {
        Ok(Changed { made, gone }) => writeln!(out, "{word} made {made} gone {gone}"),
        Err(n) => print_refusal(out, n),
    }
}

fn print_step(out: &mut impl Write, step: &Step, config: &Config) -> io::Result<()> {
    match step.did {
        Did::Fired {
            set,
            rule,
            made: Some(Made::Plan(id)),
        } => write!(out, "fired {set} {rule} plan {id}")?,
        Did::Fired {
            set,
            rule,
            made: Some(Made::Atom(id)),
        } => write!(out, "fired {set} {rule} atom {id}")?,
        Did::Fired {
            set,
            rule,
            made: None,
        } => write!(out, "fired {set} {rule} none")?,
        Did::Moved => write!(out, "moved {}", config.phase)?,
        Did::Executed { plan, how } => {
            let how = match how {
                How::Empty => "empty",
                How::Held => "held",
                How::Done => "done",
                How::Failed => "failed",
            };
            write!(out, "executed {plan} {how}")?;
        }
        Did::Waits { plan, p, a, b } => write!(out, "waits {plan} {p} {a} {b}")?,
        Did::Ended => write!(out, "ended {}", config.cycle)?,
    }
    writeln!(out, " made {} gone {}", step.made, step.gone)
}

fn print_run(out: &mut impl Write, run: Result<Run, u32>) -> io::Result<()> {
    let Run {
        steps,
        made,
        gone,
        stop,
    } = match run {
        Ok(run) => run,
        Err(n) => return print_refusal(out, n),
    };
    write!(out, "ran {steps} until ")?;
    match stop {
        Stop::Phase0 => write!(out, "phase0")?,
        Stop::Waiting => write!(out, "waiting")?,
        Stop::Limit => write!(out, "limit")?,
        Stop::Refused(n) => write!(out, "refused {n}")?,
    }
    writeln!(out, " made {made} gone {gone}")
}

/// Live instances by id: kind 1 an atom, kind 2 a plan.
fn print_listing(out: &mut impl Write, config: &Config) -> io::Result<()> {
    writeln!(out, "kind id p a b sub")?;
    let atoms = config.atoms.iter().map(|x| [1, x.id, x.p, x.a, x.b, 0]);
    let plans = config
        .plans
        .iter()
        .map(|q| [2, q.id, q.set, q.rule, q.left, q.subgoal]);
    let mut lines: Vec<_> = atoms.chain(plans).collect();
    lines.sort_by_key(|l| l[1]);
    lines
        .iter()
        .try_for_each(|l| writeln!(out, "{}", Spaced(l)))
}

fn print_dump(out: &mut impl Write, config: &Config) -> io::Result<()> {
    writeln!(
        out,
        "config {} {} {} {}",
        config.phase, config.cycle, config.next, config.waiting
    )?;
    for x in &config.atoms {
        writeln!(out, "atom {} {} {} {} {}", x.id, x.p, x.a, x.b, x.cycle)?;
    }
    for q in &config.plans {
        let scalars = [q.id, q.set, q.rule, q.left, q.flags, q.subgoal];
        writeln!(
            out,
            "plan {} {} {}",
            Spaced(&scalars),
            Spaced(&q.justifications),
            Spaced(&q.values)
        )?;
    }
    Ok(())
}

/// Numbers with one space between.
struct Spaced<'a>(&'a [u32]);

impl fmt::Display for Spaced<'_> {
    fn fmt(&self, f: &mut fmt::Formatter) -> fmt::Result {
        for (k, n) in self.0.iter().enumerate() {
            if k > 0 {
                f.write_str(" ")?;
            }
            write!(f, "{n}")?;
        }
        Ok(())
    }
}
