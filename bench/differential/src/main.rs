//! The proved library against the plain interpreter: both are given the same programs, configurations and calls, made at random from
//! a seed. The number, the report and the whole live configuration must be equal after every call; a refused call must leave every
//! lent word as it was; and every answer that a call can give must have been met. Where program and configuration are well formed the
//! library's call without a test does the same again, on a copy, and must come to the same answer and the same words.
//!
//! `differential [--calls N] [--seed S] [--case K]`: at least N calls, or case K of seed S alone. A difference prints the seed, the
//! case and the shortest script that still shows it, and ends with 1.

#![forbid(unsafe_code)]

mod cases;
mod configs;
mod controlled;
mod counts;
mod pair;
mod programs;
mod random;
mod script;
mod shrink;

use std::fs;
use std::io;
use std::process::ExitCode;
use std::time::Instant;

use cases::Case;
use counts::Counts;
use pair::{Difference, Pair};
use random::Random;
use script::{Item, Script};

const CALLS: u64 = 200_000;
const SEED: u64 = 1;

struct Options {
    calls: u64,
    seed: u64,
    case: Option<u64>,
}

fn options() -> Result<Options, String> {
    let mut options = Options {
        calls: CALLS,
        seed: SEED,
        case: None,
    };
    let mut words = std::env::args().skip(1);
    while let Some(word) = words.next() {
        let number = words.next().and_then(|n| n.parse().ok());
        let number = number.ok_or(format!("{word}: a number is wanted"))?;
        match &word[..] {
            "--calls" => options.calls = number,
            "--seed" => options.seed = number,
            "--case" => options.case = Some(number),
            _ => return Err(format!("unknown option {word}")),
        }
    }
    Ok(options)
}

fn main() -> ExitCode {
    match options() {
        Ok(options) => run(&options),
        Err(reason) => {
            eprintln!("{reason}");
            ExitCode::from(2)
        }
    }
}

fn run(options: &Options) -> ExitCode {
    // a panic is told as a difference
    std::panic::set_hook(Box::new(|_| {}));
    let start = Instant::now();
    let mut counts = Counts::default();
    let mut cases = 0;
    let numbers = match options.case {
        Some(k) => k..k + 1,
        None => 0..u64::MAX,
    };
    for k in numbers {
        if counts.calls >= options.calls {
            break;
        }
        cases += 1;
        if let Err((items, difference)) = play(options.seed, k, &mut counts) {
            tell(options.seed, k, &items, &difference);
            return ExitCode::FAILURE;
        }
    }
    print!("{counts}");
    if let Some(k) = options.case {
        println!(
            "differential: seed {}, case {k}, no difference",
            options.seed
        );
        return ExitCode::SUCCESS;
    }
    let missing = counts.missing();
    if !missing.is_empty() {
        println!("never met: {}", missing.join(", "));
        return ExitCode::FAILURE;
    }
    println!(
        "differential: seed {}, {cases} cases, {} calls ({} refused), no difference, every answer met, {:.1} s",
        options.seed,
        counts.calls,
        counts.refused(),
        start.elapsed().as_secs_f64()
    );
    ExitCode::SUCCESS
}

/// Plays a case up to its end or to a difference.
fn play(seed: u64, k: u64, counts: &mut Counts) -> Result<(), (Vec<Item>, Difference)> {
    let mut case = Case::new(Random::new(seed, k));
    let mut pair = Pair::new();
    let mut items = vec![];
    while let Some(item) = case.next(&pair) {
        items.push(item);
        let last = items.last().expect("an item was added");
        if let Err(difference) = pair.play(last, counts) {
            return Err((items, difference));
        }
    }
    Ok(())
}

fn tell(seed: u64, k: u64, items: &[Item], difference: &Difference) {
    println!(
        "seed {seed}, case {k}: they differ after {} items",
        items.len()
    );
    println!("{}", difference.0);
    let (items, difference) = shrink::shortest(items);
    let script = Script(&items);
    println!("the shortest script, {} items:", items.len());
    print!("{script}");
    println!("# {}", difference.0);
    for (file, text) in script.texts() {
        println!("{file}:\n{}", String::from_utf8_lossy(text));
    }
    match write(seed, k, &script) {
        Ok(folder) => println!("script and programs are in {folder}"),
        Err(e) => println!("script and programs could not be written: {e}"),
    }
}

/// The script and its programs as files, for `replay`.
fn write(seed: u64, k: u64, script: &Script) -> io::Result<String> {
    let folder = std::env::temp_dir().join(format!("differential-{seed}-{k}"));
    fs::create_dir_all(&folder)?;
    for (file, text) in script.texts() {
        fs::write(folder.join(file), text)?;
    }
    fs::write(folder.join("script"), script.to_string())?;
    Ok(folder.display().to_string())
}
