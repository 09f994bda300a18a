//! The table of the workloads, and the means of its groups.

use crate::timing::{Timed, PROVED, PROVED_WITHOUT, SIDES, TIGHT, TIGHT_WITHOUT};
use crate::workloads::GROUPS;

pub fn print(timed: &[Timed]) {
    println!(
        "| workload | timed calls | {} | proved / tight | both without test | share of refusal 1 |",
        SIDES.join(" | ")
    );
    println!("|---|{}", "---|".repeat(SIDES.len() + 4));
    for line in timed {
        let times: Vec<_> = (0..SIDES.len()).map(|k| shown(line.seconds(k))).collect();
        println!(
            "| {} | {} | {} | {} |",
            line.workload.name,
            line.calls(),
            times.join(" | "),
            ratios(&[line])
        );
    }
    println!();
    println!(
        "| group, geometric means | proved / tight | both without test | share of refusal 1 |"
    );
    println!("|---|---|---|---|");
    for (group, names) in GROUPS {
        let is_of = |line: &&Timed| names.contains(&line.workload.name);
        let lines: Vec<_> = timed.iter().filter(is_of).collect();
        println!("| {group} | {} |", ratios(&lines));
    }
}

/// The proved library to the baseline, with the tests and without, and how much of its time the tests are.
fn ratios(lines: &[&Timed]) -> String {
    let mean = |a: usize, b: usize| {
        let logarithm = |line: &&Timed| (line.seconds(a) / line.seconds(b)).ln();
        (lines.iter().map(logarithm).sum::<f64>() / lines.len() as f64).exp()
    };
    let share = 100.0 * (1.0 - mean(PROVED_WITHOUT, PROVED));
    let share = share.round() as i32;
    format!(
        "{} | {} | {share} %",
        ratio(mean(PROVED, TIGHT)),
        ratio(mean(PROVED_WITHOUT, TIGHT_WITHOUT))
    )
}

fn ratio(x: f64) -> String {
    match x {
        0.01.. => format!("{x:.2}"),
        _ => format!("{x:.5}"),
    }
}

/// Seconds in a unit that suits them, three digits.
pub fn shown(seconds: f64) -> String {
    let nanoseconds = seconds * 1e9;
    let (x, unit) = match nanoseconds {
        1e6.. => (nanoseconds / 1e6, "ms"),
        1e3.. => (nanoseconds / 1e3, "µs"),
        _ => (nanoseconds, "ns"),
    };
    match x {
        100.0.. => format!("{x:.0} {unit}"),
        10.0.. => format!("{x:.1} {unit}"),
        _ => format!("{x:.2} {unit}"),
    }
}
