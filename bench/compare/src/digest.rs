//! What tells configurations apart: FNV-1a over their text (bench/workloads/README.md).

use std::fmt::Write;

pub struct Digest(pub u64);

impl Digest {
    pub fn new() -> Self {
        Digest(0xcbf2_9ce4_8422_2325)
    }

    pub fn fold(&mut self, text: &str) {
        for byte in text.bytes() {
            self.0 = (self.0 ^ u64::from(byte)).wrapping_mul(0x100_0000_01b3);
        }
    }
}

/// A configuration as text.
pub struct Picture(pub String);

impl Picture {
    /// Phase, cycle, next id, the plan that waits or 0.
    pub fn new([phase, cycle, next, waiting]: [u32; 4]) -> Self {
        Picture(format!("config {phase} {cycle} {next} {waiting}\n"))
    }

    /// Id, p, a, b, cycle.
    pub fn atom(&mut self, [id, p, a, b, cycle]: [u32; 5]) {
        self.line(format_args!("atom {id} {p} {a} {b} {cycle}"));
    }

    /// Id, set, rule, steps left, flags, subgoal or 0; then the justifications; then the values that the body uses.
    pub fn plan(&mut self, first: [u32; 6], justifications: &[u32], values: [Option<u32>; 8]) {
        let [id, set, rule, left, flags, subgoal] = first;
        let justifications: Vec<_> = justifications.iter().map(u32::to_string).collect();
        let values = values.map(|value| value.map_or("-".into(), |n| n.to_string()));
        self.line(format_args!(
            "plan {id} {set} {rule} {left} {flags} {subgoal} {} {}",
            justifications.join(","),
            values.join(" ")
        ));
    }

    fn line(&mut self, line: std::fmt::Arguments) {
        writeln!(self.0, "{line}").expect("a text takes every line");
    }
}
