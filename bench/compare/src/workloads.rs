//! The workloads: lists of calls, read from bench/workloads (its README has the format), and the groups that they are of.

use std::fs;
use std::path::{Path, PathBuf};

pub const GROUPS: [(&str, &[&str]); 7] = [
    (
        "calls and cycles",
        &[
            "example_run",
            "example_step",
            "nest4",
            "nest16",
            "nest64",
            "rules32",
            "step_big",
            "roundrobin",
        ],
    ),
    (
        "match-heavy",
        &[
            "match20_hit",
            "match20_none",
            "match100_hit",
            "match100_none",
            "match250_hit",
            "match250_none",
        ],
    ),
    (
        "match, facts coming in timed too",
        &["match250_whole", "churn100"],
    ),
    ("rows of any", &["any8", "any16"]),
    ("rows of any, facts coming in timed too", &["any16_whole"]),
    ("deletion", &["delete_fan", "delete_chain"]),
    ("text and sense", &["load_max", "sense64"]),
];

pub enum Call {
    Load(Vec<u8>),
    Sense(Vec<[u32; 4]>),
    Step,
    Answer(u32),
    Delete(u32),
    Run(u32),
}

pub enum Line {
    Call(Call),
    /// Calls from here on are timed, or no longer.
    Timer(bool),
    /// The configuration is folded into the digest.
    Digest,
}

pub struct Workload {
    pub name: &'static str,
    pub lines: Vec<Line>,
    /// By the reference model.
    pub digest: u64,
}

/// In the order of the groups.
pub fn all() -> Vec<Workload> {
    let folder = Path::new(env!("CARGO_MANIFEST_DIR")).join("../workloads");
    let expected = read(&folder.join("expected.txt"));
    let names = GROUPS.iter().flat_map(|(_, names)| names.iter());
    names
        .map(|name| Workload {
            name,
            lines: lines(&folder, name),
            digest: digest(&expected, name),
        })
        .collect()
}

fn read(path: &PathBuf) -> String {
    fs::read_to_string(path).unwrap_or_else(|e| panic!("{}: {e}", path.display()))
}

fn digest(expected: &str, name: &str) -> u64 {
    let of_name =
        |line: &str| u64::from_str_radix(line.strip_prefix(name)?.strip_prefix(' ')?, 16).ok();
    let digest = expected.lines().find_map(of_name);
    digest.unwrap_or_else(|| panic!("{name} has no digest"))
}

fn lines(folder: &Path, name: &str) -> Vec<Line> {
    let text = read(&folder.join(name).with_extension("work"));
    let is_line = |line: &&str| !line.is_empty() && !line.starts_with('#');
    let lines = text.lines().filter(is_line);
    lines.map(|line| read_line(folder, line)).collect()
}

fn read_line(folder: &Path, line: &str) -> Line {
    let (word, rest) = line.split_once(' ').unwrap_or((line, ""));
    let number = || rest.parse().expect("a number");
    Line::Call(match word {
        "timer" => return Line::Timer(rest == "on"),
        "digest" => return Line::Digest,
        "load" => Call::Load(read(&folder.join(rest)).into_bytes()),
        "sense" => Call::Sense(rows(rest)),
        "step" => Call::Step,
        "answer" => Call::Answer(number()),
        "delete" => Call::Delete(number()),
        "run" => Call::Run(number()),
        _ => panic!("no line of a workload: {line}"),
    })
}

fn rows(words: &str) -> Vec<[u32; 4]> {
    let words = words.split_whitespace();
    let words: Vec<u32> = words.map(|n| n.parse().expect("a number")).collect();
    words.as_chunks().0.to_vec()
}
