//! The script language of `replay`.

mod common;

use std::fs;
use std::io::Write;
use std::path::{Path, PathBuf};
use std::process::{Command, Stdio};

use common::{text, ATOM, PRINTED};

/// A directory of its own for each test, with the programs that it loads.
fn directory(name: &str, programs: &[(&str, &str)]) -> PathBuf {
    let dir = Path::new(env!("CARGO_TARGET_TMPDIR")).join(name);
    fs::create_dir_all(&dir).unwrap();
    for (file, rows) in programs {
        fs::write(dir.join(file), text(rows)).unwrap();
    }
    dir
}

/// What a script prints, and whether it was understood.
fn replay(dir: &Path, script: &str) -> (String, bool) {
    let mut child = Command::new(env!("CARGO_BIN_EXE_replay"))
        .current_dir(dir)
        .stdin(Stdio::piped())
        .stdout(Stdio::piped())
        .spawn()
        .unwrap();
    child
        .stdin
        .take()
        .unwrap()
        .write_all(script.as_bytes())
        .unwrap();
    let output = child.wait_with_output().unwrap();
    (
        String::from_utf8(output.stdout).unwrap(),
        output.status.success(),
    )
}

#[track_caller]
fn prints(dir: &Path, script: &str, expected: &str) {
    assert_eq!(replay(dir, script), (expected.to_string(), true));
}

#[track_caller]
fn is_not_understood(dir: &Path, script: &str, line: u32) {
    let (out, understood) = replay(dir, script);
    assert!(
        !understood
            && out
                .lines()
                .last()
                .unwrap()
                .starts_with(&format!("error line {line}: ")),
        "{out}"
    );
}

#[test]
fn the_printed_run() {
    let dir = directory("printed", &[("key.prog", PRINTED)]);
    prints(
        &dir,
        "# the run that document 01 prints\n\nload key.prog\nsense 1 1 3 1200\ntrace 10\nshow\ndelete 3\ndump\n",
        "loaded
sensed made 1 gone 0
fired 1 1 plan 2 made 1 gone 0
moved 2 made 0 gone 0
fired 2 1 none made 0 gone 0
moved 3 made 0 gone 0
executed 2 done made 1 gone 0
ended 1 made 0 gone 0
ran 6 until phase0 made 2 gone 0
kind id p a b sub
1 1 1 3 1200 0
2 2 1 1 1 3
1 3 3 3 1200 0
deleted made 0 gone 1
config 0 1 4 0
atom 1 1 3 1200 0
plan 2 1 1 0 0 0 1 0 0 0 1 3 1200 65536 65536 65536 65536 65536
",
    );
}

#[test]
fn a_dump_builds_the_configuration() {
    let dir = directory("dump", &[("key.prog", PRINTED), ("one.prog", ATOM)]);
    let (dump, _) = replay(&dir, "load key.prog\nsense 1 1 3 1200\nrun 5\ndump\n");
    let dump: String = dump.lines().skip(3).map(|l| format!("{l}\n")).collect();
    assert!(dump
        .starts_with("config 3 0 4 0\natom 1 1 3 1200 0\natom 3 3 3 1200 0\nplan 2 1 1 1 6 3 1 "));
    // `program` leaves the configuration as it is
    prints(
        &dir,
        &format!("{dump}program key.prog\nrun 9\n"),
        "program\nran 1 until phase0 made 0 gone 0\n",
    );
    let (out, _) = replay(&dir, &format!("{dump}program one.prog\nstep\ndump\n"));
    assert!(out.starts_with("program\nrefused 1: ") && out.ends_with(&dump));
}

#[test]
fn refusals() {
    let dir = directory("refusals", &[("bad.prog", "0 0 0 41 0 1 0 0 | x")]);
    let (out, understood) = replay(
        &dir,
        "step\nload bad.prog\nload missing.prog\nprogram bad.prog\nsense 3 1 0 0\ndelete 0\ndump\n",
    );
    let numbers: Vec<_> = out.lines().map(|l| l.split(": ").next().unwrap()).collect();
    assert!(understood);
    assert_eq!(
        numbers,
        [
            "refused 6",
            "refused 2 line 3",
            "refused 2 line 1",
            "refused 2 line 3",
            "refused 7",
            "refused 12",
            "config 0 0 1 0"
        ]
    );
}

#[test]
fn lines_that_are_not_understood() {
    let dir = directory("errors", &[]);
    for line in [
        "jump",
        "step 1",
        "run",
        "run 01",
        "run +1",
        "run -1",
        "run x",
        "run  1",
        "run 1 ",
        "run 4294967296",
        "sense 1 1 0",
        "sense 1 1 0 0 1",
        "load",
        "load a b",
        "config 0 0 1",
        "atom 1 1 0 0",
        "plan 1 1 1",
    ] {
        is_not_understood(&dir, &format!("sense\n{line}\nstep\n"), 2);
    }
    is_not_understood(&dir, "sense\nstep", 2);
}
