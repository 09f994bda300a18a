//! Which texts load, and at which number and line the others are refused: decisions 1 to 22 of docs/DECISIONS.md.

mod common;

use common::*;

/// Number and line of the refusal; 0 and 0 for a text that loads.
fn verdict(text: &[u8]) -> (u32, u32) {
    plain::load(text).map_or_else(|refusal| refusal, |_| (0, 0))
}

#[track_caller]
fn loads(rows: &str) {
    assert_eq!(verdict(&text(rows)), (0, 0), "{rows}");
}

#[track_caller]
fn refuses(rows: &str, number: u32, line: u32) {
    assert_eq!(verdict(&text(rows)), (number, line), "{rows}");
}

#[track_caller]
fn whole(text: &str, number: u32, line: u32) {
    assert_eq!(verdict(text.as_bytes()), (number, line), "{text:?}");
}

const NAMES: &str = "set rule part op i p a b";
const LACKING: &str = "1 1 2 3 -1 0 -9 -9";

/// The rows of a table, one on each line.
fn lines(table: &str) -> impl Iterator<Item = &str> {
    table.lines().map(str::trim)
}

/// Rows after a reason, and rows after the context of a meta rule.
fn after_reason(t: &str) -> String {
    rows(&[OBJ, t])
}

fn after_context(t: &str) -> String {
    rows(&[LACKING, t])
}

#[test]
fn lines_and_integers() {
    // 1: each line is ended
    whole(&format!("{NAMES}\n{ATOM}"), 2, 2);
    whole(&format!("{NAMES}\n{ATOM}\n{ATOM}"), 2, 3);
    // 2: an empty text lacks its names line, which alone is a program
    whole("", 2, 1);
    whole(NAMES, 2, 1);
    whole("\n", 2, 1);
    whole(&format!("{NAMES}\n"), 0, 0);
    // 3: to the byte
    whole(&format!("{NAMES}\r\n{ATOM}\r\n"), 2, 1);
    whole("set rule part op i p a  b\n", 2, 1);
    whole(&format!("{NAMES}\n{ATOM}\n\n"), 2, 3);
    whole(&format!("{NAMES}\n\n{ATOM}\n"), 2, 2);
    for row in [
        "0 0 0 41 0 1 0 0\r",
        "0 0 0 41  0 1 0 0",
        "0 0 0\t41 0 1 0 0",
        " 0 0 0 41 0 1 0 0",
        "0 0 0 41 0 1 0 0 ",
        "0 0 0 41 0 1 0",
        "0 0 0 41 0 1 0 0 0",
        "0 0 0 41 -0 1 0 0",
        "0 0 0 41 0 +1 0 0",
        "0 0 0 41 0 01 0 0",
        "00 0 0 41 0 1 0 0",
        "1 1 1 1 -01 1 0 0",
        "0 0 0 41 0 1_0 0 0",
        "0 0 0 41 - 1 0 0",
        "0 0 0 41 -- 1 0 0",
        "0 0 0 41 0 1 0 x",
        "0 0 0 41 0 1 0 0\0",
    ] {
        refuses(row, 2, 2);
    }
}

#[test]
fn ranges() {
    // 4: every range before any other test of the line
    refuses("9 1 1 1 -1 256 0 0", 2, 2);
    refuses("9 1 1 1 -1 255 0 0", 5, 2);
    refuses("1 1 1 99 -1 1 0 65536", 2, 2);
    refuses("1 1 1 99 -1 1 0 65535", 3, 2);
    for row in lines(
        "-1 1 1 1 -1 1 0 0
         1 -1 1 1 -1 1 0 0
         1 1 -1 1 -1 1 0 0
         1 1 1 -1 -1 1 0 0
         1 1 1 1 -1 -1 0 0
         1 1 1 1 -10 1 0 0
         1 1 1 1 0 1 -10 0
         1 1 1 1 0 1 0 -10
         65536 1 1 1 -1 1 0 0
         1 65536 1 1 -1 1 0 0
         1 1 65536 1 -1 1 0 0
         1 1 1 65536 -1 1 0 0
         1 1 1 1 65536 1 0 0
         1 1 1 1 0 1 65536 0
         0 0 0 41 0 1 99999999999999999999999 0
         0 0 0 41 0 1 -99999999999999999999999 0
         0 0 0 41 0 4294967297 0 0",
    ) {
        refuses(row, 2, 2);
    }
    loads("1 1 1 1 -9 1 -9 -9");
    loads("1 1 1 1 65535 255 65535 65535");
    // 5: an unreadable line says nothing of a rule that lacks rows
    refuses(&after_context("x"), 2, 3);
    whole(&format!("{NAMES}\n{LACKING}\n1 1 3 22 5 0 0 0"), 2, 3);
}

#[test]
fn order_of_tests() {
    // 6: an earlier line's fault first
    refuses("1 1 1 99 -1 1 0 0 | x", 3, 2);
    // 7: a lack before the faults of the row that reveals it
    refuses(&after_context("9 1 1 1 -1 1 0 0"), 3, 2);
    refuses(&after_context("1 1 3 22 -1 0 0 0 | 9 1 1 1 -1 1 0 0"), 5, 4);
    // 8: a row of set 0 is a row of another rule
    refuses(&after_context(ATOM), 3, 2);
    // 9: an object rule may have no body
    loads(OBJ);
    refuses(LACKING, 3, 2);
    loads(&after_context("1 1 3 22 -1 0 0 0"));
    refuses("1 1 3 22 5 0 0 0 | 1 1 3 22 6 0 0 0", 3, 3);
    // 10: a rule that begins with part 3
    refuses("1 1 3 22 -1 0 0 0", 4, 2);
    refuses("1 1 3 31 0 1 0 0", 3, 2);
    refuses("1 1 3 22 5 0 0 0 | 2 1 1 1 -1 1 0 0", 3, 2);
}

#[test]
fn too_many() {
    // 11: 5 in any readable row
    refuses("0 33 0 41 0 1 0 0", 5, 2);
    refuses("0 32 0 41 0 1 0 0", 3, 2);
    loads(&repeat(256, ATOM));
    refuses(&repeat(257, ATOM), 5, 258);
    refuses(&rows(&[&repeat(256, ATOM), OBJ, ATOM]), 5, 259);
    refuses(
        &rows(&[&repeat(256, ATOM), OBJ, "0 0 0 41 1 1 0 0"]),
        5,
        259,
    );
    // 12: the rows of the rule being read
    let four = repeat(4, OBJ);
    let three = repeat(3, OBJ);
    refuses(&rows(&[&four, "1 1 2 1 -1 1 0 0", OBJ]), 5, 7);
    refuses(&rows(&[&three, "1 1 2 1 -1 1 0 0", OBJ]), 3, 6);
    refuses(&rows(&[&four, "1 2 1 1 -1 1 -2 -3", OBJ]), 3, 7);
    refuses(&rows(&[&three, "1 2 1 1 -1 1 -2 -3", OBJ]), 3, 6);
    refuses(&repeat(5, OBJ), 5, 6);
    refuses(&rows(&[OBJ, &repeat(7, "1 1 2 1 -1 1 0 0")]), 5, 9);
    refuses(&rows(&[OBJ, &repeat(9, "1 1 3 31 0 1 0 0")]), 5, 11);
    loads(&rows(&[
        &four,
        &repeat(6, "1 1 2 1 -1 1 0 0"),
        &repeat(8, "1 1 3 31 0 1 0 0"),
    ]));
    // 13: 512 rows, those of set 0 among them
    let rules: Vec<String> = (0..256)
        .map(|k| format!("{} {} 1 1 -1 1 0 0", k / 32 + 1, k % 32 + 1))
        .collect();
    let rules = rules.join(" | ");
    loads(&rows(&[&repeat(256, ATOM), &rules]));
    refuses(
        &rows(&["0 0 0 40 0 1 1 1", &repeat(256, ATOM), &rules]),
        5,
        514,
    );
    refuses("9 1 1 1 -1 1 0 0", 5, 2);
    refuses("1 33 1 1 -1 1 0 0", 5, 2);
}

#[test]
fn order_of_rows() {
    for row in lines(
        "8 1 1 1 -1 1 0 0
         1 32 1 1 -1 1 0 0
         1 0 1 1 -1 1 0 0
         1 1 0 1 -1 1 0 0
         1 1 4 1 -1 1 0 0
         2 1 1 1 -1 1 0 0",
    ) {
        refuses(row, 3, 2);
    }
    for row in lines(
        "1 3 1 1 -1 1 0 0
         2 2 1 1 -1 1 0 0
         3 1 1 1 -1 1 0 0
         1 1 4 31 0 1 0 0",
    ) {
        refuses(&after_reason(row), 3, 3);
    }
    refuses(&rows(&[OBJ, "2 1 1 1 -1 1 0 0", "1 2 1 1 -1 1 0 0"]), 3, 4);
    refuses(&after_reason("1 1 3 31 0 1 0 0 | 1 1 2 1 -1 1 0 0"), 3, 4);
    refuses(&after_context(OBJ), 3, 3);
    // 21: a rule against its set's kind, at its first row
    refuses(&after_reason("1 2 3 31 0 1 0 0"), 3, 3);
    refuses(&after_reason("1 2 2 1 -1 1 0 0"), 3, 3);
    refuses(&after_context("1 1 3 22 -1 0 0 0 | 1 2 1 1 -1 1 0 0"), 3, 4);
    loads(&after_reason("2 1 2 3 -1 0 -9 -9 | 2 1 3 22 -1 0 0 0"));
    // 22: set 0 stands first, in any order
    loads(&rows(&[ATOM, "0 0 0 40 0 1 1 1", ATOM]));
    refuses(&rows(&[OBJ, ATOM]), 3, 3);
}

#[test]
fn set_0() {
    // 14: at most one ceiling of a predicate
    refuses("0 0 0 40 0 1 1 1 | 0 0 0 40 0 1 1 1", 3, 3);
    loads("0 0 0 40 0 1 1 1 | 0 0 0 40 0 2 1 1");
    // 15: an unused column
    refuses("0 0 0 41 1 1 0 0", 3, 2);
    for row in lines(
        "0 1 0 41 0 1 0 0
         0 0 1 41 0 1 0 0
         0 0 0 41 0 1 -1 0
         0 0 0 41 0 1 0 -9
         0 0 0 41 0 0 0 0
         0 0 0 40 1 1 1 1
         0 0 0 40 0 0 1 1
         0 0 0 40 0 1 0 1
         0 0 0 40 0 1 -1 1
         0 0 0 40 0 1 1 0
         0 0 0 40 0 1 1 256
         0 0 0 42 0 1 0 0
         0 0 0 1 0 1 0 0",
    ) {
        refuses(row, 3, 2);
    }
    loads("0 0 0 40 0 255 65535 255 | 0 0 0 41 0 255 65535 65535");
}

#[test]
fn queries() {
    let in_context = |t: &str| rows(&[t, "1 1 3 22 5 0 0 0"]);
    // 16: the columns that a query leaves unused; 19: the flag
    for row in lines(
        "1 1 2 1 -1 255 -2 -9
         1 1 2 2 -1 1 -2 -9
         1 1 2 3 -1 0 -2 -9
         1 1 2 4 -9 0 9 33
         1 1 2 5 -1 0 -2 0
         1 1 2 6 -1 0 99 0
         1 1 2 7 -1 0 -2 0
         1 1 2 8 -9 0 -9 0
         1 1 2 9 -1 0 3 0
         1 1 2 10 4 0 -9 0
         1 1 2 11 -1 0 1 0
         1 1 2 12 -9 0 16 0
         1 1 2 13 0 0 -1 0
         1 1 2 14 0 0 65535 0",
    ) {
        loads(&in_context(row));
    }
    for row in lines(
        "1 1 2 0 -1 1 0 0
         1 1 2 1 -1 0 -2 -9
         1 1 2 2 -1 0 -2 -9
         1 1 2 3 -1 1 -2 -9
         1 1 2 4 -1 1 -2 -9
         1 1 2 5 -1 1 -2 0
         1 1 2 5 -1 0 -2 -9
         1 1 2 6 -1 0 -2 1
         1 1 2 7 -1 0 -2 -3
         1 1 2 8 -1 1 -2 0
         1 1 2 9 -1 0 -2 1
         1 1 2 10 -1 1 -2 0
         1 1 2 11 -1 0 0 0
         1 1 2 11 -1 0 17 0
         1 1 2 11 -1 0 -2 0
         1 1 2 12 -1 0 -9 0
         1 1 2 12 -1 1 1 0
         1 1 2 11 -1 0 1 1
         1 1 2 13 -9 0 -1 0
         1 1 2 13 0 1 -1 0
         1 1 2 14 0 0 -1 1
         1 1 2 15 0 0 0 0",
    ) {
        refuses(&in_context(row), 3, 2);
    }
    // reasons use 1, an object rule's context 1 and 2
    refuses("1 1 1 2 -1 1 -2 -3", 3, 2);
    refuses("1 1 1 3 -1 0 -2 -3", 3, 2);
    loads(&after_reason("1 1 2 1 -9 1 -4 -5 | 1 1 2 2 -9 1 -6 -7"));
    refuses(&after_reason("1 1 2 3 -9 0 -9 -9"), 3, 3);
    // 20: constants are not tested for sense
    loads("1 1 2 3 0 0 9 33 | 1 1 2 5 65535 0 99 0 | 1 1 2 7 0 0 0 0 | 1 1 3 22 0 0 0 0");
}

#[test]
fn bodies() {
    loads(&after_context(
        "1 1 3 21 -9 255 -1 0 | 1 1 3 22 -1 0 0 0 | 1 1 3 23 -1 0 1 0 | 1 1 3 24 -1 0 16 0 | 1 1 3 25 -1 0 0 0",
    ));
    // 16 to 19 in actions
    for row in lines(
        "1 1 3 21 -9 0 0 0
         1 1 3 22 -1 1 0 0
         1 1 3 22 -1 0 1 0
         1 1 3 22 -1 0 0 1
         1 1 3 25 -1 0 0 -9
         1 1 3 23 -1 1 1 0
         1 1 3 24 -1 0 1 1
         1 1 3 20 -1 0 0 0
         1 1 3 26 -1 0 0 0
         1 1 3 31 0 1 0 0
         1 1 3 22 -9 0 0 0
         1 1 3 21 -9 1 -9 0
         1 1 3 21 -1 1 0 0
         1 1 3 21 5 1 0 0
         1 1 3 23 -1 0 -5 0
         1 1 3 23 -1 0 -1 0
         1 1 3 24 -1 0 -9 0
         1 1 3 23 -1 0 0 0
         1 1 3 24 -1 0 17 0",
    ) {
        refuses(&after_context(row), 3, 3);
    }
    refuses(&after_context("1 1 3 22 -2 0 0 0"), 4, 3);
    refuses(&after_context("1 1 3 21 -2 1 -2 0"), 4, 3);
    refuses(
        &after_context("1 1 3 21 -2 1 0 0 | 1 1 3 21 -2 1 0 0"),
        3,
        4,
    );
    loads(&after_context("1 1 3 21 -2 1 0 0 | 1 1 3 22 -2 0 0 0"));
    loads("1 1 2 2 -2 1 -3 0 | 1 1 3 21 -2 1 0 0 | 1 1 3 22 -2 0 0 0");
    // 16 and 17 in steps
    loads(&after_reason(
        "1 1 3 31 0 1 -1 0 | 1 1 3 32 0 255 -2 0 | 1 1 3 33 0 1 -3 0 | 1 1 3 34 -9 1 -1 -1 | 1 1 3 35 -1 0 0 0 | 1 1 3 36 -9 1 0 65535",
    ));
    for row in lines(
        "1 1 3 31 -9 1 0 0
         1 1 3 32 -1 1 0 0
         1 1 3 33 1 1 0 0
         1 1 3 34 0 1 0 0
         1 1 3 34 -4 1 0 0
         1 1 3 36 0 1 0 0
         1 1 3 31 0 0 0 0
         1 1 3 34 -9 0 0 0
         1 1 3 35 -1 1 0 0
         1 1 3 35 -1 0 1 0
         1 1 3 35 -1 0 0 1
         1 1 3 35 -9 0 0 0
         1 1 3 21 -9 1 0 0
         1 1 3 30 0 1 0 0
         1 1 3 37 -9 1 0 0
         1 1 3 31 0 1 -9 0
         1 1 3 31 0 1 -7 -9",
    ) {
        refuses(&after_reason(row), 3, 3);
    }
    refuses(&after_reason("1 1 3 31 0 1 -7 0"), 4, 3);
    refuses(&after_reason("1 1 3 36 -9 1 0 -7"), 4, 3);
    refuses(&after_reason("1 1 3 35 -7 0 0 0"), 4, 3);
    loads(&after_reason("1 1 2 1 -9 2 -7 0 | 1 1 3 31 0 1 -7 0"));
    refuses(&after_reason("1 1 2 2 -9 2 -7 0 | 1 1 3 31 0 1 -7 0"), 4, 4);
    refuses(
        &after_reason("1 2 1 1 -9 1 -9 -9 | 1 2 3 35 -1 0 0 0"),
        4,
        4,
    );
}

#[test]
fn a_program_is_its_rows() {
    let program = program(PRINTED);
    assert_eq!(program.rows.len(), 6);
    let r = program.rows[2];
    assert_eq!(
        (r.set, r.rule, r.part, r.op, r.i, r.p, r.a, r.b),
        (1, 1, 3, 36, -9, 3, -2, -3)
    );
}
