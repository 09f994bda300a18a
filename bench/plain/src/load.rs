//! Reading a program text.

use crate::program::{Program, Row, ANY};
use crate::refusal;
use crate::scan::{Fault, Scan};

const NAMES: &[u8] = b"set rule part op i p a b";

/// The program that a text loads to, or the refusal's number and line.
pub fn load(text: &[u8]) -> Result<Program, (u32, u32)> {
    // Every line with its byte 10, except perhaps the last.
    let mut lines = text
        .split_inclusive(|&c| c == b'\n')
        .map(|l| l.strip_suffix(b"\n"));
    if lines.next().flatten() != Some(NAMES) {
        return Err((refusal::LAYOUT, 1));
    }
    let mut scan = Scan::new(text.len() / 16);
    let mut rows = Vec::new();
    let mut line = 1;
    for l in lines {
        line += 1;
        let Some(row) = l.and_then(read_row) else {
            return Err((refusal::LAYOUT, line));
        };
        scan.take(&row).map_err(|fault| match fault {
            Fault::RuleLacksRows => (refusal::BROKEN_RULE, line - 1),
            Fault::Row(number) => (number, line),
        })?;
        rows.push(row);
    }
    scan.finish().map_err(|_| (refusal::BROKEN_RULE, line))?;
    Ok(Program { rows })
}

/// Eight integers with one space between, each in its column's range.
fn read_row(line: &[u8]) -> Option<Row> {
    let mut fields = line.split(|&c| c == b' ');
    let mut integer = || read_integer(fields.next()?);
    let (set, rule, part, op) = (integer()?, integer()?, integer()?, integer()?);
    let (i, p, a, b) = (integer()?, integer()?, integer()?, integer()?);
    if fields.next().is_some() || p > 255 {
        return None;
    }
    let natural = |n: i32| u32::try_from(n).ok();
    Some(Row {
        set: natural(set)?,
        rule: natural(rule)?,
        part: natural(part)?,
        op: natural(op)?,
        i,
        p: natural(p)?,
        a,
        b,
    })
}

/// An integer from -9 to 65,535 without plus sign, leading zero or minus zero.
fn read_integer(field: &[u8]) -> Option<i32> {
    let (digits, negative) = match field.strip_prefix(b"-") {
        Some(rest) => (rest, true),
        None => (field, false),
    };
    let starts_well = match digits.first()? {
        b'0' => digits.len() == 1 && !negative,
        _ => digits.len() <= 5,
    };
    if !starts_well || !digits.iter().all(u8::is_ascii_digit) {
        return None;
    }
    let size = digits.iter().fold(0, |n, &c| n * 10 + i32::from(c - b'0'));
    let n = if negative { -size } else { size };
    (ANY..=65_535).contains(&n).then_some(n)
}
