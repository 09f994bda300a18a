//! From a text to rows and the fresh configuration.

use crate::config::{key, Config};
use crate::program::{Index, Row};
use crate::rows::Tester;

const NAMES: &[u8] = b"set rule part op i p a b\n";

/// One integer, ended by `end`: the number (or a far one, when it is too long) and the rest.
#[inline]
fn integer(text: &[u8], mut at: usize, end: u8) -> Option<(i32, usize)> {
    let minus = text.get(at) == Some(&b'-');
    at += minus as usize;
    let from = at;
    let mut x: i32 = 0;
    while let Some(d) = text
        .get(at)
        .map(|c| c.wrapping_sub(b'0'))
        .filter(|d| *d < 10)
    {
        x = if x < 1_000_000 {
            x * 10 + d as i32
        } else {
            1_000_000
        };
        at += 1;
    }
    let digits = at - from;
    if digits == 0 || (text[from] == b'0' && (digits > 1 || minus)) || text.get(at) != Some(&end) {
        return None;
    }
    Some((if minus { -x } else { x }, at + 1))
}

fn read_row(text: &[u8], at: usize) -> Option<(Row, usize)> {
    let (set, at) = integer(text, at, b' ')?;
    let (rule, at) = integer(text, at, b' ')?;
    let (part, at) = integer(text, at, b' ')?;
    let (op, at) = integer(text, at, b' ')?;
    let (i, at) = integer(text, at, b' ')?;
    let (p, at) = integer(text, at, b' ')?;
    let (a, at) = integer(text, at, b' ')?;
    let (b, at) = integer(text, at, b'\n')?;
    let plain = |x: i32| (0..=65535).contains(&x);
    let operand = |x: i32| (-9..=65535).contains(&x);
    if !(plain(set)
        && plain(rule)
        && plain(part)
        && plain(op)
        && operand(i)
        && (0..=255).contains(&p)
        && operand(a)
        && operand(b))
    {
        return None;
    }
    Some((
        Row {
            set: set as u16,
            rule: rule as u16,
            part: part as u16,
            op: op as u16,
            p: p as u16,
            i,
            a,
            b,
        },
        at,
    ))
}

/// Loads a text into `rows`, `index` and `config`. Refused: (number, line); the configuration is left as it was, rows and index are not.
pub fn load(
    text: &[u8],
    rows: &mut Vec<Row>,
    index: &mut Index,
    config: &mut Config,
) -> Result<(), (u8, u32)> {
    rows.clear();
    index.clear();
    if !text.starts_with(NAMES) {
        return Err((2, 1));
    }
    let mut tester = Tester::new();
    let (mut at, mut line) = (NAMES.len(), 1u32);
    while at < text.len() {
        line += 1;
        let Some((row, after)) = read_row(text, at) else {
            return Err((2, line));
        };
        if (row.set != tester.set || row.rule != tester.rule) && tester.lacks() {
            return Err((3, line - 1));
        }
        if let Err(no) = tester.take(&row, index) {
            return Err((no, line));
        }
        rows.push(row);
        at = after;
    }
    if tester.lacks() {
        return Err((3, line));
    }
    tester.close(index);
    config.fresh();
    for row in rows
        .iter()
        .take_while(|r| r.set == 0)
        .filter(|r| r.op == 41)
    {
        config.push_atom(key(row.p, row.a as u16, row.b as u16));
    }
    Ok(())
}
