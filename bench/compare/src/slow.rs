//! Searches that would not end if every way were tried: for each a program that holds its atoms from the start.

use crate::workloads::Call;

pub struct Line {
    pub name: String,
    /// Calls that lead to the start.
    pub before: Vec<Call>,
    /// What is timed.
    pub work: Call,
    /// How many atoms and plans live afterwards: the work is what its name says.
    pub left: [u32; 2],
}

/// set rule part op i p a b, as written.
type Row = [i64; 8];

/// Any number.
const ANY: i64 = -9;

pub fn all() -> Vec<Line> {
    vec![
        everyday(20),
        everyday(60),
        fails("any 4 of 256 atoms, a fact is missing", anything(256, 4)),
        fails("any 9 of 256 atoms, a fact is missing", anything(256, 9)),
        fails("3 ids of 255 atoms, the last row asks for two", ids(255)),
        with_plans(
            "5 rows that the body does not use over 190 atoms, 63 plans",
            unused(63, 190, 5),
        ),
        fails(
            "chain of 7 over 225 pairs, its end is missing",
            chain(15, 7),
        ),
        fails("ring of 7 over 242 pairs between two sides", ring(11, 7)),
        fails(
            "4 of 240 atoms, each looked at again, a fact is missing",
            again(240, 4),
        ),
        fails("4 of 120 atoms, a row on the first fails", first(120, 4)),
        fails(
            "4 of 40 atoms, rows on pairs of them, a pair is missing",
            pairs(40),
        ),
        fails("3 of 120 atoms, one row on all three", triple(120)),
    ]
}

/// The load of the rows, and the sense that begins the cycle.
fn begun(rows: &[Row]) -> Vec<Call> {
    let line = |r: &Row| r.map(|n| n.to_string()).join(" ") + "\n";
    let lines: String = rows.iter().map(line).collect();
    let text = format!("set rule part op i p a b\n{lines}");
    vec![Call::Load(text.into_bytes()), Call::Sense(vec![])]
}

fn atom(p: i64, a: i64, b: i64) -> Row {
    [0, 0, 0, 41, 0, p, a, b]
}

/// Row k of a rule: the first four are reasons, the others context.
fn asks(k: usize, op: i64, i: i64, p: i64, a: i64, b: i64) -> Row {
    let part = if k < 4 { 1 } else { 2 };
    [1, 1, part, op, i, p, a, b]
}

fn context(op: i64, i: i64, p: i64, a: i64, b: i64) -> Row {
    [1, 1, 2, op, i, p, a, b]
}

/// The action of a rule.
fn acts(a: i64, b: i64) -> Row {
    [1, 1, 3, 31, 0, 9, a, b]
}

/// One step, in which no rule fires.
fn fails(name: &str, rows: Vec<Row>) -> Line {
    let atoms = rows.iter().filter(|r| r[0] == 0).count() as u32;
    Line {
        name: format!("step, {name}"),
        before: begun(&rows),
        work: Call::Step,
        left: [atoms, 0],
    }
}

/// A job needs some blank, some cutter and some clamp, `count` of each alive; its plan uses the job alone.
fn everyday(count: i64) -> Line {
    let job = |j| [1, 5, 6, 7].map(|p| atom(p, j, 100 + j));
    let mut rows: Vec<Row> = (0..count).flat_map(job).collect();
    rows.extend([
        [1, 1, 1, 1, ANY, 1, -1, -2],
        context(1, ANY, 5, -3, -4),
        context(1, ANY, 6, -5, -6),
        context(1, ANY, 7, -7, -8),
        acts(-1, -2),
        [2, 1, 2, 3, -1, 0, ANY, ANY],
        [2, 1, 2, 12, -1, 0, 2, 0],
        [2, 1, 3, 23, -1, 0, 2, 0],
    ]);
    Line {
        name: format!("run to the first action, {count} jobs, blanks, cutters, clamps"),
        before: begun(&rows),
        work: Call::Run(10_000),
        left: [4 * count as u32, count as u32],
    }
}

fn anything(atoms: i64, rows: usize) -> Vec<Row> {
    let mut all: Vec<Row> = (0..atoms).map(|j| atom(1, j, 0)).collect();
    let variable = |k: usize| if k < 4 { ANY } else { 3 - k as i64 };
    all.extend((0..rows).map(|k| asks(k, 1, variable(k), 1, ANY, ANY)));
    all.extend([context(1, ANY, 9, ANY, ANY), acts(0, 0)]);
    all
}

fn ids(atoms: i64) -> Vec<Row> {
    let mut all: Vec<Row> = (0..atoms).map(|j| atom(1, 60_000 + j, 60_000)).collect();
    all.extend([-1, -2, -3].map(|i| context(1, i, 1, ANY, ANY)));
    all.extend([context(1, -1, 1, -3, ANY), [1, 1, 3, 21, ANY, 2, 0, 0]]);
    all
}

/// Each reading has its plan; rows over the blanks give variables that the body does not use.
fn unused(readings: i64, blanks: i64, rows: i64) -> Vec<Row> {
    let mut all: Vec<Row> = (0..readings).map(|j| atom(1, j, 1200)).collect();
    all.extend((0..blanks).map(|j| atom(5, j, j)));
    all.push([1, 1, 1, 1, ANY, 1, -1, -2]);
    all.extend((0..rows).map(|k| context(1, ANY, 5, -3 - k, ANY)));
    all.push(acts(-1, -2));
    all
}

/// The step that finds that every reading has its plan.
fn with_plans(name: &str, rows: Vec<Row>) -> Line {
    let plans = rows.iter().filter(|r| r[0] == 0 && r[5] == 1).count();
    let mut line = fails(name, rows);
    line.before.extend((0..plans).map(|_| Call::Step));
    line.left[1] = plans as u32;
    line
}

fn chain(points: i64, length: i64) -> Vec<Row> {
    let pair = |n| atom(1, n / points, n % points);
    let mut all: Vec<Row> = (0..points * points).map(pair).collect();
    all.push(atom(2, 999, 0));
    all.extend((0..length).map(|k| asks(k as usize, 1, ANY, 1, -1 - k, -2 - k)));
    all.extend([context(1, ANY, 2, -1 - length, ANY), acts(0, 0)]);
    all
}

/// A ring of odd length has no place in a graph of two sides.
fn ring(points: i64, length: i64) -> Vec<Row> {
    let there = |n| atom(1, n / points, points + n % points);
    let back = |n| atom(1, points + n % points, n / points);
    let mut all: Vec<Row> = (0..points * points).map(there).collect();
    all.extend((0..points * points).map(back));
    all.extend((0..length).map(|k| asks(k as usize, 1, ANY, 1, -1 - k, -1 - (k + 1) % length)));
    all.push(acts(0, 0));
    all
}

fn again(atoms: i64, rows: i64) -> Vec<Row> {
    let mut all: Vec<Row> = (0..atoms).map(|j| atom(1, j, 0)).collect();
    all.extend((0..rows).map(|k| asks(k as usize, 1, ANY, 1, -1 - k, ANY)));
    all.extend((0..rows).map(|k| context(1, ANY, 1, -1 - k, ANY)));
    all.extend([context(1, ANY, 9, ANY, ANY), acts(0, 0)]);
    all
}

fn first(atoms: i64, rows: i64) -> Vec<Row> {
    let mut all: Vec<Row> = (0..atoms).map(|j| atom(1, j, 0)).collect();
    all.push(atom(2, 999, 0));
    all.extend((0..rows).map(|k| asks(k as usize, 1, ANY, 1, -1 - k, ANY)));
    all.extend((1..rows).map(|k| context(1, ANY, 1, -1 - k, ANY)));
    all.extend([context(1, ANY, 2, -1, ANY), acts(0, 0)]);
    all
}

/// Five rows deny pairs that few atoms have, and the last asks for a pair that none has.
fn pairs(atoms: i64) -> Vec<Row> {
    let mut all: Vec<Row> = (0..atoms).map(|j| atom(1, j, 0)).collect();
    // scattered by a step that has no factor in common with the number of pairs
    let place = |n: i64| n * 1_009 % (atoms * atoms);
    all.extend((0..254 - atoms).map(|n| atom(2, place(n) / atoms, place(n) % atoms)));
    all.extend((0..4).map(|k| asks(k as usize, 1, ANY, 1, -1 - k, ANY)));
    let denied = [(-1, -4), (-2, -4), (-3, -4), (-1, -3), (-2, -3)];
    all.extend(denied.map(|(a, b)| context(2, ANY, 2, a, b)));
    all.extend([context(1, ANY, 3, -1, -4), acts(0, 0)]);
    all
}

/// Every three are tried: the one row that tells them apart looks at all of them.
fn triple(atoms: i64) -> Vec<Row> {
    let mut all: Vec<Row> = (0..atoms).map(|j| atom(1, j, 0)).collect();
    all.push(atom(2, 700, 0));
    all.extend((0..3).map(|k| asks(k as usize, 1, ANY, 1, -1 - k, ANY)));
    all.extend([context(1, -1, 2, -2, -3), acts(0, 0)]);
    all
}
