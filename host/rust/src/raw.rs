//! The calls on lent words, for hosts that keep the tables themselves.
//!
//! A call gives the refusal's number, or 0. A refused call leaves every lent word as it was. A slice of another length than
//! [`WORDS`], [`SCALARS`] or [`REPORT`] is refused with 1, and so is one that is no program or no configuration of it.
//!
//! | slice | what stands in it |
//! |---|---|
//! | `program` | 8 words a row: set rule part op i p a b, where i, a and b are [`OPERAND`] higher than written |
//! | `words` | 256 atoms by columns: the ids from [`ATOM_ID`] on, then [`ATOM_P`], [`ATOM_A`], [`ATOM_B`], [`ATOM_CYCLE`]; from [`PLANS_AT`] on 64 plans of 18 words: id set rule left flags subgoal, four justifications with 0 behind, eight values with [`NO_VALUE`] for none |
//! | `scalars` | phase, cycle, next id, the plan that waits or 0, how many atoms live, how many plans |
//! | `report` | made, gone, then what the call did, with zeros behind (see each call) |
//!
//! Atoms and plans stand in rising id. Words behind the last live atom of a column, or behind the last live plan, may hold anything.

#![allow(unsafe_code)]

mod library;
pub(crate) mod trusted;

/// The layout of what is saved. A host keeps it beside a saved configuration and hands in no words that were saved under another.
pub const VERSION: u32 = 2;
/// The words that [`load`] wants for a program: 512 rows of 8.
pub const PROGRAM: usize = 4096;
/// The words of a configuration.
pub const WORDS: usize = 2432;
/// The scalars of a configuration.
pub const SCALARS: usize = 6;
/// The words of a report.
pub const REPORT: usize = 8;
/// The words of a program's row.
pub const ROW: usize = 8;
/// Where the ids of the atoms begin among the words.
pub const ATOM_ID: usize = 0;
/// Where the atoms' predicates begin.
pub const ATOM_P: usize = 256;
/// Where the atoms' first arguments begin.
pub const ATOM_A: usize = 512;
/// Where the atoms' second arguments begin.
pub const ATOM_B: usize = 768;
/// Where the cycles begin in which the atoms were made.
pub const ATOM_CYCLE: usize = 1024;
/// The words of a plan.
pub const PLAN: usize = 18;
/// Where the plans begin among the words.
pub const PLANS_AT: usize = 1280;
/// The value of a variable that has none.
pub const NO_VALUE: u32 = 65_536;
/// How much higher than written an operand stands in a program's words: any (-9) is 0, a constant n is n + 9.
pub const OPERAND: u32 = 9;

/// Reads a program text into `program` ([`PROGRAM`] words) and begins its configuration. Gives 0, and in the report how many rows
/// the program has: later calls are given the first rows * 8 words. Refused, it gives number + line * 2^32.
pub fn load(
    text: &[u8],
    program: &mut [u32],
    words: &mut [u32],
    scalars: &mut [u32],
    report: &mut [u32],
) -> u64 {
    // Here and below: each pointer comes with its slice's length; slices of Rust are aligned and do not overlap where one is lent
    // to be changed; and the library is proved to keep to the lengths that it is given.
    unsafe {
        library::jq_load(
            text.as_ptr(),
            text.len(),
            program.as_mut_ptr(),
            program.len(),
            words.as_mut_ptr(),
            words.len(),
            scalars.as_mut_ptr(),
            scalars.len(),
            report.as_mut_ptr(),
            report.len(),
        )
    }
}

/// For what was saved: 0 if program and configuration are well formed together, else 1, also for wrong lengths. The calls below test
/// this themselves.
pub fn check(program: &[u32], words: &[u32], scalars: &[u32]) -> u32 {
    unsafe {
        library::jq_check(
            program.as_ptr(),
            program.len(),
            words.as_ptr(),
            words.len(),
            scalars.as_ptr(),
            scalars.len(),
        )
    }
}

/// Takes rows of four words: sign (1 add, 2 withdraw), p, a, b. Report: made, gone.
pub fn sense(
    program: &[u32],
    words: &mut [u32],
    scalars: &mut [u32],
    rows: &[u32],
    report: &mut [u32],
) -> u32 {
    unsafe { with_rows(library::jq_sense, program, words, scalars, rows, report) }
}

/// One step. Report: made, gone, what it did: 1 fired (set, rule, then 0 none, 1 atom or 2 plan, its id), 2 moved on, 3 executed
/// (plan, then 1 empty, 2 held, 3 done, 4 failed), 4 waits (plan, p, a, b), 5 the cycle ended.
pub fn step(program: &[u32], words: &mut [u32], scalars: &mut [u32], report: &mut [u32]) -> u32 {
    unsafe { alone(library::jq_step, program, words, scalars, report) }
}

/// Ends the waiting: 1 the action was done, 0 it failed. Report: made, gone.
pub fn answer(
    program: &[u32],
    words: &mut [u32],
    scalars: &mut [u32],
    n: u32,
    report: &mut [u32],
) -> u32 {
    unsafe { with_number(library::jq_answer, program, words, scalars, n, report) }
}

/// Deletes an atom or a plan with all that was raised from it. Report: made, gone.
pub fn delete(
    program: &[u32],
    words: &mut [u32],
    scalars: &mut [u32],
    id: u32,
    report: &mut [u32],
) -> u32 {
    unsafe { with_number(library::jq_delete, program, words, scalars, id, report) }
}

/// Takes up to `limit` steps (1 to 10,000). Report: made, gone, why it stopped: 1 phase 0, 2 a plan waits, 3 the limit, 4 a next
/// step that would be refused; then the steps taken, and the number of that refusal.
pub fn run(
    program: &[u32],
    words: &mut [u32],
    scalars: &mut [u32],
    limit: u32,
    report: &mut [u32],
) -> u32 {
    unsafe { with_number(library::jq_run, program, words, scalars, limit, report) }
}

/// A call with no parameter of its own.
type Call = unsafe extern "C" fn(
    *const u32,
    usize,
    *mut u32,
    usize,
    *mut u32,
    usize,
    *mut u32,
    usize,
) -> u32;

/// A call whose only parameter of its own is a number.
type NumberCall = unsafe extern "C" fn(
    *const u32,
    usize,
    *mut u32,
    usize,
    *mut u32,
    usize,
    u32,
    *mut u32,
    usize,
) -> u32;

/// A call whose only parameter of its own is a table of rows.
type RowsCall = unsafe extern "C" fn(
    *const u32,
    usize,
    *mut u32,
    usize,
    *mut u32,
    usize,
    *const u32,
    usize,
    *mut u32,
    usize,
) -> u32;

/// # Safety
/// What the call wants of the tables, beside their lengths, holds. Of the tested calls none wants anything.
unsafe fn alone(
    call: Call,
    program: &[u32],
    words: &mut [u32],
    scalars: &mut [u32],
    report: &mut [u32],
) -> u32 {
    call(
        program.as_ptr(),
        program.len(),
        words.as_mut_ptr(),
        words.len(),
        scalars.as_mut_ptr(),
        scalars.len(),
        report.as_mut_ptr(),
        report.len(),
    )
}

/// # Safety
/// As [`alone`].
unsafe fn with_number(
    call: NumberCall,
    program: &[u32],
    words: &mut [u32],
    scalars: &mut [u32],
    n: u32,
    report: &mut [u32],
) -> u32 {
    call(
        program.as_ptr(),
        program.len(),
        words.as_mut_ptr(),
        words.len(),
        scalars.as_mut_ptr(),
        scalars.len(),
        n,
        report.as_mut_ptr(),
        report.len(),
    )
}

/// # Safety
/// As [`alone`].
unsafe fn with_rows(
    call: RowsCall,
    program: &[u32],
    words: &mut [u32],
    scalars: &mut [u32],
    rows: &[u32],
    report: &mut [u32],
) -> u32 {
    call(
        program.as_ptr(),
        program.len(),
        words.as_mut_ptr(),
        words.len(),
        scalars.as_mut_ptr(),
        scalars.len(),
        rows.as_ptr(),
        rows.len(),
        report.as_mut_ptr(),
        report.len(),
    )
}
