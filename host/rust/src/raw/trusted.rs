//! The calls without the test of refusal 1: parameters, answers and reports are those of the tested calls.
//!
//! # Safety
//!
//! Of every call here: `program` and the configuration in `words` and `scalars` are well formed together, as [`super::check`] tests
//! it, and `words`, `scalars` and `report` have their stated lengths. Under this the library is proved to give the answer of the
//! tested call and to leave a configuration for which it holds again. If it does not hold, anything may happen.

use super::{alone, library, with_number, with_rows};

/// # Safety
/// As of all calls here.
pub unsafe fn sense(
    program: &[u32],
    words: &mut [u32],
    scalars: &mut [u32],
    rows: &[u32],
    report: &mut [u32],
) -> u32 {
    with_rows(
        library::jq_trusted_sense,
        program,
        words,
        scalars,
        rows,
        report,
    )
}

/// # Safety
/// As of all calls here.
pub unsafe fn step(
    program: &[u32],
    words: &mut [u32],
    scalars: &mut [u32],
    report: &mut [u32],
) -> u32 {
    alone(library::jq_trusted_step, program, words, scalars, report)
}

/// # Safety
/// As of all calls here.
pub unsafe fn answer(
    program: &[u32],
    words: &mut [u32],
    scalars: &mut [u32],
    n: u32,
    report: &mut [u32],
) -> u32 {
    with_number(
        library::jq_trusted_answer,
        program,
        words,
        scalars,
        n,
        report,
    )
}

/// # Safety
/// As of all calls here.
pub unsafe fn delete(
    program: &[u32],
    words: &mut [u32],
    scalars: &mut [u32],
    id: u32,
    report: &mut [u32],
) -> u32 {
    with_number(
        library::jq_trusted_delete,
        program,
        words,
        scalars,
        id,
        report,
    )
}

/// # Safety
/// As of all calls here.
pub unsafe fn run(
    program: &[u32],
    words: &mut [u32],
    scalars: &mut [u32],
    limit: u32,
    report: &mut [u32],
) -> u32 {
    with_number(
        library::jq_trusted_run,
        program,
        words,
        scalars,
        limit,
        report,
    )
}
