//! The library's functions, as juntiqel.h declares them, and those without tests that it leaves out.

extern "C" {
    pub fn jq_load(
        text: *const u8,
        text_length: usize,
        program: *mut u32,
        program_length: usize,
        words: *mut u32,
        words_length: usize,
        scalars: *mut u32,
        scalars_length: usize,
        report: *mut u32,
        report_length: usize,
    ) -> u64;

    pub fn jq_check(
        program: *const u32,
        program_length: usize,
        words: *const u32,
        words_length: usize,
        scalars: *const u32,
        scalars_length: usize,
    ) -> u32;

    pub fn jq_sense(
        program: *const u32,
        program_length: usize,
        words: *mut u32,
        words_length: usize,
        scalars: *mut u32,
        scalars_length: usize,
        rows: *const u32,
        rows_length: usize,
        report: *mut u32,
        report_length: usize,
    ) -> u32;

    pub fn jq_step(
        program: *const u32,
        program_length: usize,
        words: *mut u32,
        words_length: usize,
        scalars: *mut u32,
        scalars_length: usize,
        report: *mut u32,
        report_length: usize,
    ) -> u32;

    pub fn jq_answer(
        program: *const u32,
        program_length: usize,
        words: *mut u32,
        words_length: usize,
        scalars: *mut u32,
        scalars_length: usize,
        n: u32,
        report: *mut u32,
        report_length: usize,
    ) -> u32;

    pub fn jq_delete(
        program: *const u32,
        program_length: usize,
        words: *mut u32,
        words_length: usize,
        scalars: *mut u32,
        scalars_length: usize,
        id: u32,
        report: *mut u32,
        report_length: usize,
    ) -> u32;

    pub fn jq_run(
        program: *const u32,
        program_length: usize,
        words: *mut u32,
        words_length: usize,
        scalars: *mut u32,
        scalars_length: usize,
        limit: u32,
        report: *mut u32,
        report_length: usize,
    ) -> u32;

    pub fn jq_trusted_sense(
        program: *const u32,
        program_length: usize,
        words: *mut u32,
        words_length: usize,
        scalars: *mut u32,
        scalars_length: usize,
        rows: *const u32,
        rows_length: usize,
        report: *mut u32,
        report_length: usize,
    ) -> u32;

    pub fn jq_trusted_step(
        program: *const u32,
        program_length: usize,
        words: *mut u32,
        words_length: usize,
        scalars: *mut u32,
        scalars_length: usize,
        report: *mut u32,
        report_length: usize,
    ) -> u32;

    pub fn jq_trusted_answer(
        program: *const u32,
        program_length: usize,
        words: *mut u32,
        words_length: usize,
        scalars: *mut u32,
        scalars_length: usize,
        n: u32,
        report: *mut u32,
        report_length: usize,
    ) -> u32;

    pub fn jq_trusted_delete(
        program: *const u32,
        program_length: usize,
        words: *mut u32,
        words_length: usize,
        scalars: *mut u32,
        scalars_length: usize,
        id: u32,
        report: *mut u32,
        report_length: usize,
    ) -> u32;

    pub fn jq_trusted_run(
        program: *const u32,
        program_length: usize,
        words: *mut u32,
        words_length: usize,
        scalars: *mut u32,
        scalars_length: usize,
        limit: u32,
        report: *mut u32,
        report_length: usize,
    ) -> u32;
}
