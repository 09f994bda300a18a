//! A program and a configuration that are well formed together, and the calls without the test of it.

#![allow(unsafe_code)]

use crate::raw::{self, trusted, PROGRAM, REPORT, ROW, SCALARS, WORDS};
use crate::refusal::Refusal;
use crate::report::Report;

/// A program and a configuration that are well formed together, as the trusted calls want them. They always are: the fields are
/// private to this file; a load is proved to give such a pair, and every call to leave one; a pair from elsewhere, by `restore` or
/// `replace_program`, is tested before it is taken. The lengths are those of the types.
#[derive(Clone, Debug)]
pub(crate) struct Formed {
    program: Vec<u32>,
    words: Box<[u32; WORDS]>,
    scalars: [u32; SCALARS],
}

impl Formed {
    pub fn load(text: &[u8]) -> Result<Self, Refusal> {
        let mut program = vec![0; PROGRAM];
        let mut words = Box::new([0; WORDS]);
        let mut scalars = [0; SCALARS];
        let mut report = [0; REPORT];
        let result = raw::load(
            text,
            &mut program,
            &mut words[..],
            &mut scalars,
            &mut report,
        );
        if result != 0 {
            return Err(Refusal::of_load(result));
        }
        program.truncate(report[0] as usize * ROW);
        program.shrink_to_fit();
        Ok(Formed {
            program,
            words,
            scalars,
        })
    }

    pub fn restore(program: &[u32], words: &[u32], scalars: &[u32]) -> Result<Self, Refusal> {
        // in this order: a table that is checked has its length
        check(program, words, scalars)?;
        let mut formed = Formed {
            program: program.to_vec(),
            words: Box::new([0; WORDS]),
            scalars: [0; SCALARS],
        };
        formed.words.copy_from_slice(words);
        formed.scalars.copy_from_slice(scalars);
        Ok(formed)
    }

    pub fn replace_program(&mut self, text: &[u8]) -> Result<(), Refusal> {
        let program = Formed::load(text)?.program;
        check(&program, &self.words[..], &self.scalars)?;
        self.program = program;
        Ok(())
    }

    // Safety, of all calls below: the pair is well formed, as the type says.

    pub fn sense(&mut self, rows: &[u32]) -> Result<Report, Refusal> {
        self.call(|program, words, scalars, report| unsafe {
            trusted::sense(program, words, scalars, rows, report)
        })
    }

    pub fn step(&mut self) -> Result<Report, Refusal> {
        self.call(|program, words, scalars, report| unsafe {
            trusted::step(program, words, scalars, report)
        })
    }

    pub fn answer(&mut self, n: u32) -> Result<Report, Refusal> {
        self.call(|program, words, scalars, report| unsafe {
            trusted::answer(program, words, scalars, n, report)
        })
    }

    pub fn delete(&mut self, id: u32) -> Result<Report, Refusal> {
        self.call(|program, words, scalars, report| unsafe {
            trusted::delete(program, words, scalars, id, report)
        })
    }

    pub fn run(&mut self, limit: u32) -> Result<Report, Refusal> {
        self.call(|program, words, scalars, report| unsafe {
            trusted::run(program, words, scalars, limit, report)
        })
    }

    fn call(
        &mut self,
        call: impl FnOnce(&[u32], &mut [u32], &mut [u32], &mut [u32]) -> u32,
    ) -> Result<Report, Refusal> {
        let mut report = [0; REPORT];
        match call(
            &self.program,
            &mut self.words[..],
            &mut self.scalars,
            &mut report,
        ) {
            0 => Ok(report),
            number => Err(Refusal::of_call(number)),
        }
    }

    pub fn program(&self) -> &[u32] {
        &self.program
    }

    pub fn words(&self) -> &[u32; WORDS] {
        &self.words
    }

    pub fn scalars(&self) -> &[u32; SCALARS] {
        &self.scalars
    }
}

fn check(program: &[u32], words: &[u32], scalars: &[u32]) -> Result<(), Refusal> {
    match raw::check(program, words, scalars) {
        0 => Ok(()),
        number => Err(Refusal::of_call(number)),
    }
}
