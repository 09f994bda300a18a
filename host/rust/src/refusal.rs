//! Refusals in plain words.

use std::error::Error;
use std::fmt;

/// Why a call was refused. It has left everything as it was.
#[derive(Clone, Copy, Debug, PartialEq, Eq)]
pub struct Refusal {
    /// 1 to 12.
    pub number: u32,
    /// The line of the text, if a load was refused.
    pub line: Option<u32>,
}

impl Refusal {
    pub(crate) fn of_call(number: u32) -> Self {
        Refusal { number, line: None }
    }

    /// A load's result: number + line * 2^32.
    pub(crate) fn of_load(result: u64) -> Self {
        Refusal {
            number: result as u32,
            line: Some((result >> 32) as u32),
        }
    }

    /// The cause in plain words.
    pub fn cause(&self) -> &'static str {
        match self.number {
            1 => "program or configuration not well formed",
            2 => "text not as laid out",
            3 => "row breaks a rule of its op, part or order",
            4 => "body variable without value",
            5 => "set over 8, rule over 32, too many rows or initial atoms",
            6 => "call out of turn",
            7 => "sense row, number of sense rows, answer or run limit out of range",
            8 => "next id 65536 and one more needed",
            9 => "256 atoms alive and one more needed",
            10 => "64 plans alive and one more needed",
            11 => "cycle 65535 would end",
            12 => "delete of an id not alive",
            _ => "no refusal of the table",
        }
    }
}

impl fmt::Display for Refusal {
    fn fmt(&self, f: &mut fmt::Formatter) -> fmt::Result {
        write!(f, "refused {}", self.number)?;
        if let Some(line) = self.line {
            write!(f, " at line {line}")?;
        }
        write!(f, ": {}", self.cause())
    }
}

impl Error for Refusal {}
