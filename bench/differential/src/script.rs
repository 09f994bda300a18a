//! What is done to both implementations, and its lines in the language of `replay`.

use std::fmt;

use crate::configs::{atom_words, config_of, plan_words, Image};

#[derive(Clone, Debug)]
pub enum Call {
    /// The words of the rows.
    Sense(Vec<u32>),
    Step,
    Answer(u32),
    Delete(u32),
    Run(u32),
}

/// By how much the lent tables are longer than they should be.
#[derive(Clone, Copy, Debug, Default, PartialEq, Eq)]
pub struct Longer {
    pub program: isize,
    pub words: isize,
    pub scalars: isize,
    pub report: isize,
}

#[derive(Clone, Debug)]
pub enum Item {
    /// A text: its program and fresh configuration.
    Load(Vec<u8>, Longer),
    /// A text: its program; the configuration stays.
    Program(Vec<u8>),
    /// The program's words, whatever they are; the configuration stays.
    Rows(Vec<u32>),
    /// A configuration, whatever it is.
    Config(Image),
    Call(Call, Longer),
}

/// The lines of a script. The texts are files beside it, numbered as they come.
pub struct Script<'a>(pub &'a [Item]);

impl Script<'_> {
    /// The files that the script loads.
    pub fn texts(&self) -> impl Iterator<Item = (String, &[u8])> {
        let texts = self.0.iter().filter_map(|item| match item {
            Item::Load(text, _) | Item::Program(text) => Some(&text[..]),
            _ => None,
        });
        (1..).map(file).zip(texts)
    }
}

fn file(k: usize) -> String {
    format!("{k}.prog")
}

impl fmt::Display for Script<'_> {
    fn fmt(&self, f: &mut fmt::Formatter) -> fmt::Result {
        let mut files = (1..).map(file);
        let mut next_file = || files.next().unwrap_or_default();
        for item in self.0 {
            match item {
                Item::Load(_, longer) => writeln!(f, "{longer}load {}", next_file())?,
                Item::Program(_) => writeln!(f, "program {}", next_file())?,
                // no text loads to them, so they are beyond the language of scripts
                Item::Rows(words) => writeln!(f, "# the program's words are now{}", Spaced(words))?,
                Item::Config(image) => config(f, image)?,
                Item::Call(call, longer) => writeln!(f, "{longer}{call}")?,
            }
        }
        Ok(())
    }
}

fn config(f: &mut fmt::Formatter, image: &Image) -> fmt::Result {
    let [.., atoms, plans] = image.scalars;
    if atoms > 256 || plans > 64 {
        writeln!(f, "# the counts are {atoms} atoms and {plans} plans")?;
    }
    let config = config_of(&image.words[..], &image.scalars);
    writeln!(f, "config{}", Spaced(&image.scalars[..4]))?;
    for x in &config.atoms {
        writeln!(f, "atom{}", Spaced(&atom_words(x)))?;
    }
    for q in &config.plans {
        writeln!(f, "plan{}", Spaced(&plan_words(q)))?;
    }
    Ok(())
}

impl fmt::Display for Call {
    fn fmt(&self, f: &mut fmt::Formatter) -> fmt::Result {
        match self {
            Call::Sense(rows) => write!(f, "sense{}", Spaced(rows)),
            Call::Step => write!(f, "step"),
            Call::Answer(n) => write!(f, "answer {n}"),
            Call::Delete(id) => write!(f, "delete {id}"),
            Call::Run(limit) => write!(f, "run {limit}"),
        }
    }
}

impl fmt::Display for Longer {
    fn fmt(&self, f: &mut fmt::Formatter) -> fmt::Result {
        if *self == Longer::default() {
            return Ok(());
        }
        writeln!(
            f,
            "# the next call is lent so many words more: program {}, words {}, scalars {}, report {}",
            self.program, self.words, self.scalars, self.report
        )
    }
}

/// Numbers, each behind a space.
struct Spaced<'a>(&'a [u32]);

impl fmt::Display for Spaced<'_> {
    fn fmt(&self, f: &mut fmt::Formatter) -> fmt::Result {
        self.0.iter().try_for_each(|n| write!(f, " {n}"))
    }
}
