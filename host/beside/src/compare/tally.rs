//! What a run has seen: cases, answers by number, listed differences, and differences that are not listed.
use super::known::Known;
use std::collections::BTreeMap;
use std::fmt::{self, Write};

/// How many differences are printed in full.
pub const PRINTED: usize = 20;

/// The counts of one section.
#[derive(Debug, Clone, Default)]
pub struct Tally {
    /// Calls that were compared.
    pub cases: u64,
    /// How often each number was the answer.
    answers: BTreeMap<u32, u64>,
    /// How often each listed difference was met.
    pub known: BTreeMap<Known, u64>,
    /// How many cases differed.
    pub differences: u64,
    /// The first of them in full.
    printed: Vec<String>,
}

impl Tally {
    /// A case whose answer is as it should be, or is not; `about` says all that is needed to repeat it.
    pub fn case(&mut self, answer: u32, same: bool, about: impl FnOnce() -> String) {
        self.cases += 1;
        *self.answers.entry(answer).or_default() += 1;
        if !same {
            self.differences += 1;
            if self.printed.len() < PRINTED {
                self.printed.push(about());
            }
        }
    }

    /// A listed difference was met.
    pub fn known(&mut self, which: Known) {
        *self.known.entry(which).or_default() += 1;
    }

    /// Takes in the counts of another.
    pub fn add(&mut self, other: Self) {
        self.cases += other.cases;
        self.differences += other.differences;
        for (number, count) in other.answers {
            *self.answers.entry(number).or_default() += count;
        }
        for (which, count) in other.known {
            *self.known.entry(which).or_default() += count;
        }
        let room = PRINTED - self.printed.len();
        self.printed.extend(other.printed.into_iter().take(room));
    }

    /// Prints as many of the differences as `most` and this tally allow, with `head` as the first line of each.
    pub fn print_differences(&self, most: usize, head: &str) {
        for text in self.printed.iter().take(most) {
            println!("DIFFERENCE {head}\n{text}");
        }
    }
}

impl fmt::Display for Tally {
    fn fmt(&self, to: &mut fmt::Formatter<'_>) -> fmt::Result {
        let mut line = format!("{:>9} cases:", self.cases);
        for (number, count) in &self.answers {
            match number {
                0 => write!(line, " done {count}")?,
                _ => write!(line, ", {number}: {count}")?,
            }
        }
        to.write_str(&line.replace(":,", ":"))
    }
}
