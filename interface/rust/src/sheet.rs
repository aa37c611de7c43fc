//! A sheet's words, and the text that the program `nest` prints of them.
use core::fmt;

use crate::lines::Lines;
use crate::numbers;

/// How far a record was nested.
#[derive(Clone, Copy, Debug, PartialEq, Eq)]
pub enum Outcome {
    /// An edge or an exit list leads back to the entry: nothing was nested.
    Untouched,
    /// All of it was nested, and a run that ends may return.
    Whole,
    /// All of it was nested, and no run returns: it exits, or has no end.
    Closed,
    /// Some edges are left over.
    Leftover,
}

/// A sheet: words of 32 bits, as rukvetta.h lays them out. `Display` gives its text.
#[derive(Clone, Copy, Debug, PartialEq, Eq)]
pub struct Sheet<'a> {
    words: &'a [u32],
}

impl<'a> Sheet<'a> {
    pub(crate) fn new(words: &'a [u32]) -> Sheet<'a> {
        Sheet { words }
    }

    /// All words.
    pub fn words(self) -> &'a [u32] {
        self.words
    }

    /// How far it was nested.
    pub fn outcome(self) -> Outcome {
        match self.words[0] {
            numbers::UNTOUCHED => Outcome::Untouched,
            numbers::WHOLE => Outcome::Whole,
            numbers::CLOSED => Outcome::Closed,
            _ => Outcome::Leftover,
        }
    }

    /// The most that a run within the turn limits can cost; whole and closed forms have one.
    pub fn figure(self) -> Option<u32> {
        match self.outcome() {
            Outcome::Whole | Outcome::Closed => Some(self.words[1]),
            Outcome::Untouched | Outcome::Leftover => None,
        }
    }

    /// How often nesting tried to claim a region.
    pub fn attempts(self) -> u32 {
        self.words[2]
    }

    /// Whether a renumbered input was met that a second look-up would have changed.
    pub fn twice(self) -> bool {
        self.words[3] != 0
    }

    /// The lines behind the first, in the sheet's order.
    pub fn lines(self) -> Lines<'a> {
        Lines::new(&self.words[numbers::HEAD_WORDS as usize..])
    }
}

impl fmt::Display for Sheet<'_> {
    fn fmt(&self, to: &mut fmt::Formatter<'_>) -> fmt::Result {
        let outcome = match self.outcome() {
            Outcome::Untouched => "untouched",
            Outcome::Whole => "whole",
            Outcome::Closed => "closed",
            Outcome::Leftover => "leftover",
        };
        write!(to, "{outcome} figure ")?;
        match self.figure() {
            Some(figure) => write!(to, "{figure}")?,
            None => write!(to, "-")?,
        }
        writeln!(to, " attempts {} twice {}", self.attempts(), u32::from(self.twice()))?;
        for line in self.lines() {
            writeln!(to, "{line}")?;
        }
        Ok(())
    }
}
