//! Words of a sheet that are read from the front. A sheet is the library's own: its lists are as long as they say.
use core::fmt;

use crate::numbers::VALUE_WORDS;
use crate::values::{Value, Values};

/// The words not yet read.
#[derive(Clone, Copy, Debug, PartialEq, Eq)]
pub(crate) struct Reader<'a> {
    pub words: &'a [u32],
}

impl<'a> Reader<'a> {
    pub fn next(&mut self) -> u32 {
        self.take(1)[0]
    }

    pub fn take(&mut self, count: usize) -> &'a [u32] {
        let (front, rest) = self.words.split_at(count);
        self.words = rest;
        front
    }

    /// A list of numbers.
    pub fn numbers(&mut self) -> &'a [u32] {
        let count = self.next();
        self.take(count as usize)
    }

    pub fn value(&mut self) -> Value {
        Value::from_words(self.take(VALUE_WORDS as usize))
    }

    pub fn values(&mut self) -> Values<'a> {
        let count = self.next();
        Values::new(self.take((count * VALUE_WORDS) as usize))
    }

    /// What `pass` reads over, as words of their own.
    pub fn passed(&mut self, pass: impl FnOnce(&mut Self)) -> Reader<'a> {
        let from = self.words;
        pass(self);
        Reader { words: &from[..from.len() - self.words.len()] }
    }
}

/// The items joined by commas, `-` if there are none.
pub(crate) fn list<T: fmt::Display>(to: &mut fmt::Formatter<'_>, items: impl Iterator<Item = T>) -> fmt::Result {
    let mut none = true;
    for item in items {
        write!(to, "{}{item}", if none { "" } else { "," })?;
        none = false;
    }
    if none {
        write!(to, "-")?;
    }
    Ok(())
}
