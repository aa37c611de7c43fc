//! When a deferred edge is taken.
use core::fmt;

use crate::numbers;
use crate::reader::{list, Reader};

/// A condition. `Display` is as on the printed sheet.
#[derive(Clone, Debug)]
pub enum Condition<'a> {
    /// `t`: always.
    Always,
    /// `f`: never.
    Never,
    /// `u`: either will do.
    Any,
    /// `m3[t,f]`: as the part says for the case that the node took.
    Merged {
        /// A select.
        node: u32,
        /// One for each case.
        parts: Conditions<'a>,
    },
}

impl<'a> Condition<'a> {
    pub(crate) fn read(from: &mut Reader<'a>) -> Condition<'a> {
        match from.next() {
            numbers::ALWAYS => Condition::Always,
            numbers::NEVER => Condition::Never,
            numbers::ANY => Condition::Any,
            _ => Condition::Merged { node: from.next(), parts: Conditions::read(from) },
        }
    }
}

impl fmt::Display for Condition<'_> {
    fn fmt(&self, to: &mut fmt::Formatter<'_>) -> fmt::Result {
        match self {
            Condition::Always => write!(to, "t"),
            Condition::Never => write!(to, "f"),
            Condition::Any => write!(to, "u"),
            Condition::Merged { node, parts } => {
                write!(to, "m{node}[")?;
                list(to, parts.clone())?;
                write!(to, "]")
            }
        }
    }
}

/// The parts of a condition: an iterator over them.
#[derive(Clone, Debug)]
pub struct Conditions<'a> {
    rest: Reader<'a>,
}

impl<'a> Conditions<'a> {
    /// A count and so many conditions. A merged one adds its parts to those that are still to be passed, so that no call is within another.
    fn read(from: &mut Reader<'a>) -> Conditions<'a> {
        let mut left = from.next();
        let rest = from.passed(|from| {
            while left > 0 {
                left -= 1;
                if from.next() == numbers::MERGED {
                    from.next();
                    left += from.next();
                }
            }
        });
        Conditions { rest }
    }
}

impl<'a> Iterator for Conditions<'a> {
    type Item = Condition<'a>;

    fn next(&mut self) -> Option<Condition<'a>> {
        if self.rest.words.is_empty() {
            return None;
        }
        Some(Condition::read(&mut self.rest))
    }
}
