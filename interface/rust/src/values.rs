//! The values that a sheet names.
use core::fmt;

use crate::numbers;

/// A value: three words of a sheet. `Display` is as on the printed sheet.
#[derive(Clone, Copy, Debug, PartialEq, Eq, Hash)]
pub enum Value {
    /// `c0`: a constant of the record.
    Constant(u32),
    /// `i1.0`: an input of a region.
    Input {
        /// Its region.
        region: u32,
        /// Which input.
        index: u32,
    },
    /// `d1.2`: the output of an instruction.
    Instruction {
        /// Its region.
        region: u32,
        /// Which instruction, counted through all blocks of the region.
        index: u32,
    },
    /// `n3.0`: an output of a node.
    NodeOutput {
        /// The node.
        node: u32,
        /// Which output.
        index: u32,
    },
    /// `false` or `true`.
    Boolean(bool),
    /// `undef2`: undefined, of this type.
    Undefined(u32),
}

impl Value {
    pub(crate) fn from_words(words: &[u32]) -> Value {
        let (kind, region, index) = (words[0], words[1], words[2]);
        match kind {
            numbers::CONSTANT => Value::Constant(index),
            numbers::INPUT => Value::Input { region, index },
            numbers::INSTRUCTION => Value::Instruction { region, index },
            numbers::NODE_OUTPUT => Value::NodeOutput { node: region, index },
            numbers::BOOLEAN => Value::Boolean(index != 0),
            _ => Value::Undefined(index),
        }
    }
}

impl fmt::Display for Value {
    fn fmt(&self, to: &mut fmt::Formatter<'_>) -> fmt::Result {
        match self {
            Value::Constant(index) => write!(to, "c{index}"),
            Value::Input { region, index } => write!(to, "i{region}.{index}"),
            Value::Instruction { region, index } => write!(to, "d{region}.{index}"),
            Value::NodeOutput { node, index } => write!(to, "n{node}.{index}"),
            Value::Boolean(truth) => write!(to, "{truth}"),
            Value::Undefined(kind) => write!(to, "undef{kind}"),
        }
    }
}

/// A list of values: an iterator over them.
#[derive(Clone, Debug)]
pub struct Values<'a> {
    words: core::slice::ChunksExact<'a, u32>,
}

impl<'a> Values<'a> {
    pub(crate) fn new(words: &'a [u32]) -> Values<'a> {
        Values { words: words.chunks_exact(numbers::VALUE_WORDS as usize) }
    }
}

impl Iterator for Values<'_> {
    type Item = Value;

    fn next(&mut self) -> Option<Value> {
        self.words.next().map(Value::from_words)
    }

    fn size_hint(&self) -> (usize, Option<usize>) {
        self.words.size_hint()
    }
}

impl ExactSizeIterator for Values<'_> {}
