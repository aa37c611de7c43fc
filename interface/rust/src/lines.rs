//! The lines of a sheet, each with its fields.
use core::fmt;

use crate::conditions::Condition;
use crate::items::Items;
use crate::numbers;
use crate::reader::{list, Reader};
use crate::values::{Value, Values};

/// What a select tests.
#[derive(Clone, Copy, Debug, PartialEq, Eq)]
pub enum Selection {
    /// A boolean: true takes case 0, false case 1.
    Boolean,
    /// A number: it is the place of the case; the last where there is no such place.
    Number,
}

/// Where a deferred edge leads.
#[derive(Clone, Copy, Debug, PartialEq, Eq)]
pub enum Target {
    /// To a region.
    Region(u32),
    /// The run returns.
    Return,
}

impl fmt::Display for Target {
    fn fmt(&self, to: &mut fmt::Formatter<'_>) -> fmt::Result {
        match self {
            Target::Region(region) => write!(to, "{region}"),
            Target::Return => write!(to, "return"),
        }
    }
}

/// One line. `Display` is as on the printed sheet.
#[derive(Clone, Debug)]
pub enum Line<'a> {
    /// A region, in front of its children.
    Region {
        /// Its number.
        region: u32,
        /// The types of its inputs.
        input_types: &'a [u32],
        /// The nodes in it, in the order of a run.
        children: &'a [u32],
        /// What it hands on.
        outputs: Values<'a>,
    },
    /// A block of instructions.
    Block {
        /// Its node.
        node: u32,
        /// The instructions.
        items: Items<'a>,
    },
    /// A select; its cases follow.
    Select {
        /// Its node.
        node: u32,
        /// What is tested.
        on: Selection,
        /// The value tested.
        tested: Value,
        /// The regions of its cases.
        cases: &'a [u32],
        /// The types of its outputs.
        output_types: &'a [u32],
    },
    /// A loop; its body follows.
    Loop {
        /// Its node.
        node: u32,
        /// The body's inputs in the first turn.
        first: Values<'a>,
        /// The body's region.
        body: u32,
        /// True takes another turn.
        repeat: Value,
    },
    /// An exit: the run ends there.
    Exit {
        /// Its node.
        node: u32,
        /// What it does.
        opcode: u32,
        /// What it is handed.
        values: Values<'a>,
    },
    /// An edge that is left over.
    Defer {
        /// The region that has it.
        region: u32,
        /// Where it leads.
        target: Target,
        /// How many edges of the graph it stands for.
        edges: u32,
        /// What it passes.
        values: Values<'a>,
        /// When it is taken.
        condition: Condition<'a>,
    },
}

impl<'a> Line<'a> {
    fn read(from: &mut Reader<'a>) -> Line<'a> {
        let (lead, number) = (from.next(), from.next());
        match lead {
            numbers::LINE_REGION => {
                let (input_types, children) = (from.numbers(), from.numbers());
                Line::Region { region: number, input_types, children, outputs: from.values() }
            }
            numbers::LINE_BLOCK => Line::Block { node: number, items: Items::read(from) },
            numbers::LINE_SELECT => {
                let on = if from.next() == numbers::ON_BOOLEAN { Selection::Boolean } else { Selection::Number };
                let (tested, cases) = (from.value(), from.numbers());
                Line::Select { node: number, on, tested, cases, output_types: from.numbers() }
            }
            numbers::LINE_LOOP => {
                let (first, body) = (from.values(), from.next());
                Line::Loop { node: number, first, body, repeat: from.value() }
            }
            numbers::LINE_EXIT => Line::Exit { node: number, opcode: from.next(), values: from.values() },
            _ => {
                let target = match from.next() {
                    numbers::TO_RETURN => Target::Return,
                    region => Target::Region(region),
                };
                let (edges, values) = (from.next(), from.values());
                Line::Defer { region: number, target, edges, values, condition: Condition::read(from) }
            }
        }
    }
}

impl fmt::Display for Line<'_> {
    fn fmt(&self, to: &mut fmt::Formatter<'_>) -> fmt::Result {
        match self {
            Line::Region { region, input_types, children, outputs } => {
                write!(to, "region {region} in ")?;
                list(to, input_types.iter())?;
                write!(to, " kids ")?;
                list(to, children.iter())?;
                write!(to, " out ")?;
                list(to, outputs.clone())
            }
            Line::Block { node, items } => {
                write!(to, "block {node} ")?;
                list(to, items.clone())
            }
            Line::Select { node, on, tested, cases, output_types } => {
                let on = if *on == Selection::Boolean { "bool" } else { "num" };
                write!(to, "select {node} {on} {tested} cases ")?;
                list(to, cases.iter())?;
                write!(to, " out ")?;
                list(to, output_types.iter())
            }
            Line::Loop { node, first, body, repeat } => {
                write!(to, "loop {node} in ")?;
                list(to, first.clone())?;
                write!(to, " body {body} repeat {repeat}")
            }
            Line::Exit { node, opcode, values } => {
                write!(to, "exit {node} {opcode} in ")?;
                list(to, values.clone())
            }
            Line::Defer { region, target, edges, values, condition } => {
                write!(to, "defer {region} to {target} count {edges} in ")?;
                list(to, values.clone())?;
                write!(to, " if {condition}")
            }
        }
    }
}

/// The lines of a sheet: an iterator over them.
#[derive(Clone, Debug)]
pub struct Lines<'a> {
    rest: Reader<'a>,
}

impl<'a> Lines<'a> {
    pub(crate) fn new(words: &'a [u32]) -> Lines<'a> {
        Lines { rest: Reader { words } }
    }
}

impl<'a> Iterator for Lines<'a> {
    type Item = Line<'a>;

    fn next(&mut self) -> Option<Line<'a>> {
        if self.rest.words.is_empty() {
            return None;
        }
        Some(Line::read(&mut self.rest))
    }
}
