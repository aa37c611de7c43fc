//! The instructions of a block line.
use core::fmt;

use crate::reader::{list, Reader};
use crate::values::Values;

/// One instruction. `Display` is as on the printed sheet.
#[derive(Clone, Debug)]
pub struct Item<'a> {
    /// Its region.
    pub region: u32,
    /// Which instruction of the region, counted through all blocks.
    pub index: u32,
    /// What it does.
    pub opcode: u32,
    /// The type of its output, 0 if it has none.
    pub kind: u32,
    /// What it reads.
    pub reads: Values<'a>,
}

impl<'a> Item<'a> {
    pub(crate) fn read(from: &mut Reader<'a>) -> Item<'a> {
        let (region, index, opcode, kind) = (from.next(), from.next(), from.next(), from.next());
        Item { region, index, opcode, kind, reads: from.values() }
    }
}

impl fmt::Display for Item<'_> {
    fn fmt(&self, to: &mut fmt::Formatter<'_>) -> fmt::Result {
        write!(to, "{}.{}/{}/{}/", self.region, self.index, self.opcode, self.kind)?;
        list(to, self.reads.clone())
    }
}

/// The instructions of a block: an iterator over them.
#[derive(Clone, Debug)]
pub struct Items<'a> {
    rest: Reader<'a>,
}

impl<'a> Items<'a> {
    pub(crate) fn read(from: &mut Reader<'a>) -> Items<'a> {
        let count = from.next();
        let rest = from.passed(|from| {
            for _ in 0..count {
                Item::read(from);
            }
        });
        Items { rest }
    }
}

impl<'a> Iterator for Items<'a> {
    type Item = Item<'a>;

    fn next(&mut self) -> Option<Item<'a>> {
        if self.rest.words.is_empty() {
            return None;
        }
        Some(Item::read(&mut self.rest))
    }
}
