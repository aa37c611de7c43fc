//! The refusals by name. docs/REFUSALS.md says what to do about each.
use core::error::Error;
use core::fmt;

/// Why a store has no sheet, or no store can be written. A number in a variant is the block or the region.
#[derive(Clone, Copy, Debug, PartialEq, Eq)]
pub enum Refusal {
    /// 1: the store's length is 0, over 8,192 or no multiple of 512.
    Length,
    /// 2: this block has another number than its place.
    BlockNumber(u16),
    /// 3: this block's check is wrong.
    Check(u16),
    /// 4: the record's words are not as many as word 0 or the blocks say; in writing, that no record stands.
    WordCount,
    /// 5: a count, type, kind or limit is out of range in this region, or before the first.
    Range(u16),
    /// 6: this region names a region, constant or value that is not there for it.
    Reference(u16),
    /// 7: this region has a value of another type, or values of another number, than is asked.
    Type(u16),
    /// 8: this region's exit list names a region twice.
    ExitTwice(u16),
    /// 9: nesting would define more than 128 regions, or 512 nodes, outputs or conditions.
    Limit,
    /// 10: the sheet has more words, or the store more bytes, than were lent.
    Lent,
    /// 11: the figure exceeds 4,294,967,295.
    Figure,
}

impl Refusal {
    /// The number that document 01 gives it.
    pub const fn number(self) -> u16 {
        match self {
            Refusal::Length => 1,
            Refusal::BlockNumber(_) => 2,
            Refusal::Check(_) => 3,
            Refusal::WordCount => 4,
            Refusal::Range(_) => 5,
            Refusal::Reference(_) => 6,
            Refusal::Type(_) => 7,
            Refusal::ExitTwice(_) => 8,
            Refusal::Limit => 9,
            Refusal::Lent => 10,
            Refusal::Figure => 11,
        }
    }

    /// The word beside the number: the block, the region, or 0.
    pub const fn word(self) -> u16 {
        match self {
            Refusal::BlockNumber(word) | Refusal::Check(word) => word,
            Refusal::Range(word) | Refusal::Reference(word) | Refusal::Type(word) | Refusal::ExitTwice(word) => word,
            _ => 0,
        }
    }

    pub(crate) fn from_words(number: u32, word: u32) -> Refusal {
        let place = word as u16;
        match number {
            1 => Refusal::Length,
            2 => Refusal::BlockNumber(place),
            3 => Refusal::Check(place),
            4 => Refusal::WordCount,
            5 => Refusal::Range(place),
            6 => Refusal::Reference(place),
            7 => Refusal::Type(place),
            8 => Refusal::ExitTwice(place),
            9 => Refusal::Limit,
            10 => Refusal::Lent,
            11 => Refusal::Figure,
            _ => panic!("librukvetta.a is not the library of this crate: it answered refusal {number}"),
        }
    }
}

impl fmt::Display for Refusal {
    fn fmt(&self, to: &mut fmt::Formatter<'_>) -> fmt::Result {
        write!(to, "refused {} {}: ", self.number(), self.word())?;
        match self {
            Refusal::Length => write!(to, "the length is 0, over 8,192 bytes or no multiple of 512"),
            Refusal::BlockNumber(block) => write!(to, "block {block} has another number"),
            Refusal::Check(block) => write!(to, "the check of block {block} is wrong"),
            Refusal::WordCount => write!(to, "the record has more or fewer words than W or the blocks say"),
            Refusal::Range(region) => write!(to, "a count, type, kind or limit is out of range at region {region}"),
            Refusal::Reference(region) => write!(to, "region {region} names something that is not there for it"),
            Refusal::Type(region) => write!(to, "region {region} has a value of another type, or another number of values"),
            Refusal::ExitTwice(region) => write!(to, "the exit list of region {region} names a region twice"),
            Refusal::Limit => write!(to, "nesting would define too many regions, outputs or conditions"),
            Refusal::Lent => write!(to, "there is more to write than was lent"),
            Refusal::Figure => write!(to, "the figure exceeds 4,294,967,295"),
        }
    }
}

impl Error for Refusal {}
