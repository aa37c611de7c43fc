//! From a store of bytes to its nested sheet, by the proved library `librukvetta.a` (rukvetta.h says what it promises).
//!
//! ```
//! let mut state = rukvetta::State::new();
//! let mut lent = [0u32; rukvetta::USUAL_LENT];
//! let answer = rukvetta::nest(&[], &mut state, &mut lent);
//! assert_eq!(answer.unwrap_err().to_string(), "refused 1 0: the length is 0, over 8,192 bytes or no multiple of 512");
//! ```
//!
//! A call takes no heap and keeps nothing: what it uses is lent. A `State` serves any number of calls, one at a time.
//! A [`Sheet`]'s text is its `Display`; [`Sheet::lines`] gives its lines with their fields.
#![no_std]
#![deny(missing_docs)]

mod conditions;
mod items;
mod lines;
mod reader;
mod refusal;
mod sheet;
mod values;

pub use conditions::{Condition, Conditions};
pub use items::{Item, Items};
pub use lines::{Line, Lines, Selection, Target};
pub use refusal::Refusal;
pub use sheet::{Outcome, Sheet};
pub use values::{Value, Values};

/// Every number of rukvetta.h, without its front.
#[allow(dead_code)]
mod numbers {
    include!(concat!(env!("OUT_DIR"), "/numbers.rs"));
}

/// How many words of 16 bits a [`State`] holds: as many as the library's own header says.
pub const WORDS: usize = numbers::WORDS as usize;

/// How many words of 32 bits the program `nest` lends for a sheet. A few sheets are longer.
pub const USUAL_LENT: usize = numbers::USUAL_LENT as usize;

/// What [`nest`] answers: the sheet, which stands in front of the lent words, or a refusal, and the lent words are as they were.
pub type Answer<'a> = Result<Sheet<'a>, Refusal>;

// A length has 64 bits on every machine.
extern "C" {
    fn rukvetta_accept(bytes: *const u8, length: u64, words: *mut u16) -> u32;
    fn rukvetta_nest(bytes: *const u8, length: u64, words: *mut u16, out: *mut u32, lent: u64) -> u64;
    fn rukvetta_write(words: *mut u16, bytes: *mut u8, lent: u64) -> u32;
}

/// The memory that nesting works in: 53,884 bytes for the words, and how many of them are a record.
pub struct State {
    words: [u16; WORDS],
    used: usize,
}

impl State {
    /// A state without a record.
    pub const fn new() -> State {
        State { words: [0; WORDS], used: 0 }
    }

    /// The words of the record that the last call accepted, W in front; empty if it was refused with 1 to 8.
    pub fn record(&self) -> &[u16] {
        &self.words[..self.used]
    }

    /// Writes the record back as a store, in front of the lent bytes; those behind it are as lent. Refusals 4, where none stands, and 10,
    /// where fewer than 512 bytes are lent for each block: then all bytes are as lent. What stands are the words of the last store that was
    /// not refused with 1 to 3, or with 4 for W; reading may have refused them with 4 to 8.
    pub fn write<'a>(&mut self, lent: &'a mut [u8]) -> Result<&'a [u8], Refusal> {
        // SAFETY: as in `accept`; the lent bytes are a piece of memory beside the words.
        let answer = unsafe { rukvetta_write(self.words.as_mut_ptr(), lent.as_mut_ptr(), lent.len() as u64) };
        match answer >> 16 {
            0 => Ok(&lent[..answer as usize]),
            number => Err(Refusal::from_words(number, answer & 0xffff)),
        }
    }

    fn stands(&mut self, accepted: bool) {
        self.used = if accepted { usize::from(self.words[0]) } else { 0 };
    }
}

impl Default for State {
    fn default() -> State {
        State::new()
    }
}

/// Checks a store and reads its record, which then stands in the state. Refusals 1 to 8.
pub fn accept<'a>(store: &[u8], state: &'a mut State) -> Result<&'a [u16], Refusal> {
    // SAFETY: slice and array are as long as said, and a reference is never null, is aligned and overlaps no other.
    let answer = unsafe { rukvetta_accept(store.as_ptr(), store.len() as u64, state.words.as_mut_ptr()) };
    state.stands(answer == 0);
    match answer {
        0 => Ok(state.record()),
        _ => Err(Refusal::from_words(answer >> 16, answer & 0xffff)),
    }
}

/// Nests the record of a store. Refusals 1 to 11.
pub fn nest<'a>(store: &[u8], state: &mut State, lent: &'a mut [u32]) -> Answer<'a> {
    // SAFETY: as in `accept`; the lent words are a third piece of memory.
    let (bytes, words) = (store.as_ptr(), state.words.as_mut_ptr());
    let answer = unsafe { rukvetta_nest(bytes, store.len() as u64, words, lent.as_mut_ptr(), lent.len() as u64) };
    let (number, word) = ((answer >> 32) as u32, answer as u32);
    state.stands(number == 0 || number > 8);
    match number {
        0 => Ok(Sheet::new(&lent[..word as usize])),
        _ => Err(Refusal::from_words(number, word)),
    }
}
