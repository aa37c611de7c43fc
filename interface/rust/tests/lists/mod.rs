//! The lists of stores with their answers, in beside/lists.
use std::path::PathBuf;

pub struct Vector {
    pub store: Vec<u8>,
    pub answer: String,
}

fn bytes(hex: &str) -> Vec<u8> {
    let digit = |place: usize| u8::from_str_radix(&hex[place..place + 2], 16).expect("hexadecimal");
    (0..hex.len()).step_by(2).map(digit).collect()
}

/// The vectors of a list that begin with a word: the store and the lines of the answer.
fn led_by(lead: &str, name: &str) -> Vec<(Vec<u8>, Vec<String>)> {
    let path = PathBuf::from(env!("CARGO_MANIFEST_DIR")).join("../../beside/lists").join(name);
    let text = std::fs::read_to_string(&path).unwrap_or_else(|error| panic!("{}: {error}", path.display()));
    let mut lines = text.lines();
    let mut found = Vec::new();
    while let Some(first) = lines.next() {
        let (word, hex) = first.split_once(' ').unwrap_or((first, ""));
        let answer = lines.by_ref().take_while(|line| *line != ".").map(|line| format!("{line}\n")).collect();
        if word == lead {
            found.push((bytes(hex), answer));
        }
    }
    assert!(!found.is_empty(), "{name} has no vectors");
    found
}

/// The vectors of a list, but for those that are wrong on purpose.
pub fn vectors(name: &str) -> Vec<Vector> {
    led_by("store", name).into_iter().map(|(store, answer)| Vector { store, answer: answer.concat() }).collect()
}

/// Those with a sheet's words, which stand in front of its text.
#[allow(dead_code)]
pub fn nested(name: &str) -> Vec<Vector> {
    led_by("nest", name).into_iter().map(|(store, answer)| Vector { store, answer: answer[1..].concat() }).collect()
}

/// Number and word of a refusal's line.
pub fn refusal(answer: &str) -> Option<(u16, u16)> {
    let mut parts = answer.strip_prefix("refused ")?.split_whitespace().map(|part| part.parse().expect("a number"));
    Some((parts.next()?, parts.next()?))
}
