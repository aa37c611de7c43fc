//! `accept` on the lists.
mod lists;

use lists::{refusal, vectors};
use rukvetta::{accept, State};

#[test]
fn every_store_is_accepted_or_refused_as_listed() {
    let mut state = State::new();
    let mut numbers = [0; 9];
    for vector in vectors("stores.vectors") {
        match (accept(&vector.store, &mut state), refusal(&vector.answer)) {
            (Ok(record), None) => {
                numbers[0] += 1;
                let used = u16::from_le_bytes([vector.store[2], vector.store[3]]);
                assert_eq!(record.len(), usize::from(used));
                assert_eq!(record[0], used);
                assert_eq!(record[1], u16::from_le_bytes([vector.store[4], vector.store[5]]));
            }
            (Err(refused), Some((number, word))) => {
                numbers[usize::from(number)] += 1;
                assert_eq!((refused.number(), refused.word()), (number, word));
                assert!(refused.to_string().starts_with(&format!("refused {number} {word}: ")));
                assert!(state.record().is_empty());
            }
            (found, listed) => panic!("{found:?} for {listed:?}"),
        }
    }
    assert!(numbers.iter().all(|&times| times > 0), "not every number from 0 to 8: {numbers:?}");
}

#[test]
fn a_store_may_stand_at_any_address() {
    let good = vectors("stores.vectors").into_iter().find(|vector| refusal(&vector.answer).is_none()).expect("a record");
    let mut state = State::new();
    for offset in 0..16 {
        let mut bytes = vec![0xa5; offset];
        bytes.extend_from_slice(&good.store);
        assert!(accept(&bytes[offset..], &mut state).is_ok());
    }
}

#[test]
fn a_refusal_by_the_store_leaves_the_record_of_before_unsaid() {
    let good = vectors("stores.vectors").into_iter().find(|vector| refusal(&vector.answer).is_none()).expect("a record");
    let mut state = State::default();
    assert!(state.record().is_empty());
    assert!(!accept(&good.store, &mut state).expect("a record").is_empty());
    assert!(accept(&[0; 511], &mut state).is_err());
    assert!(state.record().is_empty());
}
