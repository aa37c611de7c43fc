//! `State::write` on the lists: a store that was read comes out byte for byte, and what was written is read again.
mod lists;

use lists::{refusal, vectors};
use rukvetta::{accept, nest, Refusal, State, USUAL_LENT};

const MARK: u8 = 0xa5;

fn marked(count: usize) -> Vec<u8> {
    vec![MARK; count]
}

#[test]
fn an_accepted_store_comes_out_byte_for_byte() {
    let mut state = State::new();
    let mut written = 0;
    let all = ["stores.vectors", "sheets.vectors", "full.vectors"].into_iter().flat_map(vectors);
    for vector in all {
        if accept(&vector.store, &mut state).is_err() {
            continue;
        }
        let size = vector.store.len();
        for more in [0, 1, 511, 512] {
            let mut lent = marked(size + more);
            assert_eq!(state.write(&mut lent).expect("a store"), vector.store);
            assert!(lent[size..].iter().all(|&byte| byte == MARK), "a byte behind the store has changed");
        }
        for few in [0, 1, 511, size - 1] {
            let mut lent = marked(few);
            assert_eq!(state.write(&mut lent), Err(Refusal::Lent));
            assert!(lent.iter().all(|&byte| byte == MARK), "a refusal has changed a lent byte");
        }
        written += 1;
    }
    assert!(written > 1000, "{written} stores");
}

#[test]
fn accepted_nested_written_and_accepted_again_the_words_are_the_same() {
    let (mut state, mut again) = (State::new(), State::new());
    for vector in vectors("sheets.vectors").iter().filter(|vector| refusal(&vector.answer).is_none()).step_by(3) {
        let words = accept(&vector.store, &mut state).expect("a record").to_vec();
        nest(&vector.store, &mut state, &mut vec![0; USUAL_LENT]).expect("a sheet");
        let mut lent = marked(8192);
        let store = state.write(&mut lent).expect("a store");
        assert_eq!(accept(store, &mut again).expect("a record"), words);
    }
}

#[test]
fn without_a_record_nothing_is_written() {
    let mut lent = marked(8192);
    assert_eq!(State::new().write(&mut lent), Err(Refusal::WordCount));
    assert!(lent.iter().all(|&byte| byte == MARK));
}
