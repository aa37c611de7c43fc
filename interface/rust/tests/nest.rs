//! `nest` on the lists: sheets as text, refusals, what is lent.
mod lists;

use lists::{refusal, vectors, Vector};
use rukvetta::{nest, Outcome, Refusal, State, USUAL_LENT};

const MARK: u32 = 0xdead_beef;

fn all() -> impl Iterator<Item = Vector> {
    vectors("sheets.vectors").into_iter().chain(vectors("full.vectors"))
}

#[test]
fn every_store_has_its_listed_sheet_or_refusal() {
    let mut state = State::new();
    let mut numbers = [0; 12];
    for vector in all() {
        let mut lent = vec![MARK; USUAL_LENT];
        match (nest(&vector.store, &mut state, &mut lent), refusal(&vector.answer)) {
            (Ok(sheet), None) => {
                numbers[0] += 1;
                assert_eq!(sheet.to_string(), vector.answer);
                let n = sheet.words().len();
                assert!(lent[n..].iter().all(|&word| word == MARK), "a word behind the sheet has changed");
            }
            (Err(refused), Some((number, word))) => {
                numbers[usize::from(number)] += 1;
                assert_eq!((refused.number(), refused.word()), (number, word));
                assert!(lent.iter().all(|&word| word == MARK), "a refusal has changed a lent word");
                assert_eq!(state.record().is_empty(), number <= 8);
            }
            (found, listed) => panic!("{:?} for {listed:?}", found.map(|sheet| sheet.to_string())),
        }
    }
    assert!(numbers.iter().all(|&times| times > 0), "not every number from 0 to 11: {numbers:?}");
}

#[test]
fn a_word_too_few_is_refused_and_a_word_more_is_not_touched() {
    let mut state = State::new();
    for vector in vectors("sheets.vectors").iter().filter(|vector| refusal(&vector.answer).is_none()).step_by(7) {
        let mut lent = vec![MARK; USUAL_LENT];
        let n = nest(&vector.store, &mut state, &mut lent).expect("a sheet").words().len();
        let whole = lent[..n].to_vec();
        for few in [0, 1, 3, n / 2, n - 1] {
            let mut lent = vec![MARK; few];
            assert_eq!(nest(&vector.store, &mut state, &mut lent), Err(Refusal::Lent));
            assert!(lent.iter().all(|&word| word == MARK));
            assert!(!state.record().is_empty());
        }
        for more in [0, 1, 5] {
            let mut lent = vec![MARK; n + more];
            assert_eq!(nest(&vector.store, &mut state, &mut lent).expect("a sheet").words(), whole);
            assert!(lent[n..].iter().all(|&word| word == MARK));
        }
    }
}

#[test]
fn a_sheet_that_is_longer_than_usual_comes_where_more_is_lent() {
    let mut state = State::new();
    let long = vectors("full.vectors").into_iter().filter(|vector| refusal(&vector.answer) == Some((10, 0)));
    for vector in long {
        let mut lent = vec![MARK; 2 * USUAL_LENT];
        let sheet = nest(&vector.store, &mut state, &mut lent).expect("a sheet");
        assert!(sheet.words().len() > USUAL_LENT);
        assert_eq!(sheet.outcome(), Outcome::Leftover);
        assert_eq!(sheet.figure(), None);
    }
}

#[test]
fn memory_may_stand_at_any_address_that_its_type_allows() {
    #[repr(C)]
    struct Moved<const N: usize> {
        front: [u16; N],
        state: State,
    }
    fn with<const N: usize>(vector: &Vector) {
        let mut moved = Box::new(Moved { front: [7; N], state: State::new() });
        for offset in 0..4 {
            let mut lent = vec![MARK; USUAL_LENT + offset];
            let mut bytes = vec![0xa5; offset];
            bytes.extend_from_slice(&vector.store);
            let sheet = nest(&bytes[offset..], &mut moved.state, &mut lent[offset..]).expect("a sheet");
            assert_eq!(sheet.to_string(), vector.answer);
            assert!(lent[..offset].iter().all(|&word| word == MARK));
            assert_eq!(moved.front, [7; N]);
        }
    }
    let found = vectors("sheets.vectors").into_iter().filter(|vector| refusal(&vector.answer).is_none());
    for vector in found.step_by(101) {
        with::<0>(&vector);
        with::<1>(&vector);
        with::<2>(&vector);
        with::<3>(&vector);
    }
}

#[test]
fn an_old_state_changes_no_answer() {
    let (mut old, mut lent) = (State::new(), vec![0; USUAL_LENT]);
    let some: Vec<Vector> = all().step_by(29).collect();
    let mut first = Vec::new();
    for vector in &some {
        let mut fresh = Box::new(State::new());
        first.push(nest(&vector.store, &mut fresh, &mut lent).map(|sheet| sheet.words().to_vec()));
    }
    for (vector, answer) in some.iter().zip(&first).rev() {
        assert_eq!(&nest(&vector.store, &mut old, &mut lent).map(|sheet| sheet.words().to_vec()), answer);
    }
}

#[test]
fn calls_share_nothing() {
    let some: Vec<Vector> = all().step_by(13).collect();
    let answers = || {
        let (mut state, mut lent) = (Box::new(State::new()), vec![0; USUAL_LENT]);
        let answer = |vector: &Vector| nest(&vector.store, &mut state, &mut lent).map(|sheet| sheet.words().to_vec());
        some.iter().map(answer).collect::<Vec<_>>()
    };
    let alone = answers();
    std::thread::scope(|threads| {
        let beside: Vec<_> = (0..4).map(|_| threads.spawn(answers)).collect();
        for thread in beside {
            assert_eq!(thread.join().expect("it ends"), alone);
        }
    });
}
