//! The lines of a sheet with their fields: the words that they were read from can be made of them again, on all lists.
mod lists;

use lists::{nested, refusal, vectors};
use rukvetta::{nest, Condition, Line, Selection, Sheet, State, Target, Value, Values, USUAL_LENT};

fn value(to: &mut Vec<u32>, value: Value) {
    to.extend(match value {
        Value::Constant(index) => [0, 0, index],
        Value::Input { region, index } => [1, region, index],
        Value::Instruction { region, index } => [2, region, index],
        Value::NodeOutput { node, index } => [3, node, index],
        Value::Boolean(truth) => [4, 0, u32::from(truth)],
        Value::Undefined(kind) => [5, 0, kind],
    });
}

fn values(to: &mut Vec<u32>, list: Values<'_>) {
    to.push(list.len() as u32);
    list.for_each(|each| value(to, each));
}

fn numbers(to: &mut Vec<u32>, list: &[u32]) {
    to.push(list.len() as u32);
    to.extend(list);
}

fn condition(to: &mut Vec<u32>, from: &Condition<'_>) {
    match from {
        Condition::Always => to.push(1),
        Condition::Never => to.push(2),
        Condition::Any => to.push(3),
        Condition::Merged { node, parts } => {
            to.extend([4, *node, parts.clone().count() as u32]);
            parts.clone().for_each(|part| condition(to, &part));
        }
    }
}

fn line(to: &mut Vec<u32>, from: Line<'_>) {
    match from {
        Line::Region { region, input_types, children, outputs } => {
            to.extend([0, region]);
            numbers(to, input_types);
            numbers(to, children);
            values(to, outputs);
        }
        Line::Block { node, items } => {
            to.extend([1, node, items.clone().count() as u32]);
            for item in items {
                to.extend([item.region, item.index, item.opcode, item.kind]);
                values(to, item.reads);
            }
        }
        Line::Select { node, on, tested, cases, output_types } => {
            to.extend([2, node, u32::from(on == Selection::Number)]);
            value(to, tested);
            numbers(to, cases);
            numbers(to, output_types);
        }
        Line::Loop { node, first, body, repeat } => {
            to.extend([3, node]);
            values(to, first);
            to.push(body);
            value(to, repeat);
        }
        Line::Exit { node, opcode, values: handed } => {
            to.extend([4, node, opcode]);
            values(to, handed);
        }
        Line::Defer { region, target, edges, values: passed, condition: when } => {
            to.extend([5, region, if let Target::Region(target) = target { target } else { 65535 }, edges]);
            values(to, passed);
            condition(to, &when);
        }
    }
}

fn made_again(sheet: Sheet<'_>) -> Vec<u32> {
    let mut words = sheet.words()[..4].to_vec();
    sheet.lines().for_each(|each| line(&mut words, each));
    words
}

#[test]
fn the_words_can_be_made_of_the_lines_again() {
    let mut state = State::new();
    let mut sheets = 0;
    for vector in vectors("sheets.vectors").into_iter().chain(vectors("full.vectors")).chain(nested("stores.vectors")) {
        let mut lent = vec![0; USUAL_LENT];
        let answer = nest(&vector.store, &mut state, &mut lent);
        assert_eq!(answer.is_err(), refusal(&vector.answer).is_some());
        if let Ok(sheet) = answer {
            sheets += 1;
            assert_eq!(made_again(sheet), sheet.words());
            assert_eq!(sheet.to_string(), vector.answer);
            assert_eq!(sheet.lines().count() + 1, vector.answer.lines().count());
        }
    }
    assert!(sheets > 2000, "only {sheets} sheets");
}

#[test]
fn the_example() {
    let store = std::fs::read(concat!(env!("CARGO_MANIFEST_DIR"), "/../../docs/example.store")).expect("the example");
    let (mut state, mut lent) = (State::new(), vec![0; USUAL_LENT]);
    let sheet = nest(&store, &mut state, &mut lent).expect("a sheet");
    let turned: Vec<u32> = sheet.lines().filter_map(|line| if let Line::Loop { body, .. } = line { Some(body) } else { None }).collect();
    assert_eq!(turned, [1]);
    let Some(Line::Region { region, children, .. }) = sheet.lines().next() else { panic!("the entry comes first") };
    assert_eq!((region, children), (0, &[5][..]));
}
