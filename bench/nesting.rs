// Nesting beside the Rust, in one run on the same records: how long each takes, and the ratio.
// Of each record of a vector file that both nest. Nesting alone: our structurize_func on the words in which the record stands, and the
// Rust's claim of the entry on the graph that was built, its exit lists and incoming counts given, while ours counts the edges too.
// With reading: from the store's bytes on, ours accept and nest, the Rust's the harness's reader, its builder and the claim. Neither
// rewrites the values at the end or prints. With printing: from the store's bytes to the text of the sheet, ours the proved routine that
// `nest` calls, the Rust's with the harness's rewriting and printing. All six are timed in turns; a record's time is the median of its
// turns. Where a second name is given, a file of that name gets a line for each record, in nanoseconds, for bench/plot.
// `once SIDE FILE` takes each record once through `marked`, for a count of instructions: ours and rust nest it, ours-text and rust-text go
// from the store's bytes to the text.
use spirt::cfg::beside::{Options, Timed, answer};
use std::hint::black_box;
use std::panic::{AssertUnwindSafe, catch_unwind, set_hook};
use std::time::Instant;

unsafe extern "C" {
    fn measured_accept(bytes: *const u8, length: usize, words: *mut u16) -> u32;
    fn measured_nest(words: *mut u16) -> u32;
    fn measured_print(bytes: *const u8, length: usize, words: *mut u16, out: *mut u32, lent: usize, lines: *mut u8, room: usize) -> u64;
}

const TURNS: usize = 41;
const COLUMNS: [&str; 6] = ["ours_nest", "rust_nest", "ours_read", "rust_read", "ours_text", "rust_text"];

fn fail(sentence: &str) -> ! {
    eprintln!("nesting: {sentence}");
    std::process::exit(2);
}

// As many words as the routines are lent: bench/nesting takes the number from the crate.
fn lent() -> Vec<u16> {
    let words = env!("WORDS").parse();
    vec![0; words.unwrap_or_else(|_| fail("WORDS is a number"))]
}

// Each store with its number in the file, from 1.
fn stores(path: &str) -> Vec<(usize, Vec<u8>)> {
    let text = std::fs::read_to_string(path).unwrap_or_else(|_| fail("the vector file can't be read"));
    let byte = |hex: &str, i: usize| u8::from_str_radix(hex.get(2 * i..2 * i + 2)?, 16).ok();
    let bytes = |hex: &str| (0..hex.len().div_ceil(2)).map(|i| byte(hex, i)).collect::<Option<Vec<u8>>>();
    let hex = text.lines().filter_map(|line| line.strip_prefix("store "));
    let stores = hex.map(|hex| bytes(hex.trim()).unwrap_or_else(|| fail("a store that is not hexadecimal")));
    (1..).zip(stores).collect()
}

fn accepted(store: &[u8], words: &mut [u16]) -> bool {
    unsafe { measured_accept(store.as_ptr(), store.len(), words.as_mut_ptr()) == 0 }
}

fn ours(words: &mut [u16]) -> u32 {
    unsafe { measured_nest(words.as_mut_ptr()) }
}

// What the program lends for a sheet, and room for its text.
struct Lent {
    sheet: Vec<u32>,
    lines: Vec<u8>,
}

fn printed(store: &[u8], words: &mut [u16], lent: &mut Lent) -> usize {
    let Lent { sheet, lines } = lent;
    let (words, out, text) = (words.as_mut_ptr(), sheet.as_mut_ptr(), lines.as_mut_ptr());
    unsafe { measured_print(store.as_ptr(), store.len(), words, out, sheet.len(), text, lines.len()) as usize }
}

// Ours is the Rust's text, which has no `twice` at the end of line 1; where twice is 1 the two may differ.
fn same_text(store: &[u8], words: &mut [u16], lent: &mut Lent) -> bool {
    let n = printed(store, words, lent);
    let text = String::from_utf8_lossy(&lent.lines[..n]).into_owned();
    text.lines().next().is_some_and(|first| !first.ends_with(" twice 0"))
        || text.replacen(" twice 0\n", "\n", 1) == answer(store, Options::default())
}

// Both outcomes are the same and neither refuses: 9 is ours alone, and a panic the Rust's. Of an untouched record the Rust here only
// compares one count, so it is left out.
fn both(store: &[u8], words: &mut [u16]) -> bool {
    const OUTCOMES: [&str; 4] = ["untouched", "whole", "closed", "leftover"];
    if !accepted(store, words) {
        return false;
    }
    let answer = ours(words) as usize;
    let mut rust = Timed::new(store).unwrap_or_else(|| fail("a record that the harness refuses"));
    match catch_unwind(AssertUnwindSafe(|| rust.nest())) {
        Ok(outcome) if answer < 4 && OUTCOMES[answer] != outcome => fail("the outcomes differ"),
        Ok(_) => (1..4).contains(&answer),
        Err(_) => false,
    }
}

fn time<T>(call: impl FnOnce() -> T) -> f64 {
    let start = Instant::now();
    let answer = call();
    let took = start.elapsed().as_nanos() as f64;
    black_box(answer);
    took
}

fn median(mut list: Vec<f64>) -> f64 {
    list.sort_by(f64::total_cmp);
    list[list.len() / 2]
}

// Nanoseconds: ours and the Rust's, nesting alone; then with reading; then with printing too.
struct Times {
    number: usize,
    regions: usize,
    took: [f64; 6],
}

fn timed(number: usize, store: &[u8], words: &mut [u16], lent: &mut Lent) -> Times {
    let mut turns = [const { Vec::new() }; 6];
    for _ in 0..TURNS {
        accepted(store, words);
        let mut rust = Timed::new(store).unwrap();
        turns[0].push(time(|| ours(words)));
        turns[1].push(time(|| rust.nest()));
        turns[2].push(time(|| (accepted(store, words), ours(words))));
        turns[3].push(time(|| {
            let mut rust = Timed::new(store).unwrap();
            rust.nest();
            rust
        }));
        turns[4].push(time(|| printed(store, words, lent)));
        turns[5].push(time(|| answer(store, Options::default())));
    }
    Times { number, regions: Timed::new(store).unwrap().regions(), took: turns.map(median) }
}

fn worst(list: &[f64]) -> f64 {
    list.iter().copied().fold(0.0, f64::max)
}

fn report(what: &str, times: &[&Times]) {
    println!("{what}: {} records", times.len());
    for (name, at) in [("nesting alone", 0), ("with reading", 2), ("with reading and printing", 4)] {
        let side = |k: usize| times.iter().map(|t| t.took[at + k]).collect::<Vec<_>>();
        let told = |list: Vec<f64>| format!("median {:.2} µs, worst {:.2} µs", median(list.clone()) / 1e3, worst(&list) / 1e3);
        let ratio = |t: &&Times| t.took[at] / t.took[at + 1];
        let ratios: Vec<f64> = times.iter().map(ratio).collect();
        let of = times.iter().max_by(|a, b| ratio(a).total_cmp(&ratio(b))).unwrap();
        let sums: f64 = side(0).iter().sum::<f64>() / side(1).iter().sum::<f64>();
        println!("  {name}: ours {}; the Rust {}", told(side(0)), told(side(1)));
        println!(
            "    ratio: median {:.3}, worst {:.3} (store {}, {} regions), of the sums {sums:.3}",
            median(ratios.clone()),
            worst(&ratios),
            of.number,
            of.regions
        );
    }
}

// What a count of instructions takes in, and nothing else.
#[unsafe(no_mangle)]
#[inline(never)]
fn marked(side: &str, store: &[u8], rust: &mut Timed, words: &mut [u16], lent: &mut Lent) {
    match side {
        "ours" => drop(black_box(ours(words))),
        "rust" => drop(black_box(rust.nest())),
        "ours-text" => drop(black_box(printed(store, words, lent))),
        _ => drop(black_box(answer(store, Options::default()))),
    }
}

fn once(side: &str, store: &[u8], words: &mut [u16], lent: &mut Lent) {
    accepted(store, words);
    marked(side, store, &mut Timed::new(store).unwrap(), words, lent);
}

fn main() {
    let args: Vec<String> = std::env::args().skip(1).collect();
    let args: Vec<&str> = args.iter().map(|a| &**a).collect();
    let (side, path, each) = match args[..] {
        ["once", side @ ("ours" | "rust" | "ours-text" | "rust-text"), path] => (side, path, None),
        [path] => ("", path, None),
        [path, each] => ("", path, Some(each)),
        _ => fail("usage: nesting [once ours | once rust | once ours-text | once rust-text] VECTORS [TIMES]"),
    };
    set_hook(Box::new(|_| ()));
    let mut words = lent();
    let stores: Vec<(usize, Vec<u8>)> = stores(path).into_iter().filter(|(_, store)| both(store, &mut words)).collect();
    if stores.is_empty() {
        fail("no record that both nest");
    }
    let mut lent = Lent { sheet: vec![0; 16384], lines: vec![0; 1 << 20] };
    if !side.is_empty() {
        stores.iter().for_each(|(_, store)| once(side, store, &mut words, &mut lent));
        println!("{} records", stores.len());
        return;
    }
    if let Some((number, _)) = stores.iter().find(|(_, store)| !same_text(store, &mut words, &mut lent)) {
        fail(&format!("the texts differ on store {number}"));
    }
    let times: Vec<Times> = stores.iter().map(|(number, store)| timed(*number, store, &mut words, &mut lent)).collect();
    if let Some(each) = each {
        let mut lines = format!("store\tregions\t{}\n", COLUMNS.join("\t"));
        for Times { number, regions, took } in &times {
            lines += &format!("{number}\t{regions}\t{}\n", took.map(|t| t.to_string()).join("\t"));
        }
        std::fs::write(each, lines).unwrap_or_else(|_| fail("the file of times can't be written"));
    }
    report("all", &times.iter().collect::<Vec<_>>());
    let large: Vec<&Times> = times.iter().filter(|t| t.regions == 32).collect();
    if !large.is_empty() && large.len() < times.len() {
        report("of 32 regions", &large);
    }
}
