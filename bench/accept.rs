// How long a full store takes to load, read and check, as a ratio to summing its bytes once.
// Both are timed in turns within one run, on the same bytes. Printed are the median of the turns' ratios, and the least times with
// theirs, which other work on the machine disturbs less.
use std::hint::black_box;
use std::time::Instant;

extern "C" {
    fn rukvetta_accept(bytes: *const u8, length: usize, words: *mut u16) -> u32;
}

// As many words as the routine is lent: bench/accept takes the number from the crate.
const WORDS: usize = number(env!("WORDS").as_bytes());

const fn number(digits: &[u8]) -> usize {
    let mut n = 0;
    let mut i = 0;
    while i < digits.len() {
        n = 10 * n + (digits[i] - b'0') as usize;
        i += 1;
    }
    n
}

fn fail(sentence: &str) -> ! {
    eprintln!("accept: {sentence}");
    std::process::exit(2);
}

fn bytes(hex: &str) -> Option<Vec<u8>> {
    (0..hex.len()).step_by(2).map(|at| u8::from_str_radix(hex.get(at..at + 2)?, 16).ok()).collect()
}

// The longest store of a vector file whose answer is no refusal.
fn full_store(vectors: &str) -> Vec<u8> {
    let mut best = Vec::new();
    let mut lines = vectors.lines();
    while let Some(line) = lines.next() {
        let Some(hex) = line.strip_prefix("store ") else { continue };
        let accepted = lines.next().is_some_and(|answer| !answer.starts_with("refused"));
        if accepted && hex.len() / 2 > best.len() {
            best = bytes(hex).unwrap_or_else(|| fail("a store that is not hexadecimal"));
        }
    }
    best
}

fn sum(bytes: &[u8]) -> u32 {
    bytes.iter().map(|b| u32::from(*b)).sum()
}

// Nanoseconds for one call.
fn time(mut call: impl FnMut()) -> f64 {
    let times = 50;
    let start = Instant::now();
    for _ in 0..times {
        call();
    }
    start.elapsed().as_nanos() as f64 / times as f64
}

fn median(list: &mut [f64]) -> f64 {
    list.sort_by(f64::total_cmp);
    list[list.len() / 2]
}

fn main() {
    let path = std::env::args().nth(1).unwrap_or_else(|| fail("usage: accept VECTORS"));
    let store = full_store(&std::fs::read_to_string(path).unwrap_or_else(|_| fail("the vector file can't be read")));
    if store.is_empty() {
        fail("the list has no store that is accepted");
    }
    let mut words = vec![0u16; WORDS];
    let (mut accepts, mut sums) = (Vec::new(), Vec::new());
    for _ in 0..201 {
        accepts.push(time(|| {
            let answer = unsafe { rukvetta_accept(store.as_ptr(), store.len(), words.as_mut_ptr()) };
            assert_eq!(black_box(answer), 0);
        }));
        sums.push(time(|| { black_box(sum(black_box(&store))); }));
    }
    let ratio = median(&mut accepts.iter().zip(&sums).map(|(a, b)| a / b).collect::<Vec<_>>());
    println!("{} bytes: accept takes as long as {:.1} sums of the bytes", store.len(), ratio);
    println!("median: accept {:.0} ns, sum {:.0} ns", median(&mut accepts), median(&mut sums));
    // median has sorted them
    println!("least: accept {:.0} ns, sum {:.0} ns, {:.1} sums", accepts[0], sums[0], accepts[0] / sums[0]);
}
