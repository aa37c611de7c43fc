//! Answers vectors: for each `store` line of standard input the store, the Rust's sheet and a dot.

use spirt::cfg::beside::{Options, answer};
use std::io::{BufRead, BufWriter, Write};
use std::panic::{AssertUnwindSafe, catch_unwind, set_hook};

fn bytes(hex: &str) -> Option<Vec<u8>> {
    let digit = |c: u8| char::from(c).to_digit(16).map(|d| d as u8);
    let pair = |p: &[u8]| Some(digit(p[0])? << 4 | digit(*p.get(1)?)?);
    hex.as_bytes().chunks(2).map(pair).collect()
}

fn main() -> std::io::Result<()> {
    let mut options = Options::default();
    for arg in std::env::args().skip(1) {
        match &*arg {
            "--lists-of-new" => options.lists_of_new = true,
            "--func" => options.func = true,
            "--lists" => options.lists = true,
            _ => {
                eprintln!("usage: beside [--lists-of-new] [--func] [--lists] < STORES > VECTORS");
                std::process::exit(2);
            }
        }
    }

    // A panic of the Rust is an answer; one in our own files is our mistake.
    set_hook(Box::new(|panic| {
        let file = panic.location().map_or("", |place| place.file());
        if file.contains("cfg/beside") || file.ends_with("main.rs") {
            eprintln!("{panic}");
            std::process::exit(3);
        }
    }));

    let mut out = BufWriter::new(std::io::stdout().lock());
    for line in std::io::stdin().lock().lines() {
        let line = line?;
        let Some(hex) = line.strip_prefix("store") else { continue };
        let Some(store) = bytes(hex.trim()) else {
            eprintln!("beside: a store that is not hexadecimal: {line}");
            std::process::exit(2);
        };
        let sheet = catch_unwind(AssertUnwindSafe(|| answer(&store, options)));
        let sheet = sheet.unwrap_or_else(|panic| {
            let message = (panic.downcast_ref::<String>().map(|s| &**s))
                .or_else(|| panic.downcast_ref::<&str>().copied());
            format!("panic {}\n", message.unwrap_or("").replace('\n', " "))
        });
        writeln!(out, "{line}")?;
        write!(out, "{sheet}.\n")?;
    }
    out.flush()
}
