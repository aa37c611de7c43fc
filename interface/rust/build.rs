// Where librukvetta.a is: the folder that RUKVETTA_LIBRARY names, else target/interface of the repository. All numbers are taken
// from the header beside it, so that the lent arrays are as long as the library takes them to be.
use std::path::PathBuf;

fn fail(sentence: String) -> ! {
    println!("cargo:warning={sentence}");
    std::process::exit(1);
}

/// The numbers that a header defines, or has in an enum: names without their front, and their digits.
fn numbers(text: &str) -> Vec<(String, String)> {
    let mut found = Vec::new();
    for piece in text.split("RUKVETTA_").skip(1) {
        let name: String = piece.chars().take_while(|letter| letter.is_ascii_uppercase() || *letter == '_').collect();
        let rest = &piece[name.len()..];
        let digits: String = rest.trim_start_matches([' ', '=']).chars().take_while(char::is_ascii_digit).collect();
        if rest.starts_with(' ') && !digits.is_empty() && !name.contains("STACK") {
            found.push((name, digits));
        }
    }
    found
}

fn main() {
    println!("cargo:rerun-if-env-changed=RUKVETTA_LIBRARY");
    let here = PathBuf::from(std::env::var_os("CARGO_MANIFEST_DIR").expect("cargo sets it"));
    let folder = match std::env::var_os("RUKVETTA_LIBRARY") {
        Some(folder) => PathBuf::from(folder),
        None => here.join("../../target/interface"),
    };
    for file in ["librukvetta.a", "rukvetta.h"].map(|name| folder.join(name)) {
        println!("cargo:rerun-if-changed={}", file.display());
        if !file.is_file() {
            fail(format!("{} is not there: interface/build makes it", file.display()));
        }
    }
    let header = folder.join("rukvetta.h");
    let text = std::fs::read_to_string(&header).unwrap_or_else(|error| fail(format!("{}: {error}", header.display())));
    let out = PathBuf::from(std::env::var_os("OUT_DIR").expect("cargo sets it"));
    let lines: String = numbers(&text).iter().map(|(name, digits)| format!("pub const {name}: u32 = {digits};\n")).collect();
    std::fs::write(out.join("numbers.rs"), lines).expect("cargo's folder can be written");
    println!("cargo:rustc-link-search=native={}", folder.display());
    println!("cargo:rustc-link-lib=static=rukvetta");
}
