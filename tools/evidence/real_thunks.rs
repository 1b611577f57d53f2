//! For each line of standard input that the rule strikes as a thunk, a line: the symbol, `_Z` and what stands behind its offsets, the Rust's
//! name for that, the number by the papers, the name by the papers; parted by tabs, which no linker's symbol has.

#[path = "itanium.rs"]
mod itanium;
#[path = "numbered.rs"]
mod numbered;
#[path = "thunks.rs"]
mod thunks;

use std::io::BufRead;

fn row(symbol: &str) -> String {
    let answer = thunks::answered(symbol.as_bytes(), numbered::reading);
    let (number, name) = answer.map_or_else(|number| (number, String::new()), |name| (0, name));
    // past the length, or with a byte of 128 or more, it has no base: the Rust isn't asked
    let base = if [1, 2].contains(&number) { None } else { thunks::base(symbol) }.unwrap_or_default();
    let rust = itanium::demangle(&base).unwrap_or_default();
    format!("{symbol}\t{base}\t{rust}\t{number}\t{name}")
}

fn main() {
    let run = || {
        for line in std::io::stdin().lock().lines() {
            let symbol = line.unwrap();
            if thunks::is_struck(symbol.as_bytes()) {
                println!("{}", row(&symbol));
            }
        }
    };
    // the Rust recurses
    std::thread::Builder::new().stack_size(1 << 30).spawn(run).unwrap().join().unwrap();
}
