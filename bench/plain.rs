//! The listing over the Rust original, written the plain way: a line of standard input, `demangle`, a line of standard output. The Rust has no
//! numbers: every refusal is 4 here.
use std::io::{BufRead, Write};

mod itanium;

fn list() -> std::io::Result<()> {
    let mut out = std::io::BufWriter::new(std::io::stdout().lock());
    writeln!(out, "code,bytes,name")?;
    for line in std::io::stdin().lock().lines() {
        match itanium::demangle(&line?) {
            Some(name) => writeln!(out, "0,{},{name}", name.len())?,
            None => writeln!(out, "4,0,")?,
        }
    }
    out.flush()
}

fn main() -> std::io::Result<()> {
    // the Rust recurses
    std::thread::Builder::new().stack_size(1 << 28).spawn(list)?.join().unwrap()
}
