//! Prints the names of symbols: those on the command line, or else the lines of standard input. With -n in front: their normal symbols.
use patchname::{Demangler, Refusal};
use std::io::{self, BufRead, BufWriter, Write};
use std::os::unix::ffi::OsStringExt;

type Entry = for<'a> fn(&'a mut Demangler, &[u8]) -> Result<&'a [u8], Refusal>;

fn answer(out: &mut impl Write, result: Result<&[u8], Refusal>) -> io::Result<()> {
    match result {
        Ok(text) => {
            out.write_all(text)?;
            out.write_all(b"\n")
        }
        Err(refusal) => writeln!(out, "refused, {}: {refusal}", refusal.number()),
    }
}

/// The entry that the arguments ask for, and the symbols among them.
fn entry_and_symbols() -> (Entry, Vec<Vec<u8>>) {
    #[allow(unused_mut)]
    let mut arguments: Vec<Vec<u8>> = std::env::args_os().skip(1).map(OsStringExt::into_vec).collect();
    if arguments.first().is_some_and(|first| first == b"-n") {
        arguments.remove(0);
        return (Demangler::normal_symbol, arguments);
    }
    (Demangler::name, arguments)
}

fn main() -> io::Result<()> {
    let (entry, symbols) = entry_and_symbols();
    let mut demangler = Demangler::new();
    let mut out = BufWriter::new(io::stdout().lock());
    for symbol in &symbols {
        answer(&mut out, entry(&mut demangler, symbol))?;
    }
    if symbols.is_empty() {
        for line in io::stdin().lock().split(b'\n') {
            answer(&mut out, entry(&mut demangler, &line?))?;
        }
    }
    out.flush()
}
