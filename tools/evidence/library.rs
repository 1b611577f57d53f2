//! The C functions of libpatchname.a, with what a call of each has to be lent.

// bench/run copies this file to target/bench, from where the path is the same
#[path = "../../bindings/rust/src/functions.rs"]
mod functions;
use functions::{call, patchname_demangle, patchname_list_names, patchname_list_normal_symbols, patchname_normalize};

/// No symbol that is longer is read.
#[allow(dead_code)]
pub const SYMBOL: usize = 16384;

/// The least length of the slice for one name, of either listing.
#[allow(dead_code)]
pub const NAME: usize = 16384;

/// The work slices in the order in which they are lent: the first two have bytes, the others numbers, of which names take `ends` alone.
#[allow(dead_code)]
pub const SLICES: [&str; 6] = ["text", "store", "ends", "words", "tables", "chains"];

pub struct Entry {
    pub what: &'static str,
    /// The least lengths of the work slices.
    pub least: &'static [usize],
    /// No result has more bytes.
    pub longest: usize,
}

pub static ENTRIES: [Entry; 2] = [
    Entry { what: "names", least: &[51200, 65536, 2048], longest: 16384 },
    Entry { what: "normals", least: &[51200, 65536, 32768, 32768, 32768, 32768], longest: 16384 },
];

pub fn entry(what: &str) -> Option<&'static Entry> {
    ENTRIES.iter().find(|e| e.what == what)
}

// As many slices of numbers are lent as the entry has least lengths for them.
impl Entry {
    /// The number; the length goes to `bytes`.
    pub fn call<N: AsMut<[u16]>>(&self, symbol: &[u8], out: &mut [u8], text: &mut [u8], store: &mut [u8], numbers: &mut [N], bytes: &mut usize) -> u8 {
        match numbers {
            [ends] => call!(patchname_demangle(symbol; out, text, store, ends.as_mut(); bytes)),
            [ends, words, tables, chains] => {
                call!(patchname_normalize(symbol; out, text, store, ends.as_mut(), words.as_mut(), tables.as_mut(), chains.as_mut(); bytes))
            }
            _ => panic!("{} slices of numbers for {}", numbers.len(), self.what),
        }
    }

    /// The number of the listing of what the function answers; the bytes taken of the input and those written go to `taken` and `written`.
    #[allow(dead_code, clippy::too_many_arguments)]
    pub fn list<N: AsMut<[u16]>>(
        &self, input: &[u8], out: &mut [u8], name: &mut [u8], text: &mut [u8], store: &mut [u8], numbers: &mut [N],
        taken: &mut usize, written: &mut usize,
    ) -> u8 {
        match numbers {
            [ends] => call!(patchname_list_names(input; out, name, text, store, ends.as_mut(); taken, written)),
            [ends, words, tables, chains] => call!(patchname_list_normal_symbols(
                input; out, name, text, store, ends.as_mut(), words.as_mut(), tables.as_mut(), chains.as_mut(); taken, written
            )),
            _ => panic!("{} slices of numbers for {}", numbers.len(), self.what),
        }
    }
}
