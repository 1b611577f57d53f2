//! Names of C++ symbols, by the proved library libpatchname.a.
//!
//! ```
//! use patchname::{Demangler, Refusal};
//!
//! let mut demangler = Demangler::new();
//! assert_eq!(demangler.name(b"_ZNK1a1bEi"), Ok(&b"a::b(int) const"[..]));
//! assert_eq!(demangler.name(b"_Z0v"), Err(Refusal::Unreadable));
//! ```
#![warn(missing_docs)]

mod functions;
mod refusal;
#[cfg(test)]
mod tests;

use functions::{call, patchname_demangle, patchname_list_names, patchname_list_normal_symbols, patchname_normalize};
pub use refusal::Refusal;

/// The longest symbol that is read, in bytes.
pub const SYMBOL_BYTES: usize = 16384;

/// So many bytes are enough for every name.
pub const NAME_BYTES: usize = 16384;

/// So many bytes are enough for every normal symbol.
pub const NORMAL_SYMBOL_BYTES: usize = 16384;

/// So many bytes are enough for every line of a listing.
pub const LINE_BYTES: usize = 16397;

// The least lengths of the work slices; a shorter one is refused with 14. The library clears all of what it is lent, so no more than that is lent.
const TEXT_LENGTH: usize = 51200;
const STORE_LENGTH: usize = 65536;
const ENDS_LENGTH: usize = 2048;
/// For normal symbols, of each of the slices of numbers.
const NORMALIZE_NUMBERS_LENGTH: usize = 32768;

/// What a call is lent for work. The contents don't matter before it, and are zero after it.
struct Work<'a> {
    text: &'a mut [u8],
    store: &'a mut [u8],
    ends: &'a mut [u16],
}

/// The same for normal symbols.
struct NormalWork<'a> {
    text: &'a mut [u8],
    store: &'a mut [u8],
    /// `ends`, `words`, `tables` and `chains`.
    numbers: [&'a mut [u16]; 4],
}

/// What was told, where the number is 0.
fn told<T>(number: u8, told: T) -> Result<T, Refusal> {
    match number {
        0 => Ok(told),
        _ => Err(Refusal::of(number).expect("the library has another refusal")),
    }
}

/// The length of the name, which is in the front of `out`.
fn name_into(symbol: &[u8], out: &mut [u8], work: Work) -> Result<usize, Refusal> {
    let mut bytes = 0;
    let Work { text, store, ends } = work;
    let number = call!(patchname_demangle(symbol; out, text, store, ends; &mut bytes));
    told(number, bytes)
}

/// The length of the normal symbol, which is in the front of `out`.
fn normal_symbol_into(symbol: &[u8], out: &mut [u8], work: NormalWork) -> Result<usize, Refusal> {
    let mut bytes = 0;
    let NormalWork { text, store, numbers: [ends, words, tables, chains] } = work;
    let number = call!(patchname_normalize(symbol; out, text, store, ends, words, tables, chains; &mut bytes));
    told(number, bytes)
}

/// How much was taken of the input, and how much was written to the output. Nothing is taken where the input has no line feed.
#[derive(Clone, Copy, Debug, PartialEq, Eq)]
pub struct Listed {
    /// The bytes of the lines that were listed, with their line feeds.
    pub taken: usize,
    /// The bytes of their listing, which are in the front of the output.
    pub written: usize,
}

fn list_names_into(input: &[u8], out: &mut [u8], name: &mut [u8], work: Work) -> Result<Listed, Refusal> {
    let mut listed = Listed { taken: 0, written: 0 };
    let Work { text, store, ends } = work;
    let number = call!(patchname_list_names(input; out, name, text, store, ends; &mut listed.taken, &mut listed.written));
    told(number, listed)
}

fn list_normal_symbols_into(input: &[u8], out: &mut [u8], name: &mut [u8], work: NormalWork) -> Result<Listed, Refusal> {
    let mut listed = Listed { taken: 0, written: 0 };
    let NormalWork { text, store, numbers: [ends, words, tables, chains] } = work;
    let number = call!(patchname_list_normal_symbols(
        input; out, name, text, store, ends, words, tables, chains; &mut listed.taken, &mut listed.written
    ));
    told(number, listed)
}

/// Names symbols, one after another. It has all the memory that this takes, 395,264 bytes, allocated once.
pub struct Demangler {
    out: Box<[u8]>,
    text: Box<[u8]>,
    store: Box<[u8]>,
    /// `ends`, `words`, `tables` and `chains`.
    numbers: [Box<[u16]>; 4],
}

impl Demangler {
    /// The memory is allocated here, and nowhere else.
    pub fn new() -> Demangler {
        Demangler {
            out: vec![0; NAME_BYTES].into(),
            text: vec![0; TEXT_LENGTH].into(),
            store: vec![0; STORE_LENGTH].into(),
            numbers: std::array::from_fn(|_| vec![0; NORMALIZE_NUMBERS_LENGTH].into()),
        }
    }

    /// The name of a symbol. It stays until the next call.
    pub fn name(&mut self, symbol: &[u8]) -> Result<&[u8], Refusal> {
        let (out, work) = self.lent();
        let bytes = name_into(symbol, out, work)?;
        Ok(&self.out[..bytes])
    }

    /// The normal symbol of a catalogue symbol. Two of them have the same one exactly when they have the same name. It stays until the next
    /// call.
    pub fn normal_symbol(&mut self, symbol: &[u8]) -> Result<&[u8], Refusal> {
        let (out, work) = self.lent_for_normal_symbols();
        let bytes = normal_symbol_into(symbol, out, work)?;
        Ok(&self.out[..bytes])
    }

    /// The listing of the complete lines at the front of `input`, one symbol a line, as many as fit into `out`: for each the number, the length
    /// and the name, parted by commas, and a line feed. Call it again with the rest; where `input` has a line feed, a line is always taken, or
    /// `out` is too short for the first one: [`Refusal::OutputTooShort`], never with [`LINE_BYTES`]. For many symbols this is faster than
    /// [`Demangler::name`], which clears the work memory for each.
    pub fn list_names(&mut self, input: &[u8], out: &mut [u8]) -> Result<Listed, Refusal> {
        let (name, work) = self.lent();
        list_names_into(input, out, name, work)
    }

    /// The same with normal symbols in the names' place.
    pub fn list_normal_symbols(&mut self, input: &[u8], out: &mut [u8]) -> Result<Listed, Refusal> {
        let (name, work) = self.lent_for_normal_symbols();
        list_normal_symbols_into(input, out, name, work)
    }

    fn lent(&mut self) -> (&mut [u8], Work<'_>) {
        let work = Work { text: &mut self.text, store: &mut self.store, ends: &mut self.numbers[0][..ENDS_LENGTH] };
        (&mut self.out, work)
    }

    fn lent_for_normal_symbols(&mut self) -> (&mut [u8], NormalWork<'_>) {
        let numbers = self.numbers.each_mut().map(|numbers| &mut numbers[..]);
        (&mut self.out, NormalWork { text: &mut self.text, store: &mut self.store, numbers })
    }
}

impl Default for Demangler {
    fn default() -> Demangler {
        Demangler::new()
    }
}
