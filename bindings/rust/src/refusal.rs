use std::error::Error;
use std::fmt;

/// Why a symbol has no name or no normal symbol.
#[derive(Clone, Copy, PartialEq, Eq, Hash, Debug)]
#[repr(u8)]
pub enum Refusal {
    /// The symbol is longer than 16,384 bytes.
    SymbolTooLong = 1,
    /// The symbol has a byte of 128 or more.
    HighByte = 2,
    /// Neither `_Z` nor `__Z` stands in front.
    NoPrefix = 3,
    /// No rule of the reading fits.
    Unreadable = 4,
    /// Bytes are left that don't begin with a dot.
    BytesLeft = 5,
    /// Read, but no catalogue symbol. Only normal symbols are refused so.
    NotInCatalogue = 6,
    /// A reference past the table.
    NoSuchReference = 7,
    /// A 97th name, type or list of template arguments would be open.
    TooDeep = 8,
    /// An entry past 1,024, or entries past 32,768 bytes.
    TableFull = 9,
    /// A template argument past 1,024, or template arguments past 32,768 bytes.
    ArgumentsFull = 10,
    /// A text longer than 16,384 bytes.
    TextTooLong = 11,
    /// The output is shorter than the result: never that of a [`Demangler`](crate::Demangler).
    OutputTooShort = 12,
    /// The normal symbol is longer than 16,384 bytes. Only normal symbols are refused so.
    NormalSymbolTooLong = 13,
    /// A work slice is below its least length: never one of a [`Demangler`](crate::Demangler). A caller of the C functions that lends what was enough for
    /// normal symbols of 4,096 bytes, an `ends` of 24,576 numbers, gets it.
    WorkTooShort = 14,
}

impl Refusal {
    /// All of them, in the order of their numbers.
    pub const ALL: [Refusal; 14] = [
        Refusal::SymbolTooLong,
        Refusal::HighByte,
        Refusal::NoPrefix,
        Refusal::Unreadable,
        Refusal::BytesLeft,
        Refusal::NotInCatalogue,
        Refusal::NoSuchReference,
        Refusal::TooDeep,
        Refusal::TableFull,
        Refusal::ArgumentsFull,
        Refusal::TextTooLong,
        Refusal::OutputTooShort,
        Refusal::NormalSymbolTooLong,
        Refusal::WorkTooShort,
    ];

    /// The refusal of a number from 1 to 14.
    pub fn of(number: u8) -> Option<Refusal> {
        Refusal::ALL.get(usize::from(number).wrapping_sub(1)).copied()
    }

    /// Its number, from 1 to 14.
    pub fn number(self) -> u8 {
        self as u8
    }

    /// What it says.
    pub fn message(self) -> &'static str {
        match self {
            Refusal::SymbolTooLong => "the symbol is longer than 16,384 bytes",
            Refusal::HighByte => "the symbol has a byte of 128 or more",
            Refusal::NoPrefix => "neither _Z nor __Z stands in front",
            Refusal::Unreadable => "no rule of the reading fits",
            Refusal::BytesLeft => "bytes are left that don't begin with a dot",
            Refusal::NotInCatalogue => "read, but no catalogue symbol",
            Refusal::NoSuchReference => "a reference past the table",
            Refusal::TooDeep => "a 97th name, type or list of template arguments would be open",
            Refusal::TableFull => "an entry past 1,024, or entries past 32,768 bytes",
            Refusal::ArgumentsFull => "a template argument past 1,024, or template arguments past 32,768 bytes",
            Refusal::TextTooLong => "a text longer than 16,384 bytes",
            Refusal::OutputTooShort => "the output is shorter than the result",
            Refusal::NormalSymbolTooLong => "the normal symbol is longer than 16,384 bytes",
            Refusal::WorkTooShort => "a work slice is below its least length",
        }
    }
}

impl fmt::Display for Refusal {
    fn fmt(&self, f: &mut fmt::Formatter) -> fmt::Result {
        f.write_str(self.message())
    }
}

impl Error for Refusal {}
