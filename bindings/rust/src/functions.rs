//! The C functions of libpatchname.a, and a call of one with slices.

// include/patchname.h says what a caller owes. Slices of Rust fulfil it: they are never null, and those that can be written overlap nothing.
unsafe extern "C" {
    pub fn patchname_demangle(
        symbol: *const u8, symbol_length: usize, out: *mut u8, out_length: usize, text: *mut u8, text_length: usize,
        store: *mut u8, store_length: usize, ends: *mut u16, ends_length: usize, bytes: *mut usize,
    ) -> u8;
    pub fn patchname_normalize(
        symbol: *const u8, symbol_length: usize, out: *mut u8, out_length: usize, text: *mut u8, text_length: usize,
        store: *mut u8, store_length: usize, ends: *mut u16, ends_length: usize, words: *mut u16, words_length: usize,
        tables: *mut u16, tables_length: usize, chains: *mut u16, chains_length: usize, bytes: *mut usize,
    ) -> u8;
    pub fn patchname_list_names(
        input: *const u8, input_length: usize, out: *mut u8, out_length: usize, name: *mut u8, name_length: usize,
        text: *mut u8, text_length: usize, store: *mut u8, store_length: usize, ends: *mut u16, ends_length: usize,
        taken: *mut usize, written: *mut usize,
    ) -> u8;
    pub fn patchname_list_normal_symbols(
        input: *const u8, input_length: usize, out: *mut u8, out_length: usize, name: *mut u8, name_length: usize,
        text: *mut u8, text_length: usize, store: *mut u8, store_length: usize, ends: *mut u16, ends_length: usize,
        words: *mut u16, words_length: usize, tables: *mut u16, tables_length: usize, chains: *mut u16, chains_length: usize,
        taken: *mut usize, written: *mut usize,
    ) -> u8;
}

/// A call: the slice that is read, those that are written, what is told beside the number. A slice is a pointer and a length.
macro_rules! call {
    ($function:ident($read:expr; $($written:expr),*; $($told:expr),*)) => {
        unsafe { $function($read.as_ptr(), $read.len(), $($written.as_mut_ptr(), $written.len(),)* $($told),*) }
    };
}

pub(crate) use call;
