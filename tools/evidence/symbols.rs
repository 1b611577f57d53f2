//! Generators of symbols. A symbol is any bytes without a line feed.

use crate::thunks::{CLONE, MOST_SYMBOL, NON_VIRTUAL, VIRTUAL};

// ---------------------------------------------------------------- chance

/// A small generator of numbers (splitmix64), so that a seed gives the same symbols everywhere.
pub struct Rng(u64);

impl Rng {
    pub fn new(seed: u64) -> Rng {
        Rng(seed.wrapping_mul(0x9e37_79b9_7f4a_7c15) ^ 0x1234_5678_9abc_def1)
    }

    pub fn next(&mut self) -> u64 {
        self.0 = self.0.wrapping_add(0x9e37_79b9_7f4a_7c15);
        let mut z = self.0;
        z = (z ^ (z >> 30)).wrapping_mul(0xbf58_476d_1ce4_e5b9);
        z = (z ^ (z >> 27)).wrapping_mul(0x94d0_49bb_1331_11eb);
        z ^ (z >> 31)
    }

    pub fn below(&mut self, n: usize) -> usize {
        (self.next() % n as u64) as usize
    }

    /// True for so many of a thousand.
    pub fn chance(&mut self, of_thousand: usize) -> bool {
        self.below(1000) < of_thousand
    }

    pub fn pick<T: Copy>(&mut self, from: &[T]) -> T {
        from[self.below(from.len())]
    }

    pub fn weighted(&mut self, weights: &[usize]) -> usize {
        let mut at = self.below(weights.iter().sum());
        for (i, w) in weights.iter().enumerate() {
            if at < *w {
                return i;
            }
            at -= w;
        }
        unreachable!()
    }
}

// ---------------------------------------------------------------- words of the grammar

pub const LETTERS: &[u8] = b"vwbcahstijlmxynofdegz";
pub const OPERATORS: &[&str] = &[
    "nw", "na", "dl", "da", "ps", "ng", "ad", "de", "co", "pl", "mi", "ml", "dv", "rm", "an", "or", "eo", "aS", "pL",
    "mI", "mL", "dV", "rM", "aN", "oR", "eO", "ls", "rs", "lS", "rS", "eq", "ne", "lt", "gt", "le", "ge", "ss", "nt",
    "aa", "oo", "pp", "mm", "cm", "pm", "pt", "cl", "ix", "qu",
];
const PLAIN: &[&str] = &["a", "b", "c", "f", "x1", "foo", "bar", "vector", "_M_x", "allocator", "_GLOBAL__N_1"];
/// Words that the printing looks into: types' words, `::`, `<`, `>`, byte 1, and codes of the grammar.
const ODD: &[&str] = &[
    "void", "bool", "int", "long", "unsigned int", "unsigned long", "long long", "unsigned long long", "a::b", "a<b",
    "x<y>::z", "::", ":", ":::", "<", ">", "a>", "~a", "\x01", "a\x01b", "\x01\x01", ".", "E", "_Z1fv", "S_", "T0_",
    "1a", "a b", "\"", "\\", ",", "\r", "\x00", "\x7f", "...", "std", "{lambda}",
];
const CODES: &[u8] = b"EISTNLZJXFAMPKVROCDUGB_.0123456789abcivstnr\x01";

pub fn in_base(base: u128, mut n: u128) -> String {
    let digits = b"0123456789ABCDEFGHIJKLMNOPQRSTUVWXYZ";
    let mut out = vec![];
    loop {
        out.insert(0, digits[(n % base) as usize]);
        n /= base;
        if n == 0 {
            return String::from_utf8(out).unwrap();
        }
    }
}

/// The reference to an entry, counted from 0.
pub fn entry(i: usize) -> String {
    if i == 0 { "S_".into() } else { format!("S{}_", in_base(36, i as u128 - 1)) }
}

/// The reference to a template argument, counted from 0.
pub fn argument(i: usize) -> String {
    if i == 0 { "T_".into() } else { format!("T{}_", i - 1) }
}

pub fn source(word: &str) -> String {
    format!("{}{word}", word.len())
}

fn class(n: usize) -> String {
    source(&"a".repeat(n))
}

// ---------------------------------------------------------------- symbols from the grammar

/// Writes symbols by the productions. `entries` and `arguments` roughly follow the reader's lists, so that most
/// references hold.
pub struct Grammar {
    pub rng: Rng,
    out: String,
    left: i32,
    entries: usize,
    arguments: usize,
    /// Long words and many references, so that limits are met.
    grown: bool,
    /// How long a grown symbol may become, about, in stretches of 4,096 bytes.
    stretches: usize,
}

impl Grammar {
    pub fn new(seed: u64) -> Grammar {
        Grammar { rng: Rng::new(seed), out: String::new(), left: 0, entries: 0, arguments: 0, grown: false, stretches: 1 }
    }

    /// About 4,096 bytes at most.
    pub fn grown(seed: u64) -> Grammar {
        Grammar { grown: true, ..Grammar::new(seed) }
    }

    /// About as long as a symbol may be.
    pub fn long(seed: u64) -> Grammar {
        Grammar { grown: true, stretches: MOST_SYMBOL / 4096, ..Grammar::new(seed) }
    }

    pub fn any(&mut self) -> Vec<u8> {
        if self.grown {
            let size = self.rng.pick(&[20, 60, 150, 300, 600]);
            return self.symbol(size * self.stretches as i32);
        }
        let size = self.rng.pick(&[2, 4, 4, 8, 8, 16, 16, 30, 60, 150]);
        self.symbol(size)
    }

    pub fn symbol(&mut self, size: i32) -> Vec<u8> {
        self.out.clear();
        self.left = size;
        self.entries = 0;
        self.arguments = 0;
        let front = self.rng.weighted(&[900, 60, 5, 5, 5, 5, 5]);
        self.put(["_Z", "__Z", "", "_", "Z", "___Z", "_z"][front]);
        self.encoding();
        if self.rng.chance(100) {
            let suffix = self.rng.pick(&["", "isra.0", "part.1", "cold", "!", ".", "llvm.123", "_Z1f", "\x01"]);
            self.put(".");
            self.put(suffix);
        }
        self.out.clone().into_bytes()
    }

    fn put(&mut self, text: &str) {
        self.out.push_str(text);
    }

    fn put_byte(&mut self, byte: u8) {
        self.out.push(byte as char);
    }

    fn put_one(&mut self, from: &[&'static str]) {
        let text = self.rng.pick(from);
        self.put(text);
    }

    fn many(&mut self, writer: fn(&mut Grammar), least: usize, most: usize) {
        for _ in 0..least + self.rng.below(most - least + 1) {
            writer(self);
        }
    }

    fn encoding(&mut self) {
        if self.rng.chance(120) {
            return self.special();
        }
        self.name();
        if self.rng.chance(150) {
            return;
        }
        if self.rng.chance(200) {
            return self.put("v");
        }
        self.many(Grammar::ty, 1, if self.grown { 40 * self.stretches } else { 4 });
    }

    fn special(&mut self) {
        match self.rng.below(24) {
            0..=14 => {
                self.put_one(&["TV", "TT", "TI", "TS"]);
                self.ty();
            }
            15..=18 => {
                self.put("GTt");
                self.entries = 0;
                self.arguments = 0;
                self.encoding();
                self.junk(100);
            }
            19..=22 => {
                self.put("GV");
                self.entries = 0;
                self.arguments = 0;
                self.name();
                self.junk(200);
            }
            _ => {
                self.put_one(&["TC", "Th0_", "Tv0_0_", "GR", "T", "G", "TW", "GTn", "GA"]);
                self.ty();
            }
        }
    }

    fn junk(&mut self, of_thousand: usize) {
        if self.rng.chance(of_thousand) {
            self.put_one(&["!!", "v", "i", "E", "_", "1", ".", "\x01"]);
        }
    }

    // names

    fn name(&mut self) {
        self.left -= 1;
        if self.left < 0 {
            return self.source_name();
        }
        match self.rng.weighted(&[40, 35, 12, 7, 4]) {
            0 => self.unscoped_name(),
            1 => self.nested_name(),
            2 => self.s_name(),
            3 => self.local_name(),
            _ => {
                self.put("L");
                self.name()
            }
        }
    }

    fn unscoped_name(&mut self) {
        self.unqualified_name();
        if self.rng.chance(350) {
            self.entries += 1;
            self.name_args();
        }
    }

    fn name_args(&mut self) {
        self.arguments = 0;
        self.template_args();
        self.entries += 1;
    }

    fn s_name(&mut self) {
        if self.rng.chance(500) {
            self.put("St");
            match self.rng.below(5) {
                0..=2 => self.source_name(),
                3 => self.structor(),
                _ => self.operator(),
            }
            self.entries += 1;
        } else {
            self.substitution();
        }
        if self.rng.chance(400) {
            self.name_args();
        }
    }

    fn local_name(&mut self) {
        self.put("Z");
        self.name();
        if self.rng.chance(800) {
            self.many(Grammar::ty, 0, 3);
        } else {
            self.put("v");
        }
        self.put("E");
        if self.rng.chance(300) {
            self.put("s");
        } else {
            self.name();
        }
        if self.rng.chance(50) {
            self.put_one(&["_0", "_", "__12_", "d_"]);
        }
    }

    fn nested_name(&mut self) {
        self.put("N");
        for _ in 0..self.rng.pick(&[0, 0, 0, 0, 1, 1, 2, 3]) {
            self.put_one(&["K", "V", "r", "R", "O"]);
        }
        let parts = 1 + self.rng.below(5);
        for i in 0..parts {
            let mut kind = self.rng.weighted(&[50, 22, 9, 4, 5, 4, 4, 2]);
            if i == 0 && !self.rng.chance(50) {
                kind = self.rng.pick(&[0, 0, 0, 0, 0, 0, 0, 0, 2, 2, 2, 4, 5]);
            }
            match kind {
                1 => {
                    self.name_args();
                    continue;
                }
                2 => {
                    self.substitution();
                    continue;
                }
                3 => {
                    self.structor();
                    continue;
                }
                4 => self.param(),
                5 => self.unnamed(),
                6 => self.operator(),
                7 => {
                    self.put("L");
                    self.source_name();
                }
                _ => self.source_name(),
            }
            if i + 1 < parts {
                self.entries += 1;
            }
        }
        self.put("E");
    }

    fn structor(&mut self) {
        self.put_one(&["C1", "C2", "C3", "D0", "D1", "D2", "CC", "C4", "D9", "DC", "Ca", "Dt"]);
    }

    fn unqualified_name(&mut self) {
        match self.rng.weighted(&[70, 18, 6, 4, 2]) {
            0 => self.source_name(),
            1 => self.operator(),
            2 => self.unnamed(),
            3 => self.structor(),
            _ => {
                self.put("L");
                self.unqualified_name();
            }
        }
    }

    fn source_name(&mut self) {
        if self.grown && self.rng.chance(250) {
            let length = self.rng.pick(&[20, 100, 100, 500, 1000, 2000, 3200]) * self.stretches;
            if self.out.len() + length < 4000 * self.stretches {
                let word = if length < 200 && self.rng.chance(100) { "\x01" } else { "x" };
                return self.put(&source(&word.repeat(length)));
            }
        }
        let word = if self.rng.chance(800) { self.rng.pick(PLAIN) } else { self.rng.pick(ODD) };
        if self.rng.chance(20) {
            self.put("0");
        }
        let text = source(word);
        self.put(&text);
        if self.rng.chance(60) {
            self.put("B");
            self.source_name();
        }
    }

    fn operator(&mut self) {
        if self.rng.chance(200) {
            self.put("cv");
            self.ty();
        } else {
            self.put_one(OPERATORS);
        }
    }

    fn unnamed(&mut self) {
        if self.rng.chance(600) {
            self.put("Ul");
            self.put_one(&["v", "i", "PKc", "T_", "!!", "", "S_", "\x01"]);
            self.put("E");
        } else {
            self.put("U");
            self.put_one(&["t", "t", "t", "t", "a", "E", "_", "b", "1"]);
        }
        self.put_one(&["", "0", "12"]);
        self.put_one(&["_", "_", "_", ""]);
    }

    // references

    fn number(&mut self, base: u128, i: usize) {
        let mut text = if i == 0 { String::new() } else { in_base(base, i as u128 - 1) };
        if !text.is_empty() && self.rng.chance(50) {
            text.insert(0, '0');
        }
        if self.rng.chance(150) {
            text = text.to_lowercase();
        }
        self.put(&text);
    }

    fn one_below(&mut self, count: usize) -> usize {
        if self.grown && count > 0 && self.rng.chance(998) {
            // earlier entries are there more surely
            return self.rng.below(count).min(self.rng.below(count)).min(self.rng.below(count));
        }
        if count > 0 && self.rng.chance(930) { self.rng.below(count) } else { self.rng.below(60) }
    }

    fn substitution(&mut self) {
        self.put("S");
        let abbreviated = if self.entries == 0 { 970 } else if self.grown { 100 } else { 400 };
        if self.rng.chance(abbreviated) {
            self.put_one(&["t", "a", "b", "s", "i", "o", "d"]);
        } else {
            let i = self.one_below(self.entries);
            self.number(36, i);
            self.put("_");
        }
    }

    fn param(&mut self) {
        self.put("T");
        let i = self.one_below(self.arguments);
        self.number(10, i);
        self.put("_");
    }

    // types

    fn letter(&mut self) {
        let letter = self.rng.pick(LETTERS);
        self.put_byte(letter);
    }

    fn ty(&mut self) {
        self.left -= 1;
        if self.left < 0 || self.grown && self.out.len() > 3500 * self.stretches {
            return self.letter();
        }
        let references = if self.grown { 60 } else { 11 };
        match self.rng.weighted(&[22, 3, 22, 7, 4, 4, 2, 9, 6, references, 12]) {
            0 => self.letter(),
            1 => {
                self.put("D");
                let k = self.rng.pick(if self.grown { b"nacisuhfd" } else { b"nacisuhfdnacisuhfdtpev".as_slice() });
                self.put_byte(k);
            }
            2 => {
                let c = self.rng.pick(b"PPPRRKKOVCr");
                self.put_byte(c);
                self.ty();
                self.entries += 1;
            }
            3 => {
                self.put("F");
                self.ty();
                if self.rng.chance(200) {
                    self.put("v");
                } else {
                    self.many(Grammar::ty, 0, 3);
                }
                self.put("E");
                self.entries += 1;
            }
            4 => {
                self.put("A");
                self.put_one(&["", "3", "10", "n1", "Lj1E", "\x01"]);
                self.put("_");
                self.ty();
            }
            5 => {
                self.put("M");
                self.ty();
                self.ty();
                self.entries += 1;
            }
            6 => {
                self.put("u");
                self.source_name();
            }
            7 => {
                self.nested_name();
                self.entries += 1;
            }
            8 => self.param(),
            9 if !self.grown && self.rng.chance(400) => self.s_name(),
            9 => {
                self.substitution();
                self.instance();
            }
            _ => {
                self.source_name();
                self.entries += 1;
                self.instance();
            }
        }
    }

    fn instance(&mut self) {
        if self.rng.chance(350) {
            self.template_args();
            self.entries += 1;
        }
    }

    // template arguments

    fn template_args(&mut self) {
        self.put("I");
        let most = if self.grown { 12 } else { 3 };
        for _ in 0..self.rng.pick(&[0, 1, 1, 1, 1, 2, 2, most]) {
            self.template_arg();
            self.arguments += 1;
        }
        self.put("E");
    }

    fn template_arg(&mut self) {
        match self.rng.weighted(&[62, 20, 6, 7, 5]) {
            0 => self.ty(),
            1 => {
                self.put("L");
                if self.rng.chance(850) {
                    let kind = self.rng.pick(b"bbiijlmxyc");
                    self.put_byte(kind);
                } else {
                    self.ty();
                }
                self.put_one(&["0", "1", "5", "n1", "n5", "", "n", "nn2", "01", "a_b", "12345678901234567890", "\x01"]);
                self.put("E");
            }
            2 => self.expression(),
            3 => {
                self.put("J");
                self.many(Grammar::template_arg, 0, 3);
                self.put("E");
            }
            _ => {
                self.put("L_");
                if self.rng.chance(300) {
                    self.put("Z");
                    self.encoding();
                } else {
                    self.name();
                }
                if self.rng.chance(850) {
                    self.put("E");
                }
            }
        }
    }

    fn expression(&mut self) {
        self.put("X");
        let inner = self.rng.pick(&["", "sr1a1b", "!", "T_", "1", "X", "_"]);
        self.put(inner);
        if inner == "X" || self.rng.chance(300) {
            self.expression();
        }
        self.put("E");
    }
}

// ---------------------------------------------------------------- every code in many places

/// Each letter, operator, label and reference in the places where the grammar has one, and every other code there too.
pub fn systematic() -> Vec<Vec<u8>> {
    let mut out: Vec<Vec<u8>> = vec![];
    let mut add = |text: String| out.push(text.into_bytes());
    let bytes = || (0u8..128).filter(|b| *b != 10).map(|b| b as char);

    let mut types: Vec<String> = bytes().map(String::from).collect();
    for c in bytes() {
        types.extend([format!("D{c}"), format!("S{c}"), format!("S{c}_"), format!("T{c}"), format!("T{c}_")]);
    }
    for c in "PROCKVr".chars() {
        for t in ["i", "1a", "FvvE", "A_i", "PFivE", "M1aFvvE", "M1ai", "T_", "S_", "Ss", "St1a", "N1a1bE", "1aIFvvEE"] {
            types.push(format!("{c}{t}"));
            for d in "PROCKVr".chars() {
                types.push(format!("{d}{c}{t}"));
            }
        }
    }
    types.extend(["NE", "N1aE", "u1a", "u4void", "4void", "3int", "A_FvvE", "A3_A4_i", "M1aM1bi", "FFvvEvE"].map(String::from));
    for t in &types {
        for (before, after) in [
            ("_Z1f", ""), ("_Z1fP", ""), ("_Z1fI", "Evv"), ("_ZTI", ""), ("_Z1fIL", "1EE"), ("_ZZ1f", "E1x"), ("_Zcv", "v"),
            ("_Z1fFv", "E"), ("_Z1fF", "vE"), ("_Z1fM1a", ""), ("_Z1fM", "i"), ("_Z1fA3_", ""), ("_Z1f", ".x"),
            ("_Z1fK", "S_"), ("_Z1fi", ""), ("_Z1fIiEv", "T_"), ("_Z1f1a", "S_S0_"), ("_Z1fIJ", "EE"), ("_ZN1acv", "Ev"),
        ] {
            add(format!("{before}{t}{after}"));
        }
    }
    for a in bytes() {
        for (before, after) in [
            ("_Z", ""), ("_Z", "1a"), ("_ZN", "1aE"), ("_ZN1a", "E"), ("_ZT", "1a"), ("_ZG", "1a"), ("_ZGT", "1a"), ("_ZSt", "1a"),
            ("_ZNSt", "1aE"), ("_ZL", "1a"), ("_ZZ1fvE", "1a"), ("_Z1fI", "1aE"), ("_Z1fIL", "E"), ("_Z1fIX", "EE"), ("_Z1fILi", "EE"),
            ("_ZU", "_"), ("_ZUl", "E_"), ("_Z1", ""), ("_Z1", "v"), ("_Z2", "\x01v"), ("_ZN1", "C1Ev"), ("_Z1f1", ""), ("_Z1fA", "_i"),
            ("_Z1f", "_"), ("_ZTV1a", ""), ("_ZGV1f", ""), ("_ZGTt1f", ""), ("_Z1f.", ""), ("", "Z1f"), ("_", "1f"), ("_Z1aB1", "v"),
            ("_Z1fP1", ""), ("_Z1fILb", "EE"), ("_Z1fIL1", "1EE"),
        ] {
            add(format!("{before}{a}{after}"));
        }
        for s in ["C", "D"] {
            for (before, after) in [("_Z", ""), ("_Z", "v"), ("_ZSt", "v"), ("_ZN1a", "Ev"), ("_ZN1aIiE", "Ev"), ("_ZN", "E"), ("_ZNSs", "IiEEv")] {
                add(format!("{before}{s}{a}{after}"));
            }
        }
    }
    let letters = || ('a'..='z').chain('A'..='Z');
    for a in letters() {
        for b in letters() {
            for (before, after) in [("_Z", ""), ("_Z", "1a"), ("_ZN1a", "Ev"), ("_ZN1a", "IiEEvT_"), ("_ZSt", "ii"), ("_Z", "1a1b"), ("_ZL", "v")] {
                add(format!("{before}{a}{b}{after}"));
            }
        }
    }
    let qualifiers = ["", "K", "V", "r", "R", "O"];
    for a in qualifiers {
        for b in qualifiers {
            for c in qualifiers {
                for (before, after) in [("_ZN", "1a1bEv"), ("_Z1fN", "1a1bE"), ("_Z1fIN", "1a1bEEvv"), ("_ZZN", "1a1bEvEs"), ("_ZGVN", "1a1bE")] {
                    add(format!("{before}{a}{b}{c}{after}"));
                }
            }
        }
    }
    out
}

// ---------------------------------------------------------------- all short symbols

/// All strings over an alphabet up to a length, between a front and an end. An alphabet with spaces is one of words.
pub struct Short {
    pub front: &'static str,
    pub alphabet: &'static str,
    pub end: &'static str,
    pub most: u32,
}

pub const SHORT: &[Short] = &[
    Short { front: "_Z", alphabet: "1aISt_E0NvPKT", end: "", most: 5 },
    Short { front: "", alphabet: "_Z1fv", end: "", most: 6 },
    Short { front: "_Z1f", alphabet: "iPS_0TEF", end: "", most: 6 },
    Short { front: "_Z1f", alphabet: "1aIEiS_T", end: "", most: 6 },
    Short { front: "_Z1f", alphabet: "PKFMvES_", end: "", most: 6 },
    Short { front: "_Z1fFvvE", alphabet: "MS_0PO", end: "", most: 6 },
    Short { front: "_Z1f", alphabet: "A_iP.1E", end: "", most: 6 },
    Short { front: "_Z1fI", alphabet: "LJXEi1_n", end: "", most: 6 },
    Short { front: "_Z1fI", alphabet: "i1aIEvT_", end: "", most: 6 },
    Short { front: "_Z1fIS", alphabet: "t1aIEvT_", end: "", most: 6 },
    Short { front: "_Z1fI", alphabet: "LJXEi1_", end: "EvT_", most: 5 },
    Short { front: "_ZN", alphabet: "1aIES_Ci", end: "", most: 6 },
    Short { front: "_ZN", alphabet: "KR1aEvSt", end: "", most: 6 },
    Short { front: "_ZN1a", alphabet: "IiEC1D<T_", end: "Ev", most: 5 },
    Short { front: "_Z", alphabet: "Z1fvEsN", end: "", most: 7 },
    Short { front: "_Z", alphabet: "GTtV1fa!", end: "", most: 6 },
    Short { front: "_Z", alphabet: "UlEt_01aB", end: "", most: 5 },
    Short { front: "_Z", alphabet: "cviIEvT_", end: "", most: 6 },
    Short { front: "_Z", alphabet: "LSt1aIDE", end: "", most: 6 },
    Short { front: "_Z", alphabet: "1\x01PFEvfM", end: "", most: 6 },
    Short { front: "_Z1f", alphabet: "1\x01PFEvMS_", end: "", most: 5 },
    Short { front: "_ZTI", alphabet: "N1aSPE_0", end: "", most: 6 },
    Short { front: "_Z1aB", alphabet: "1b0B.vI", end: "", most: 6 },
    Short { front: "_Z", alphabet: "1f I E i v 1a S_ T_", end: "", most: 6 },
    Short { front: "_Z1f", alphabet: "P K Fv E 1a S_ S0_ M i", end: "", most: 6 },
    Short { front: "_Z1f", alphabet: "PFvvE R K S_ S0_ S1_ M1a i A3_", end: "", most: 6 },
    Short { front: "_Z1fI", alphabet: "i 1a I E v T_ T0_ S_ J", end: "", most: 6 },
    Short { front: "_Z1f", alphabet: "1aI i E v T_ St1bI S_ N1cI S0_", end: "", most: 6 },
    Short { front: "_Z1fI", alphabet: "Li Lb 1 n E X J L_ 1g", end: "", most: 6 },
    Short { front: "_Z1fI", alphabet: "Li1E Lb1E Xt JE J i E L_1g", end: "EvT_", most: 5 },
    Short { front: "_ZN", alphabet: "1a 1bI i E S_ K C1 T_ St D0", end: "", most: 6 },
    Short { front: "_ZN", alphabet: "1aIiE 1b S_ S0_ C1 E v T_ plI", end: "Ev", most: 5 },
    Short { front: "_Z1f", alphabet: "N1a 1b E S_ S0_ IiE P K", end: "", most: 6 },
    Short { front: "_Z", alphabet: "Z N K E 1a s v IiE", end: "", most: 6 },
    Short { front: "_ZZ", alphabet: "NK 1a E s v IiE Z St1b", end: "v", most: 5 },
    Short { front: "_Z", alphabet: "St 1a I i E S_ C1 v L", end: "", most: 6 },
    Short { front: "_Z", alphabet: "GTt GV TV TI 1a N E ! . v", end: "", most: 5 },
    Short { front: "_Z", alphabet: "cv pl i 1a IiE T_ S_ N E v", end: "", most: 6 },
    Short { front: "_Z", alphabet: "Ul Ut E _ 0 1a v N IiE", end: "", most: 6 },
    Short { front: "_Z", alphabet: "1a B1b IiE v L . S_ Bv", end: "", most: 6 },
    Short { front: "_Z1f", alphabet: "1\x01 M P S_ S0_ Fv E 1a", end: "", most: 6 },
];

impl Short {
    pub fn words(&self) -> Vec<&'static str> {
        if self.alphabet.contains(' ') {
            return self.alphabet.split(' ').collect();
        }
        (0..self.alphabet.len()).map(|i| &self.alphabet[i..=i]).collect()
    }

    /// All of them, shorter ones first.
    pub fn all(&self) -> impl Iterator<Item = Vec<u8>> {
        let words = self.words();
        let total: usize = (0..=self.most).map(|n| words.len().pow(n)).sum();
        (0..total).map(move |i| self.nth(&words, i))
    }

    pub fn total(&self) -> usize {
        let base = self.words().len();
        (0..=self.most).map(|n| base.pow(n)).sum()
    }

    fn nth(&self, words: &[&str], mut i: usize) -> Vec<u8> {
        let mut length = 0;
        while i >= words.len().pow(length) {
            i -= words.len().pow(length);
            length += 1;
        }
        let mut picked = [""; 8];
        for word in picked[..length as usize].iter_mut().rev() {
            *word = words[i % words.len()];
            i /= words.len();
        }
        let mut out = self.front.as_bytes().to_vec();
        for word in &picked[..length as usize] {
            out.extend_from_slice(word.as_bytes());
        }
        out.extend_from_slice(self.end.as_bytes());
        out
    }
}

/// One or two bytes of any kind, behind fronts that end in the middle of something.
pub fn any_two_bytes() -> Vec<Vec<u8>> {
    let mut out = vec![];
    for front in ["", "_Z", "__Z", "_Z1f", "_ZN1a", "_Z1fI", "_Z2", "_Z1fPFvvES"] {
        let front = front.as_bytes();
        for a in (0..=255u8).filter(|b| *b != 10) {
            out.push([front, &[a]].concat());
            for b in (0..128u8).filter(|b| *b != 10) {
                out.push([front, &[a, b]].concat());
            }
        }
    }
    out
}

// ---------------------------------------------------------------- damage

fn code_byte(rng: &mut Rng) -> u8 {
    match rng.below(100) {
        0..=79 => rng.pick(CODES),
        80..=98 => rng.below(128) as u8,
        _ => rng.below(256) as u8,
    }
}

/// One to three edits of a symbol; `other` is spliced in.
pub fn damaged(rng: &mut Rng, symbol: &[u8], other: &[u8]) -> Vec<u8> {
    let mut text = symbol.to_vec();
    for _ in 0..rng.pick(&[1, 1, 1, 2, 2, 3]) {
        let least = if rng.chance(950) { 2.min(text.len()) } else { 0 };
        let at = least + rng.below(text.len() - least + 1);
        let inside = at < text.len();
        let stretch = at + rng.below(text.len() - at + 1).min(1 + rng.below(24));
        match rng.below(12) {
            0 if inside => text[at] = code_byte(rng),
            1 if inside => text[at] ^= 1 << rng.below(7),
            2 if inside => {
                text.remove(at);
            }
            3 => text.truncate(at),
            4 => {
                let copy = text[at..stretch].to_vec();
                text.splice(at..at, copy);
            }
            5 => {
                text.drain(at..stretch);
            }
            6 => {
                let from = rng.below(other.len() + 1);
                text.truncate(at);
                text.extend_from_slice(&other[from..]);
            }
            7 => {
                let from = rng.below(other.len() + 1);
                let to = from + rng.below(other.len() - from + 1);
                text.splice(at..at, other[from..to].iter().copied());
            }
            8 if inside => {
                let with = rng.below(text.len());
                text.swap(at, with);
            }
            9 if inside && text[at].is_ascii_digit() => text[at] = b'0' + (text[at] - b'0' + 1) % 10,
            10 if inside && rng.chance(20) => text[at] |= 128,
            _ => text.insert(at, code_byte(rng)),
        }
    }
    for byte in &mut text {
        if *byte == b'\n' {
            *byte = 0x0b;
        }
    }
    text
}

pub fn high(rng: &mut Rng, symbol: &[u8]) -> Vec<u8> {
    let mut text = symbol.to_vec();
    for _ in 0..1 + rng.below(2) {
        let at = rng.below(text.len() + 1);
        match rng.below(3) {
            // a whole character of two bytes
            0 => {
                text.splice(at..at, "\u{e9}".bytes());
            }
            _ => text.insert(at, 128 + rng.below(128) as u8),
        }
    }
    text
}

// ---------------------------------------------------------------- symbols near the limits

/// What opens readings around a type: in front, behind, how many are opened.
const LEVELS: &[(&str, &str, usize)] = &[
    ("P", "", 1), ("K", "", 1), ("A_", "", 1), ("F", "E", 1), ("Fv", "E", 1), ("M1a", "", 1), ("M", "i", 1),
    ("1aI", "E", 2), ("N1aI", "EE", 2), ("St1aI", "E", 2), ("SaI", "E", 2), ("1aIL", "0EE", 2), ("1aIJ", "EE", 2),
    ("Ncv", "E", 1),
];

fn around(levels: &[(&str, &str, usize)]) -> String {
    let before: String = levels.iter().map(|l| l.0).collect();
    let after: String = levels.iter().rev().map(|l| l.1).collect();
    format!("{before}i{after}")
}

type Level = (&'static str, &'static str, usize);

fn levels_to(rng: &mut Rng, choices: &[Level], opened: usize) -> Vec<Level> {
    let (mut levels, mut left) = (vec![], opened);
    while left > 0 {
        let fitting: Vec<Level> = choices.iter().copied().filter(|l| l.2 <= left).collect();
        let level = if fitting.is_empty() { LEVELS[0] } else { rng.pick(&fitting) };
        levels.push(level);
        left -= level.2;
    }
    levels
}

/// 94 to 98 readings open.
pub fn opened(rng: &mut Rng, mixed: usize) -> Vec<String> {
    let mut out = vec![];
    for opened in 94..=98 {
        for level in LEVELS {
            out.push(format!("_Z1f{}", around(&levels_to(rng, &[*level], opened - 1))));
            // the other side of the limit where a level opens two
            let mut levels = vec![LEVELS[0]];
            levels.extend(levels_to(rng, &[*level], opened - 2));
            out.push(format!("_Z1f{}", around(&levels)));
        }
        for _ in 0..mixed {
            out.push(format!("_Z1f{}", around(&levels_to(rng, LEVELS, opened - 1))));
            out.push(format!("_Z1fI{}Evv", around(&levels_to(rng, LEVELS, opened - 3))));
            out.push(format!("_ZTV{}", around(&levels_to(rng, LEVELS, opened - 1))));
            out.push(format!("_ZGTtTI{}", around(&levels_to(rng, LEVELS, opened - 1))));
        }
        let n = opened - 1;
        out.push(format!("_Z1f{}", "P".repeat(n)));
        out.push(format!("_Z1f{}i", "P".repeat(n)));
        out.push(format!("_Z{}1fv", "L".repeat(n)));
        out.push(format!("_Z{}1f{}", "Z".repeat(n), "Es".repeat(n)));
        out.push(format!("_Z{}1g{}", "L1fIL_".repeat(n / 3), "EE".repeat(n / 3)));
        out.push(format!("_ZGV{}1f", "L".repeat(n)));
        out.push(format!("_ZN{}E", "1a".repeat(opened)));
        out.push(format!("_Z{}i{}", "1fI".repeat(1) + &"1aI".repeat(n / 2), "E".repeat(n / 2 + 1)));
        out.push(format!("_ZTIN{}i{}", "1aIN".repeat(n / 2), "EE".repeat(n / 2)));
        out.push(format!("_Z1f{}i{}", "Fi".repeat(n), "E".repeat(n)));
    }
    out
}

/// Symbols of these lengths, at least 4,095, and a byte of 128 or more at the end of a symbol on both sides of the limit, and of 4,096 bytes.
pub fn lengths(totals: &[usize]) -> Vec<String> {
    let mut out = vec![];
    let shapes = [
        ("_Z1fv.", "1", ""), ("_Z1fIX", "1", "EEvv"), ("_ZNUl", "1", "E_Ev"), ("_Z1fA", "1", "_i"), ("_Z1fILi", "1", "EEvv"),
        ("_ZGV1f", "1", ""), ("_Z", "0", "1fv"), ("_Z1fT", "0", "_"), ("_Z1fPiS", "0", "_"), ("", "1", ""), ("_", "Z", ""),
        ("_ZUt", "7", "_"), ("_ZN1a", "C1", "E"), ("_ZN", "K", "1a1bEv"), ("_ZN", "L", "1aE"), ("_ZGTtTV1a", "!", ""), ("_Z1f", "\x01", ""),
        ("_ZN1aC1I", "X", ""), ("_Z1fIL_", "Z", ""), ("x", "y", ""),
    ];
    for &total in totals {
        for (before, unit, after) in shapes {
            let room: usize = total - before.len() - after.len();
            let fill = unit.repeat(room / unit.len()) + &"1".repeat(room % unit.len());
            out.push(format!("{before}{fill}{after}"));
        }
        out.push(format!("_Z{}", word_of(total - 2)));
        out.push(format!("_ZN{}C1Ev", word_of(total - 7)));
        out.push(format!("_Z1f{}", word_of(total - 4)));
    }
    for total in totals.iter().filter(|total| [4096, 4097, MOST_SYMBOL, MOST_SYMBOL + 1].contains(*total)) {
        out.push(format!("_Z{}\u{e9}", word_of(total - 4)));
    }
    out
}

/// A source name that takes so many bytes, the digits of its length counted.
fn word_of(bytes: usize) -> String {
    (1..=5).map(|digits| class(bytes - digits)).find(|word| word.len() == bytes).expect("a word of this length")
}

/// So many classes of one letter, at most 52.
fn letters(n: usize) -> String {
    ('a'..='z').chain('A'..='Z').take(n).map(|letter| format!("1{letter}")).collect()
}

/// Symbols of these lengths by as many parts as there is room for: what is left over goes behind a dot, and into the name.
fn filled_lengths(totals: &[usize]) -> Vec<String> {
    let mut out = vec![];
    // a reference to entry 37 has a byte more than its text, one to entry 1 as many
    let far = format!("_Z1f{}", letters(38));
    let shapes = [
        (far.as_str(), "S10_", ""), ("_Z1f1a1b", "S0_", ""), ("_Z1f1a", "PS_", ""), ("_Z1f", "i", ""), ("_Z1fI", "JE", "E"), ("_Z1fI", "J", "E"),
        ("_Z1f", "B1a", "v"), ("_Z", "GTt", "1fv"), ("_Z", "GTt", "Th8_1fv"), ("_ZN", "1a", "Ev"), ("_ZN1a", "S_", "Ev"), ("_ZN", "r", "1a1bEv"),
    ];
    for &total in totals {
        for (before, unit, after) in shapes {
            let room = total - before.len() - after.len();
            let units = room / unit.len() - 1;
            let left = room - units * unit.len();
            let symbol = format!("{before}{}{after}", unit.repeat(units));
            out.push(format!("{symbol}.{}", "x".repeat(left - 1)));
            out.extend(symbol.strip_prefix("_Z1f").map(|rest| format!("_Z{}{rest}", class(left + 1))));
        }
    }
    out
}

/// Symbols of these lengths by a long word in many places.
fn word_lengths(totals: &[usize]) -> Vec<String> {
    let mut out = vec![];
    for &total in totals {
        for (before, after) in [
            ("_Z1f", "ii"), ("_Z1fB", ""), ("_Z1fI", "Ev"), ("_ZN1a", "Ev"), ("_ZZ", "vEs"), ("_Z1fPFv", "E"), ("_ZTV", ""), ("_ZGTt", "v"), ("_ZSt", "v"),
            ("_ZTh8_", "v"), ("_ZTv0_n8_1f", ""), ("_Z1f1aIL", "1EE"), ("_Z1fP", "S_S0_"), ("_Z1fN1a", "E"), ("_Z1fu", "PS_"), ("__Z1fK", ".x"),
        ] {
            out.push(format!("{before}{}{after}", word_of(total - before.len() - after.len())));
        }
        let half = total / 2;
        out.push(format!("_ZN{}{}Ev", word_of(half), word_of(total - half - 5)));
        out.push(format!("_ZZ{}vE{}", word_of(half), word_of(total - half - 5)));
    }
    out
}

/// Symbols of these lengths, most of them within the other limits.
pub fn long_lengths(totals: &[usize]) -> Vec<String> {
    filled_lengths(totals).into_iter().chain(word_lengths(totals)).collect()
}

/// So many entries or arguments, of many shapes, and references to the last of them and past it.
pub fn counts(numbers: std::ops::RangeInclusive<usize>) -> Vec<String> {
    let mut out = vec![];
    for k in numbers {
        for unit in ["Pi", "1a", "FvE", "Ki", "NE"] {
            out.push(format!("_Z1f{}", unit.repeat(k)));
            for i in [k - 2, k - 1, k, k + 1] {
                out.push(format!("_Z1f{}{}", unit.repeat(k), entry(i)));
            }
        }
        out.push(format!("_Z1f1a{}", "PS_".repeat(k - 1)));
        out.push(format!("_Z1fNS_E{}", "Pi".repeat(k)));
        out.push(format!("_ZTV1aI{}E", "Pi".repeat(k - 2)));
        out.push(format!("_ZGV1aI{}E", "Pi".repeat(k - 2)));
        out.push(format!("_ZGTt1f{}", "Pi".repeat(k)));
        out.push(format!("_ZZ1f{}E1g", "Pi".repeat(k)));
        out.push(format!("_Z1f{}!", "Pi".repeat(k)));
        out.push(format!("_ZTVF{}E!", "Pi".repeat(k)));
        out.push(format!("_Z1f{}S_IiE", "Pi".repeat(k - 1)));
        out.push(format!("_Z1f{}St1a", "Pi".repeat(k - 1)));
        for unit in ["i", "1a", "JE", "XE", "LiE"] {
            out.push(format!("_Z1fI{}E", unit.repeat(k)));
            out.push(format!("_Z1fI{}Evv", unit.repeat(k)));
            out.push(format!("_ZTV1aI{}E", unit.repeat(k)));
            out.push(format!("_Z1f1aI{}E", unit.repeat(k)));
            out.push(format!("_ZSt1fI{}Ev", unit.repeat(k)));
        }
        for i in [k - 2, k - 1, k, k + 1] {
            out.push(format!("_Z1fI{}Ev{}", "i".repeat(k), argument(i)));
            out.push(format!("_ZN1aI{}EE{}", "i".repeat(k), argument(i)));
        }
        // the argument of the outer list is pushed last
        out.push(format!("_Z1fI1aI{}EEvv", "i".repeat(k - 1)));
        out.push(format!("_Z1fI{}1aIcEEvv", "i".repeat(k - 2)));
        out.push(format!("_Z1f1aI{}E1bI{}E", "i".repeat(500), "i".repeat(k - 500)));
        // these start from nothing
        out.push(format!("_Z1fI{}N1aI{}EEEvT_", "i".repeat(k), "c".repeat(k)));
        out.push(format!("_Z1fI{}St1aI{}EEvT_", "i".repeat(600), "c".repeat(k - 1)));
        out.push(format!("_ZN1aI{}E1bI{}EEvv", "i".repeat(1000), "c".repeat(k)));
        out.push(format!("_Z1fI{}E1bI{}E", "i".repeat(1000), "c".repeat(k - 1000)));
        out.push(format!("_Z1fI{}", "i".repeat(k)));
    }
    out
}

fn doubled(k: usize) -> String {
    (0..k).map(|i| format!("F{}{}E", entry(i), entry(i))).collect()
}

/// Texts of so many bytes, about 16,384; and ways to grow a text.
pub fn texts(totals: std::ops::RangeInclusive<usize>, growth: usize) -> Vec<String> {
    let mut out = vec![];
    let a = class(3260);
    for total in totals {
        // f(A, A, A, A, B)
        let b = |fixed: usize| class(total - fixed - 5 * 3262);
        out.push(format!("_Z1f{a}{}{}", "S_".repeat(4), b(3)));
        out.push(format!("_Z1f{a}{}{}.x", "S_".repeat(4), b(3)));
        // the same with a return type, so that the parameters alone fit
        out.push(format!("_Z1fIiEv{a}{}{}", "S1_".repeat(4), b(13)));
        // a long return type
        out.push(format!("_Z1fIiEN{a}{}{}Ev", "S1_".repeat(4), b(9)));
        // A::A::A::A::B, as a name, as a type, with qualifiers
        out.push(format!("_ZN{a}{}{}E", "S_".repeat(4), b(0)));
        out.push(format!("_ZTIN{a}{}{}E", "S_".repeat(4), b(13)));
        out.push(format!("_ZNKR{a}{}{}Ev", "S_".repeat(4), b(10)));
        out.push(format!("_ZGVN{a}{}{}E", "S_".repeat(4), b(19)));
        // <A, A, A, A, B> behind a class and behind a name
        out.push(format!("_ZTV1cI{a}{}{}E", "S0_".repeat(4), b(14)));
        out.push(format!("_Z1fI{a}{}{}E", "S0_".repeat(4), b(3)));
        out.push(format!("_ZSt1fI{a}{}{}E", "S0_".repeat(4), b(8)));
        // a pack, and a literal's value
        out.push(format!("_Z1fIJ{a}{}ELS0_{}EE", "S0_".repeat(3), "7".repeat(total - 16313)));
        out.push(format!("_Z1fIJ{a}{}{}EE", "S0_".repeat(4), b(3)));
        // a local name
        out.push(format!("_ZZ1f{a}{}{}Es", "S_".repeat(4), b(19)));
        out.push(format!("_ZZ1f{a}{}{}", "S_".repeat(4), b(0)));
        out.push(format!("_ZZ1f{a}{}{}E1g", "S_".repeat(4), b(6)));
        // a conversion, a member, a function type, an array
        out.push(format!("_ZcvN{a}{}{}E", "S_".repeat(4), b(9)));
        out.push(format!("_Z1fMN{a}{}{}Ei", "S_".repeat(4), b(10)));
        out.push(format!("_Z1fFv{a}{}{}E", "S_".repeat(4), b(13)));
        out.push(format!("_Z1fA{}_N{a}{}E", "5".repeat(20), "S_".repeat(4) + &b(26)));
        // qualifiers alone
        out.push(format!("_ZN{}1aC1{}E", "V".repeat(1820), "C1".repeat((total - 16380) / 3)));
        out.push(format!("_ZNKK{}{}Ev", "V".repeat(1800), class(total - 12 - 16200 - 2)));
        out.push(format!("_ZNKK{}{}E!", "V".repeat(1800), class(total - 12 - 16200 - 2)));
        // abbreviations, 70 bytes each
        let s = 70;
        out.push(format!("_ZN{}{}Ev", "Ss".repeat(227), class(total - 227 * (s + 2) - 2)));
        out.push(format!("_Z1f{}{}", "Ss".repeat(226), class(total - 3 - 226 * (s + 2))));
        out.push(format!("_Z1f1aI{}{}Ly5EE", "Ss".repeat(226), class(total - 16284)));
        out.push(format!("_Z1f1aI{}{}Ly5EE!", "Ss".repeat(226), class(total - 16284)));
        // labels in front of a text that fits
        out.push(format!("_ZGTt1f{a}{}{}", "S_".repeat(4), b(25)));
        // bytes 1 count, though they aren't printed
        out.push(format!("_Z1f{}{}{}", source(&"\x01".repeat(3260)), "S_".repeat(4), b(3)));
    }
    for n in 3274..=3279 {
        // O puts two bytes in front of each slot
        out.push(format!("_Z1fOO{}", source(&"\x01".repeat(n))));
        out.push(format!("_Z1fPPPP{}", source(&"\x01".repeat(n))));
    }
    for n in 2729..=2733 {
        out.push(format!("_Z1fM2ab{}", source(&"\x01".repeat(n))));
    }
    for n in [4000, 4085] {
        for c in "PROCKVr".chars() {
            out.push(format!("_Z1f{c}{}", source(&"\x01".repeat(n))));
        }
    }
    for k in 5..=14 {
        // each function type has the one before twice
        for tail in ["", "!", "S_", "S99_"] {
            out.push(format!("_Z1fFvvE{}{tail}", doubled(k)));
        }
        out.push(format!("_Z1fP1a{}", (0..k).map(|i| format!("F{}{}E", entry(i + 1), entry(i + 1))).collect::<String>()));
        // each class has the one before twice
        out.push(format!("_Z1f1a{}", (0..k).map(|i| format!("S_I{}{}E", entry(i), entry(i))).collect::<String>()));
        out.push(format!("_Z1fIiEv{}", (0..k).map(|i| format!("F{}{}E", argument(0), entry(i))).collect::<String>()));
    }
    for k in 1..=growth {
        // a member of itself: slots and bytes are squared
        out.push(format!("_Z1fFvvE{}", (0..k).map(|i| format!("M{}{}", entry(i), entry(i))).collect::<String>()));
        out.push(format!("_Z1f2\x01\x01{}", (0..k).map(|i| format!("M{}{}", entry(i), entry(i))).collect::<String>()));
        out.push(format!("_Z1f12{}{}", "\x01".repeat(12), (0..k.min(2)).map(|i| format!("M{}{}", entry(i), entry(i))).collect::<String>()));
    }
    for v in 0..=5 {
        // the shortest that grow past a limit
        for n in 1..=8 {
            out.push(format!("_Z1f{}MM{}S_S0_", "V".repeat(v), source(&"\x01".repeat(n))));
        }
        out.push(format!("_Z1f{}MMMFvES_S0_S1_", "V".repeat(v)));
        out.push(format!("_Z1f{}MMMMFvES_S0_S1_S2_", "V".repeat(v)));
    }
    for k in 743..=745 {
        out.push(format!("_Z{}{}", "GTt".repeat(k), class(10)));
        out.push(format!("_Z{}{}!", "GTt".repeat(k), class(10)));
        out.push(format!("_Z{}TV{}", "GTt".repeat(k), class(10)));
        out.push(format!("_Z{}GV{}", "GTt".repeat(k), class(10)));
    }
    out
}

/// Entries of so many bytes, about 32,768: a text within its own limit, put into the table again and again.
pub fn tables(totals: std::ops::RangeInclusive<usize>) -> Vec<String> {
    let mut out = vec![];
    for total in totals {
        // A, A*, A**, .. and A, A const, ..; a class in front makes up the sum
        out.push(format!("_Z1f{}{}{}", class(total - 10 * 3250 - 45), "P".repeat(9), class(3250)));
        out.push(format!("_Z1f{}{}{}", class(total - 10 * 3240 - 6 * 45), "K".repeat(9), class(3240)));
        out.push(format!("_Z1f{}{}{}S_", class(total - 10 * 3250 - 45), "P".repeat(9), class(3250)));
        out.push(format!("_Z1f{}{}{}!", class(total - 10 * 3250 - 45), "P".repeat(9), class(3250)));
        out.push(format!("_ZGTt1f{}{}{}", class(total - 10 * 3250 - 45), "P".repeat(9), class(3250)));
        // the prefixes A, A::b, A::b::b, ..
        out.push(format!("_ZN{}{}1cE{}", class(3250), "1b".repeat(9), class(total - 10 * 3250 - 3 * 45)));
        // a text of 14,410 bytes twice, and a class that makes up the sum; the parameters are then past the limit of texts
        out.push(format!("_Z1f{}FS_S_S_S_EPS0_{}", class(3600), class(total - 3600 - 14410 - 14411)));
    }
    for n in 3..=120usize {
        // prefixes of growing length
        if n % 9 == 3 || (100..115).contains(&n) {
            out.push(format!("_ZN{}E", "5abcde".repeat(n)));
        }
    }
    for k in [145, 146, 147, 148, 149, 150] {
        out.push(format!("_ZN{}E", "1a".repeat(k)));
        out.push(format!("_ZN{}Ev", "1aIE".repeat(k / 2)));
    }
    for k in [200, 350] {
        out.push(format!("_Z1f{}S_S4Z_", "Pi".repeat(k)));
    }
    out
}

/// Template arguments of so many bytes, about 32,768.
pub fn arguments(totals: std::ops::RangeInclusive<usize>) -> Vec<String> {
    let mut out = vec![];
    for total in totals {
        // A, A, A, .. as arguments: past the limit of texts too, but the list is read first
        out.push(format!("_Z1fI{}{}Li{}EEvv", class(3600), "S0_".repeat(8), "7".repeat(total - 9 * 3600)));
        out.push(format!("_Z1fI{}{}Li{}E!", class(3600), "S0_".repeat(8), "7".repeat(total - 9 * 3600)));
        // X, c<X>, b<c<X>>, ..: X is no entry
        let x = source(&"x".repeat(3200));
        out.push(format!("_Z1f{}Iu{x}{}Li{}EEvv", "I1a".repeat(9), "E".repeat(9), "7".repeat(total - 10 * 3200 - 171)));
        // lists that don't go into one text: the sum alone is past the limit
        out.push(format!("_Z1fIiEv1aIu{}E1bIT0_T0_T0_T0_E1cIT0_T0_T0_T0_E1dILi{}EE", source(&"x".repeat(3600)), "7".repeat(total - 9 * 3600 - 3)));
        out.push(format!("_Z1f1aIu{}E1bIT_T_T_T_E1cIT_T_T_T_E1dILi{}EE", source(&"x".repeat(3600)), "7".repeat(total - 9 * 3600)));
        // a new list starts from nothing
        out.push(format!("_Z1f1aIu{}E1bIT_T_T_T_EN1cIT_T_T_E1dILi{}EEE", source(&"x".repeat(3600)), "7".repeat(total - 9 * 3600)));
    }
    for k in [100, 250] {
        out.push(format!("_Z1fI{}EvT{}_T{}_", "i".repeat(k), k - 2, k - 1));
        out.push(format!("_Z1fI{}EvT{}_T{}_", "JiE".repeat(k), k - 2, k - 1));
    }
    out
}

/// So many entries and arguments of long words, and texts, entries and arguments of so many bytes, of symbols longer than 4,096 bytes.
pub fn long_limits(
    counts: std::ops::RangeInclusive<usize>, texts: std::ops::RangeInclusive<usize>, sums: std::ops::RangeInclusive<usize>,
) -> Vec<String> {
    let words = |k: usize, length: usize| (0..k).map(|i| source(&format!("{i:0>length$}").replace('0', "a"))).collect::<String>();
    let mut out = vec![];
    for k in counts {
        out.push(format!("_Z1f{}", words(k, 12)));
        out.push(format!("_Z1f{}{}", words(k, 12), entry(k - 1)));
        out.push(format!("_Z1fI{}E", "LyE".repeat(k)));
        out.push(format!("_Z1fI{}Evv", format!("Li{}E", "7".repeat(11)).repeat(k)));
        out.push(format!("_Z1f1aI{}E", words(k, 11)));
    }
    for total in texts {
        out.push(format!("_Z1f{}ii", class(total - 13)));
        out.push(format!("_Z1f{}{}yy", class(total - 8043), class(7998)));
        out.push(format!("_ZN{}{}Eyy", class(total - 8040), class(7998)));
        out.push(format!("_Z1fI{}yE", class(total - 23)));
        out.push(format!("_ZGTt{}v", class(total - 24)));
        out.push(format!("_ZTh8_{}v", class(total - 23)));
        // bytes 1 count, though they aren't printed
        out.push(format!("_Z1f{}ii", source(&"\x01".repeat(total - 13))));
    }
    for total in sums {
        // A, A*, A** and B; A, A::b, A::b::c and B
        out.push(format!("_Z1f{}PP{}", class(total - 3 * 10900 - 3), class(10900)));
        out.push(format!("_ZN{}1b1c1dE{}", class(10900), class(total - 3 * 10900 - 9)));
        // X, then X, X, then X, then digits: past the limit of texts too, but the lists are read first
        out.push(format!("_Z1f1aIu{}E1bIT_T_E1cIT_E1dILi{}EE", class(8100), "7".repeat(total - 4 * 8100)));
    }
    out
}

/// Readings inside one another that `enter` doesn't count, as deep as a symbol can be.
pub fn chains(closed: &[usize], words: &[usize], open: &[usize]) -> Vec<String> {
    let mut out = vec![];
    for &k in closed {
        let (open, close) = ("J".repeat(k), "E".repeat(k));
        for middle in ["", "i", "1a", "LiE", "XE"] {
            out.push(format!("_Z1fI{open}{middle}{close}E"));
        }
        out.push(format!("_Z1fI{open}{close}"));
        out.push(format!("_Z1f1aI{open}{close}E"));
        out.push(format!("_ZN1aI{open}{close}EE"));
        out.push(format!("_ZGV1aI{open}{close}E"));
        out.push(format!("_Z1fI{}{}E", "X".repeat(k), "E".repeat(k)));
        out.push(format!("_Z1fI{}{}Evv", "X".repeat(k), "E".repeat(k)));
        out.push(format!("_ZN{}1aE", "L".repeat(k)));
    }
    for &k in words {
        out.push(format!("_Z1fI{}{}E", "Ji".repeat(k), "E".repeat(k)));
        out.push(format!("_Z1f{}", "B1a".repeat(k)));
        out.push(format!("_Z1f{}v", "B1a".repeat(k)));
        out.push(format!("_Z1f{}B", "B1a".repeat(k)));
        out.push(format!("_Z{}1f", "GTt".repeat(k)));
        out.push(format!("_Z{}!", "GTt".repeat(k)));
        out.push(format!("_Z{}TV1a!!", "GTt".repeat(k.min(700))));
        out.push(format!("_ZGTt{}", "GV".repeat(k)));
    }
    for &k in open {
        out.push(format!("_Z1fI{}", "J".repeat(k)));
        out.push(format!("_Z{}1f", "L".repeat(k)));
        out.push(format!("_ZN{}1aE", "L".repeat(k)));
        out.push(format!("_ZSt1fI{}i", "J".repeat(k)));
        out.push(format!("_Z1f{}", "B".repeat(k)));
        out.push(format!("_Z1fI{}E", "X".repeat(k)));
        out.push(format!("_ZGVN{}1a1bE", "V".repeat(k)));
        out.push(format!("_ZN{}1a1bE", "V".repeat(k)));
        out.push(format!("_Z{}", "N".repeat(k)));
        out.push(format!("_Z{}", "Z".repeat(k)));
        out.push(format!("_Z1f{}", "P".repeat(k)));
        out.push(format!("_Z{}", "U".repeat(k)));
        out.push(format!("_Z1f{}", "i".repeat(k)));
        out.push(format!("_Z1f{}", "y".repeat(k)));
        out.push(format!("_ZN{}E", "1a".repeat(k / 2)));
        out.push(format!("_ZN1a{}Ev", "C1".repeat(k / 2 - 2)));
        out.push(format!("_ZN{}E", "St".repeat(k / 2 - 2)));
        out.push(format!("_ZN{}E", "C1".repeat(k / 2 - 2)));
        out.push(format!("_Z{}", "cv".repeat(k / 2)));
    }
    for k in [50, 200] {
        out.push(format!("_ZN{}Ev", "1aIiE".repeat(k / 5)));
    }
    out
}

/// Numbers about 2^64. At 2^64 - 1 behind S and T the Rust overflows.
pub fn numbers() -> Vec<String> {
    let mut out = vec![];
    let two = |n: u32| 1u128 << n;
    let values = [
        two(8), two(16), two(31), two(32), two(63), two(64) - 3, two(64) - 2, two(64) - 1, two(64), two(64) + 1, two(65),
        10u128.pow(25), 36u128.pow(20), two(127),
    ];
    for n in values {
        let s = in_base(36, n);
        for digits in [s.clone(), s.to_lowercase(), format!("00{s}")] {
            for (before, after) in [("_Z1fPi", ""), ("_Z", ""), ("_ZN", "E"), ("_Z1fI", "E"), ("_Z1f1a", "IiE")] {
                out.push(format!("{before}S{digits}_{after}"));
                out.push(format!("{before}S{digits}{after}"));
            }
        }
        for zeros in ["", "000"] {
            for (before, after) in [("_Z1f", ""), ("_ZN", "E"), ("_Z1fIiEv", "")] {
                out.push(format!("{before}T{zeros}{n}_{after}"));
                out.push(format!("{before}T{zeros}{n}{after}"));
            }
            for (before, after) in [("_Z", "a"), ("_Z1f", "a"), ("_ZN", "aE"), ("_Z1aB", "b"), ("_Z1fu", "a"), ("_ZSt", "a")] {
                out.push(format!("{before}{zeros}{n}{after}"));
            }
        }
        // a number with a letter of the wrong base, and a number that is read as bytes
        out.push(format!("_Z1fT{n}A_"));
        out.push(format!("_Z1fIi{n}E"));
        out.push(format!("_Z1fILi{n}EE"));
        out.push(format!("_ZUt{n}_"));
        out.push(format!("_Z1fA{n}_i"));
    }
    out
}

pub fn long_chains() -> Vec<String> {
    let within_4096 = chains(
        &[10, 100, 900, 1363, 2040, 2043, 2044, 2045],
        &[10, 100, 680, 1000, 1360, 1362, 1363],
        &[4080, 4085, 4086, 4087, 4088, 4089, 4090, 4091, 4092, 4093, 4094],
    );
    let longer = chains(&[4000, 8186, 8189, 8190], &[2340, 3276, 5459, 5460, 5461], &[8000, 16376, 16377, 16379, 16380, 16382, 16383]);
    within_4096.into_iter().chain(longer).collect()
}

/// Lengths on both sides of the limit, and of the one of 4,096 bytes.
const LENGTHS: &[usize] = &[4094, 4095, 4096, 4097, 4098, 5000, MOST_SYMBOL - 1, MOST_SYMBOL, MOST_SYMBOL + 1, MOST_SYMBOL + 2, 20000];

/// The families near the limits, by name.
pub fn limits(rng: &mut Rng) -> Vec<(&'static str, Vec<String>)> {
    vec![
        ("numbers", numbers()),
        ("lengths", lengths(&[&LENGTHS[1..], &[8192, 70000]].concat())),
        ("lengths by parts and long words", long_lengths(LENGTHS)),
        ("long symbols by counts, texts and sums", long_limits(1022..=1027, 16380..=16388, 32764..=32772)),
        ("open readings", opened(rng, 40)),
        ("counts", counts(1022..=1027)),
        ("texts", texts(16380..=16388, 7)),
        ("tables", tables(32764..=32772)),
        ("arguments", arguments(32764..=32772)),
        ("chains", long_chains()),
    ]
}

/// The same on both sides of each limit only.
pub fn few_limits(rng: &mut Rng) -> Vec<(&'static str, Vec<String>)> {
    vec![
        ("numbers", numbers()),
        ("lengths", lengths(&[4096, 4097])),
        ("open readings", opened(rng, 1)),
        ("counts", counts(1024..=1025)),
        ("texts", texts(16384..=16385, 4)),
        ("tables", tables(32768..=32769)),
        ("arguments", arguments(32768..=32769)),
        ("chains", chains(&[2043], &[700, 1363], &[4089])),
    ]
}

// ---------------------------------------------------------------- thunks

/// Short thunks, and what is nearly one.
pub const SHORT_THUNKS: &[Short] = &[
    Short { front: "_ZT", alphabet: "hv0n_1f", end: "", most: 6 },
    Short { front: "_ZTh", alphabet: "08n_-1fa.", end: "", most: 5 },
    Short { front: "_ZTv0_", alphabet: "8n_1fv.!", end: "", most: 5 },
    Short { front: "_ZGTtTv", alphabet: "0n_1fvG", end: "1f", most: 5 },
    Short { front: "_Z", alphabet: "Th Tv 0_ n8_ 0 _ 1f v GTt GV TV", end: "", most: 5 },
    Short { front: "_ZTh8_", alphabet: "1f 1a N E I i v S_ T_ . !", end: "", most: 5 },
    Short { front: "_ZGTt", alphabet: "Th8_ Tv0_8_ 1f N1a E C1 v . TI Z s", end: "", most: 5 },
];

const TAGS: &[(&str, usize)] = &[("Th", 1), ("Tv", 2)];
/// Where no thunk may stand, nearly one, or no symbol at all.
const WRONG_FRONTS: &[&str] =
    &["_ZGV", "_ZGTtGV", "_ZZ", "_ZL", "_ZN", "_Z1fIL_", "_Z1fIL_Z", "_Z1f", "_ZTV", "_ZGT", "_ZGTtT", "_ZGTtG", "Z", "_", "_Z_", ""];
const WRONG_TAGS: &[(&str, usize)] =
    &[("Th", 0), ("Th", 2), ("Th", 3), ("Tv", 0), ("Tv", 1), ("Tv", 3), ("Tc", 2), ("Tch", 2), ("T", 1), ("TH", 1), ("t", 1), ("TV", 2)];
const BEHIND: &[&str] = &["TV", "TT", "TI", "TS", "GTt", "GV", "Th8_", "Tv0_n8_", "Th", "Tv", "TC", "GR", "_Z"];

/// Thunks of every kind: good and wrong ones, with the other generators' names behind the offsets.
pub struct Thunks {
    rng: Rng,
    grammar: Grammar,
    grown: Grammar,
    /// What stands behind `_Z` in symbols near the limits.
    near: Vec<String>,
}

impl Thunks {
    pub fn new(seed: u64) -> Thunks {
        let mut rng = Rng::new(seed ^ 0x7468);
        let all = few_limits(&mut rng).into_iter().flat_map(|(_, made)| made);
        let near = all.filter(|s| s.is_ascii()).filter_map(|s| s.strip_prefix("_Z").map(String::from)).collect();
        Thunks { rng, grammar: Grammar::new(seed ^ 0x7476), grown: Grammar::grown(seed ^ 0x7477), near }
    }

    pub fn any(&mut self) -> Vec<u8> {
        let (front, rest) = (self.front(), self.rest());
        let (tag, offsets) = if self.rng.chance(920) { self.rng.pick(TAGS) } else { self.rng.pick(WRONG_TAGS) };
        let mut out = front + tag;
        for i in 0..offsets {
            // about the limit, or about 4,096 bytes
            let limit = if rest.len() % 4 == 0 { MOST_SYMBOL } else { 4096 };
            let most = if i == 0 { limit + 1 - (out.len() + rest.len() + 8).min(limit) } else { 60 };
            out += &self.offset(most);
        }
        out += &rest;
        if self.rng.chance(150) {
            out += self.rng.pick(&[".", ".x", ".part.0", ".isra.0!", "!", "E", "Es", "vEs", "EE", "v", "_", "1", "\x01"]);
        }
        if self.rng.chance(120) {
            let other = self.grammar.any();
            return damaged(&mut self.rng, out.as_bytes(), &other);
        }
        if self.rng.chance(5) { high(&mut self.rng, out.as_bytes()) } else { out.into_bytes() }
    }

    fn front(&mut self) -> String {
        let clones = [0, 1, 2, 3 + self.rng.below(40), 700 + self.rng.below(50)][self.rng.weighted(&[780, 150, 50, 15, 5])];
        match self.rng.below(100) {
            0..=4 => self.rng.pick(WRONG_FRONTS).into(),
            5..=12 => format!("__Z{}", "GTt".repeat(clones)),
            _ => format!("_Z{}", "GTt".repeat(clones)),
        }
    }

    /// An offset and its `_`, most of them right.
    fn offset(&mut self, most: usize) -> String {
        let sign = ["", "n", "nn", "-", "+", "N", "_"][self.rng.weighted(&[640, 330, 10, 5, 5, 5, 5])];
        let digits = match self.rng.weighted(&[700, 100, 100, 30, 30, 40]) {
            0 => self.rng.pick(&["0", "8", "16", "24", "00", "007", "1", "9", "1234"]).into(),
            1 => self.rng.pick(&["18446744073709551615", "18446744073709551616", "9223372036854775808", "4294967296", "65536"]).into(),
            2 => self.digits(400),
            3 => String::new(),
            4 => self.rng.pick(&["8a", "a8", "8n8", "0x1", "8-", "1.5", "8 ", "S_"]).into(),
            _ => "7".repeat(most),
        };
        let end = ["_", "", "__", "E", "."][self.rng.weighted(&[965, 15, 10, 5, 5])];
        format!("{sign}{digits}{end}")
    }

    fn digits(&mut self, most: usize) -> String {
        (0..1 + self.rng.below(most)).map(|_| self.rng.pick(b"0123456789") as char).collect()
    }

    /// A name with its parameters, or what may not stand there.
    fn rest(&mut self) -> String {
        let made = match self.rng.weighted(&[800, 60, 60, 80]) {
            0 => self.grammar.any(),
            1 => self.grown.any(),
            2 => return self.near[self.rng.below(self.near.len())].clone(),
            _ => {
                let label = self.rng.pick(BEHIND);
                let encoding = self.grammar.any();
                return label.to_string() + behind_front(&encoding);
            }
        };
        behind_front(&made).into()
    }
}

fn behind_front(symbol: &[u8]) -> &str {
    let text = std::str::from_utf8(symbol).unwrap();
    text.strip_prefix("_Z").or_else(|| text.strip_prefix("__Z")).unwrap_or(text)
}

/// What stands behind `_Z` in symbols whose name has so many bytes, bytes 1 counted.
fn names_of_length(bytes: usize) -> Vec<String> {
    if bytes < 1500 {
        return vec![class(bytes), format!("N1a{}E", class(bytes - 3)), source(&"\x01".repeat(bytes))];
    }
    // A, A, A, A, A, B and abbreviations of 70 bytes
    let a = (bytes - 120) / 5 - 2;
    let b = |fixed: usize| class(bytes - fixed - 5 * (a + 2));
    let s = (bytes - 120) / 72;
    vec![
        format!("1f{}{}{}", class(a), "S_".repeat(4), b(3)),
        format!("1f{}{}{}.x", class(a), "S_".repeat(4), b(3)),
        format!("N{}{}{}E", class(a), "S_".repeat(4), b(0)),
        format!("NK{}{}{}Ev", class(a), "S_".repeat(4), b(8)),
        format!("1fIiEv{}{}{}", class(a), "S1_".repeat(4), b(13)),
        format!("1fI{}{}{}E", class(a), "S0_".repeat(4), b(3)),
        format!("1f{}{}{}", source(&"\x01".repeat(a)), "S_".repeat(4), b(3)),
        format!("1f{}{}", "Ss".repeat(s), class(bytes - 3 - 72 * s)),
        format!("N{}{}Ev", "Ss".repeat(s), class(bytes - 2 - 72 * s)),
    ]
}

/// Thunks whose texts have so many bytes: behind no GTt and as many as a symbol allows, only the labels decide 11.
pub fn thunk_texts(totals: std::ops::RangeInclusive<usize>, clones: &[usize]) -> Vec<String> {
    let mut out = vec![];
    for total in totals {
        for (offsets, label) in [("Th8_", NON_VIRTUAL), ("Tv0_n24_", VIRTUAL)] {
            for &clones in clones {
                let name = total - label.len() - CLONE.len() * clones;
                let made = names_of_length(name).into_iter();
                out.extend(made.map(|rest| format!("_Z{}{offsets}{rest}", "GTt".repeat(clones))));
            }
        }
    }
    out
}

/// Thunks of so many bytes, by their offsets and by what stands behind a dot.
pub fn thunk_lengths(totals: &[usize]) -> Vec<String> {
    let mut out = vec![];
    for &total in totals {
        for (before, unit, after) in [
            ("_ZTh", "0", "_1fv"), ("__ZThn", "9", "_1f"), ("_ZTv", "7", "_0_N1a1bEi"), ("_ZTv0_n", "1", "_1f"), ("_ZGTtTh", "8", "_1fv.x"),
            ("_ZTh8_1fv.", "x", ""), ("_ZTh", "1", ""), ("_ZThn", "0", "_"), ("_ZTh", "n", "8_1f"), ("_ZTh", "8_", "1f"),
        ] {
            let room = total - before.len() - after.len();
            out.push(format!("{before}{}{}{after}", "1".repeat(room % unit.len()), unit.repeat(room / unit.len())));
        }
    }
    out
}

/// Thunks near every limit.
pub fn thunk_limits(rng: &mut Rng) -> Vec<String> {
    let mut out = thunk_texts(16380..=16388, &[0, 1, 2, 10, 500, 700, 742]);
    out.extend(thunk_lengths(LENGTHS));
    out.extend(thunked(limits(rng).into_iter().flat_map(|(_, made)| made)));
    out
}

/// Symbols with offsets in front of what stands behind `_Z`.
pub fn thunked(symbols: impl Iterator<Item = String>) -> impl Iterator<Item = String> {
    let rests = symbols.filter_map(|s| s.strip_prefix("_Z").map(String::from));
    rests.flat_map(|rest| [format!("_ZTh8_{rest}"), format!("_ZGTtTv0_n8_{rest}")])
}
