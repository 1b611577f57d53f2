//! Writes the stored list of symbols: `stdin`, one symbol a line; `expected-names`, the Rust's answer for each line;
//! `expected-codes`, the number by document 01 for each line; `stdout`, the listing that these two give. Thunks are answered by `thunks.rs`.
//!
//! Words: the folder to write to, a file with lines from docs/DIFFERENCES.md's symbols, a file of real symbols, a seed.
//!
//! A line of `expected-names` is `=` and the name; `-` where the Rust has none; `>` where its name is longer than 16,384
//! bytes; `?` where it isn't compared: a symbol past 16,384 bytes, a byte of 128 or more, the number 2^64 - 1 behind S or T.

#[path = "itanium.rs"]
mod itanium;
#[path = "numbered.rs"]
mod numbered;
#[path = "symbols.rs"]
mod symbols;
#[path = "thunks.rs"]
mod thunks;

use std::collections::{BTreeMap, HashSet};
use symbols::{Grammar, Rng};
use thunks::MOST_SYMBOL;

/// The symbols of document 01.
const DOCUMENT: &[&str] = &[
    "_Z1fv", "_Z1fv.isra.0", "_Z1f", "_ZNK1a1bEi", "_ZN1aD0Ev", "_ZplRK1aS1_", "_Z1fI1aIiEEvT_", "_Z1fT_", "_Z1aB1bB1cv",
    "_ZZ1fvEs", "_Z1fPFvPFicEE", "_ZTV1a", "_ZTV1a1b", "_ZGV1f!!", "_Z1fS_", "_Z0v", "_Z2f", "", "_Z1fP1aPS_", "_Z1fP1aP1a",
    "_Z1fP1aS0_", "_ZN1n1fEN1n1aE", "_ZN1n1fENS_1aE", "_Z1f1a1b1b", "_Z1f1a1bS0_", "_Z1fRRi", "_Z1fOi", "_Z1fP1aIFviEE",
    "_Z1f1aIPFviEE", "S_", "T_", "_Z", "__Z", "__Z1fv", "_Z1fS0_", "_Z1f1aS_", "_Z1f1aPS_S0_",
];

fn by_hand() -> Vec<String> {
    let mut out: Vec<String> = DOCUMENT.iter().map(|s| s.to_string()).collect();
    for n in [94, 95, 96, 97] {
        out.push(format!("_Z1f{}i", "P".repeat(n)));
        out.push(format!("_Z1f{}", "P".repeat(n)));
    }
    for n in [1024, 1025] {
        out.push(format!("_Z1f{}", "1a".repeat(n)));
        out.push(format!("_Z1fI{}E", "i".repeat(n)));
    }
    for c in "KVPROCr".chars() {
        out.push(format!("_Z1f{c}4000{}", "\x01".repeat(4000)));
    }
    // both are accepted with exactly 16,384 bytes
    out.push(format!("_ZN{}38{}Ev", "Ss".repeat(227), "a".repeat(38)));
    out.push(format!("_Z1f1aI{}100{}Ly5EE", "Ss".repeat(226), "a".repeat(100)));
    out.push(format!("_ZGVN{}1a1bE", "V".repeat(4080)));
    // words of the grammar
    for op in symbols::OPERATORS {
        out.extend([format!("_Z{op}1a1b"), format!("_ZN1a{op}Ev"), format!("_ZN1a{op}IiEEvT_")]);
    }
    for c in symbols::LETTERS.iter().map(|b| *b as char) {
        out.extend([format!("_Z1f{c}"), format!("_Z1fP{c}S_"), format!("_Z1fIL{c}n5EEvv"), format!("_Zcv{c}v"), format!("_ZZ1f{c}E1x")]);
    }
    for c in ('a'..='z').chain('A'..='Z') {
        out.extend([format!("_Z1fD{c}"), format!("_Z1fS{c}"), format!("_ZS{c}1a"), format!("_ZNS{c}1aE"), format!("_ZT{c}1a"), format!("_Z{c}")]);
        out.push(format!("_ZG{c}1a"));
        out.push(format!("_Z1f{c}1a"));
    }
    for c in "PROCKVr".chars() {
        for t in ["i", "FvvE", "A_i", "PKFvvE", "M1aFvvE", "M1ai", "T_", "1aIFvvEE", "N1a1bE", "Ss"] {
            out.push(format!("_Z1f{c}{t}S_"));
        }
    }
    for c in "0123456789CDa!".chars() {
        out.extend([format!("_ZN1aC{c}Ev"), format!("_ZN1aIiED{c}Ev"), format!("_ZC{c}v"), format!("_ZStD{c}v")]);
    }
    out
}

/// Thunks of the papers, their limits from both sides, and generated ones.
fn thunks_by_hand(seed: u64) -> Vec<Vec<u8>> {
    let mut out: Vec<String> = thunks::PAPER.iter().map(|(symbol, ..)| symbol.to_string()).collect();
    for tag in ["Th8_", "Tv0_n8_"] {
        out.push(format!("_Z{}{}_1fv", &tag[..tag.len() - 2], "7".repeat(4000)));
        for n in [94, 95, 96] {
            out.push(format!("_Z{tag}1f{}i", "P".repeat(n)));
        }
        for n in [1024, 1025] {
            out.extend([format!("_Z{tag}1f{}", "Pi".repeat(n)), format!("_Z{tag}1fI{}E", "i".repeat(n))]);
        }
        for n in [3277, 3278] {
            out.push(format!("_Z{tag}1fOO{}", symbols::source(&"\x01".repeat(n))));
        }
        for letter in 'a'..='z' {
            out.extend([format!("_Z{tag}{letter}1f"), format!("_Z{}{letter}1f", &tag[..tag.len() - 1]), format!("_Z{letter}{}", &tag[1..])]);
        }
    }
    out.extend(symbols::thunk_lengths(&[4096, 4097]));
    out.extend(spread(&symbols::thunk_texts(16384..=16385, &[0, 1, 2]), 22));
    out.extend(symbols::thunk_texts(16384..=16385, &[742]));
    let mut made = symbols::Thunks::new(seed);
    let generated = std::iter::repeat_with(|| made.any()).filter(|s| s.len() <= 400).take(500);
    out.into_iter().map(String::into_bytes).chain(generated).collect()
}

/// Symbols longer than 4,096 bytes, both sides of the limit, and both sides of 4,096 bytes by many parts and long words.
fn long(seed: u64) -> Vec<Vec<u8>> {
    let limit = [MOST_SYMBOL - 1, MOST_SYMBOL, MOST_SYMBOL + 1];
    let mut out = spread(&symbols::long_lengths(&[4095, 4096, 4097]), 34);
    out.extend(spread(&symbols::long_lengths(&limit), 20));
    out.extend(spread(&symbols::lengths(&limit[1..]), 8));
    out.extend(symbols::thunk_lengths(&limit[1..]).into_iter().step_by(5));
    out.extend(spread(&symbols::long_limits(1024..=1025, 16384..=16385, 32768..=32769), 12));
    out.extend(spread(&symbols::chains(&[8189], &[5460], &[16379]), 10));
    let mut grown = Grammar::long(seed);
    let made = std::iter::repeat_with(|| grown.any()).filter(|s| (4097..=MOST_SYMBOL).contains(&s.len())).take(4);
    out.into_iter().map(String::into_bytes).chain(made).collect()
}

fn lines_of(file: &str) -> Vec<Vec<u8>> {
    let bytes = std::fs::read(file).unwrap();
    bytes.split(|b| *b == b'\n').filter(|l| !l.is_empty()).map(|l| l.to_vec()).collect()
}

/// So many of a list, evenly spread.
fn spread<T: Clone>(list: &[T], count: usize) -> Vec<T> {
    (0..count.min(list.len())).map(|i| list[i * list.len() / count.min(list.len())].clone()).collect()
}

fn answer(symbol: &[u8]) -> (u8, Vec<u8>) {
    if symbol.len() > MOST_SYMBOL {
        return (1, b"?".to_vec());
    }
    if !symbol.is_ascii() {
        return (2, b"?".to_vec());
    }
    let text = std::str::from_utf8(symbol).unwrap();
    let number = match thunks::answer(text, numbered::reading) {
        Ok(_) => 0,
        Err(k) => k,
    };
    let line = match std::panic::catch_unwind(|| thunks::named(text, itanium::demangle)) {
        Ok(None) => b"-".to_vec(),
        Ok(Some(name)) if name.len() > 16384 => b">".to_vec(),
        Ok(Some(name)) => [b"=", name.as_bytes()].concat(),
        Err(_) => b"?".to_vec(),
    };
    (number, line)
}

/// A line of the listing, by number and expected name.
fn listed(number: u8, line: &[u8]) -> Vec<u8> {
    let name = if number == 0 { line.strip_prefix(b"=").expect("a name") } else { b"" };
    [format!("{number},{},", name.len()).as_bytes(), name, b"\n"].concat()
}

type Groups = Vec<(&'static str, Vec<Vec<u8>>)>;

/// All symbols. The numbers by chance are drawn in this order.
fn groups(differences: &str, real: &str, seed: u64) -> Groups {
    let mut rng = Rng::new(seed);
    let mut grammar = Grammar::new(seed);
    let bytes = |texts: Vec<String>| texts.into_iter().map(String::into_bytes).collect::<Vec<_>>();
    let mut groups: Groups = vec![("document 01 and words", bytes(by_hand()))];
    groups.push(("docs/DIFFERENCES.md", lines_of(differences)));
    groups.push(("systematic", spread(&symbols::systematic(), 500)));
    for (family, made) in symbols::few_limits(&mut rng) {
        groups.push((family, bytes(if family == "numbers" { spread(&made, 200) } else { made })));
    }
    groups.push(("grammar", (0..1300).map(|_| grammar.any()).collect()));
    let mut grown = Grammar::grown(seed);
    groups.push(("grown", (0..150).map(|_| grown.any()).filter(|s| s.len() < 2000).collect()));
    let short: Vec<Vec<u8>> = lines_of(real).into_iter().filter(|s| s.len() <= 400).collect();
    let from = rng.below(97);
    groups.push(("real", spread(&short[from.min(short.len())..], 500)));
    let made = (0..1000).map(|i| {
        let mut one = || if i % 3 == 0 && !short.is_empty() { short[rng.below(short.len())].clone() } else { grammar.any() };
        let (symbol, other) = (one(), one());
        symbols::damaged(&mut rng, &symbol, &other)
    });
    groups.push(("damaged", made.collect()));
    groups.push(("high bytes", (0..40).map(|_| symbols::high(&mut rng, &grammar.any())).collect()));
    groups.push(("thunks", thunks_by_hand(seed)));
    groups.push(("long", long(seed)));
    // a last line without line feed
    groups.push(("the last", vec![b"_Z4lastv".to_vec()]));
    groups
}

/// The four files, by lines.
#[derive(Default)]
struct Stored {
    symbols: Vec<Vec<u8>>,
    names: Vec<Vec<u8>>,
    codes: Vec<u8>,
    listing: Vec<u8>,
}

impl Stored {
    fn add(&mut self, symbol: Vec<u8>) {
        let (number, line) = answer(&symbol);
        self.symbols.push(symbol);
        self.listing.extend(listed(number, &line));
        self.names.push(line);
        self.codes.push(number);
    }

    fn write(&self, folder: &str) {
        let file = |name: &str| std::path::Path::new(folder).join(name);
        let ended = |lines: &[Vec<u8>]| lines.iter().flat_map(|line| [line, &b"\n"[..]].concat()).collect::<Vec<u8>>();
        let codes: Vec<String> = self.codes.iter().map(|number| format!("{number}\n")).collect();
        std::fs::write(file("stdin"), self.symbols.join(&b'\n')).unwrap();
        std::fs::write(file("expected-names"), ended(&self.names)).unwrap();
        std::fs::write(file("expected-codes"), codes.concat()).unwrap();
        std::fs::write(file("stdout"), [b"code,bytes,name\n", &self.listing[..]].concat()).unwrap();
    }
}

fn write(folder: &str, differences: &str, real: &str, seed: u64) {
    let mut stored = Stored::default();
    let mut seen: HashSet<Vec<u8>> = HashSet::new();
    for (group, made) in groups(differences, real, seed) {
        let before = stored.codes.len();
        for symbol in made {
            assert!(!symbol.contains(&b'\n'));
            if seen.insert(symbol.clone()) {
                stored.add(symbol);
            }
        }
        println!("{group}: {} symbols, {}", stored.codes.len() - before, told(&counted(&stored.codes[before..])));
    }
    let total = counted(&stored.codes);
    println!("{} symbols, {} bytes; {}", seen.len(), stored.symbols.join(&b'\n').len(), told(&total));
    for number in [0, 1, 2, 3, 4, 5, 7, 8, 9, 10, 11] {
        assert!(total.contains_key(&number), "no symbol has the number {number}");
    }
    stored.write(folder);
}

fn counted(codes: &[u8]) -> BTreeMap<u8, usize> {
    let mut counts = BTreeMap::new();
    codes.iter().for_each(|number| *counts.entry(*number).or_default() += 1);
    counts
}

fn told(counts: &BTreeMap<u8, usize>) -> String {
    counts.iter().map(|(number, n)| format!("{number}: {n}")).collect::<Vec<_>>().join(", ")
}

fn main() {
    let words: Vec<String> = std::env::args().skip(1).collect();
    let [folder, differences, real, seed] = words.try_into().expect("folder, differences, real symbols, seed");
    std::panic::set_hook(Box::new(|panic| {
        // the Rust's overflows are expected
        if !panic.to_string().contains("overflow") {
            eprintln!("{panic}");
        }
    }));
    let run = move || write(&folder, &differences, &real, seed.parse().expect("a number"));
    // the Rust recurses
    std::thread::Builder::new().stack_size(1 << 30).spawn(run).unwrap().join().unwrap();
}
