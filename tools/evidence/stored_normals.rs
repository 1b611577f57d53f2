//! Writes the stored symbols of the program for normal symbols: `stdin`, one symbol a line, and `stdout`, the listing by document 01.
//!
//! Words: the folder to write to, a file of real symbols, a seed. Refusals of the reading are the numbered copy's, of thunks `thunks.rs`'s,
//! all else is `catalogue.rs`'s.

#[path = "catalogue.rs"]
mod catalogue;
#[path = "numbered.rs"]
mod numbered;
#[path = "symbols.rs"]
mod symbols;
#[path = "thunks.rs"]
mod thunks;

use catalogue::{Encoding, Maker, Mistake};
use std::collections::{BTreeMap, HashSet};
use symbols::{Grammar, Rng};
use thunks::MOST_SYMBOL;

const CODES: &[u8] = &[0, 1, 2, 3, 4, 5, 6, 7, 8, 9, 10, 11, 13];

fn number(symbol: &[u8]) -> u8 {
    thunks::answered(symbol, numbered::reading).err().unwrap_or(0)
}

fn bytes(texts: Vec<String>) -> Vec<Vec<u8>> {
    texts.into_iter().map(String::into_bytes).collect()
}

/// So many of a list, evenly spread.
fn spread<T: Clone>(list: &[T], count: usize) -> Vec<T> {
    let count = count.min(list.len());
    (0..count).map(|i| list[i * list.len() / count].clone()).collect()
}

/// Document 01's answers and those for each rule, which the answers here must be.
fn by_hand() -> Vec<Vec<u8>> {
    let all = catalogue::PAPER.iter().chain(catalogue::RULES);
    let checked = all.map(|(symbol, code, normal)| {
        let given = catalogue::answer(symbol.as_bytes(), number(symbol.as_bytes()));
        assert_eq!(given, (*code, normal.to_string()), "{symbol}");
        symbol.as_bytes().to_vec()
    });
    checked.collect()
}

/// Spellings of one tree stand next to one another, the normal symbol last.
fn spellings_of(tree: &Encoding, rng: &mut Rng, chances: &[usize]) -> Vec<Vec<u8>> {
    let mut out: Vec<String> = chances.iter().map(|of_thousand| catalogue::spelled(tree, rng, *of_thousand).0).collect();
    out.push(catalogue::normal(tree, Mistake::No));
    bytes(out)
}

/// Trees of which some spelling isn't normal.
fn spellings(seed: u64, count: usize) -> Vec<Vec<u8>> {
    let (mut maker, mut rng) = (Maker::new(seed), Rng::new(seed ^ 0x5be1));
    let trees = std::iter::repeat_with(|| spellings_of(&maker.encoding(), &mut rng, &[0, 400, 800, 1000]));
    let told_apart = |group: &Vec<Vec<u8>>| group.iter().collect::<HashSet<_>>().len() > 2;
    trees.filter(told_apart).take(count).flatten().collect()
}

fn large(seed: u64, count: usize) -> Vec<Vec<u8>> {
    let (mut maker, mut rng) = (Maker::new(seed ^ 0x1a), Rng::new(seed ^ 0x1b));
    (0..count).flat_map(|_| spellings_of(&maker.large(), &mut rng, &[0, 1000])).collect()
}

/// Normal symbols longer than what they came from.
fn longer(seed: u64, count: usize) -> Vec<Vec<u8>> {
    let (mut maker, mut rng) = (Maker::new(seed ^ 0x10), Rng::new(seed ^ 0x11));
    let made = std::iter::repeat_with(|| {
        let tree = maker.encoding();
        (catalogue::spelled(&tree, &mut rng, 0).0, catalogue::normal(&tree, Mistake::No))
    });
    made.filter(|(symbol, normal)| normal.len() > symbol.len()).take(count).map(|(symbol, _)| symbol.into_bytes()).collect()
}

/// Symbols and normal symbols of 4,095 to 4,097 bytes.
fn lengths(seed: u64, trees: usize) -> Vec<Vec<u8>> {
    let mut rng = Rng::new(seed ^ 0x1f);
    let mut out = vec![];
    for _ in 0..trees {
        let size = 20 + rng.below(1000);
        let tree = catalogue::crowd(&mut rng, size);
        for total in 4095..=4097 {
            out.extend(catalogue::of_length(&tree, &mut rng, total));
        }
    }
    bytes(out)
}

/// Symbols longer than 4,096 bytes, and symbols and normal symbols of 16,383 to 16,385 bytes, also normal symbols of symbols shorter than they are.
fn long(seed: u64) -> Vec<Vec<u8>> {
    let limit = [MOST_SYMBOL - 1, MOST_SYMBOL, MOST_SYMBOL + 1];
    let mut rng = Rng::new(seed ^ 0x2f);
    let mut out = vec![];
    for (size, in_full) in [(60, 0), (60, 60), (960, 0), (960, 960), (2500, 0), (2500, 900)] {
        out.extend(catalogue::long_lengths(&mut rng, size, in_full, limit[0]..=limit[2]));
    }
    out.extend(spread(&symbols::long_lengths(&[4095, 4096, 4097]), 17));
    out.extend(spread(&symbols::long_lengths(&limit), 12));
    out.extend(spread(&symbols::long_limits(1024..=1025, 16384..=16385, 32768..=32769), 8));
    bytes(out)
}

/// Thunks of the papers, each as a name is given its number, both sides of the limits, and generated ones.
fn thunks_by_hand(seed: u64) -> Vec<Vec<u8>> {
    let mut out: Vec<Vec<u8>> = vec![];
    for (symbol, code, _) in thunks::PAPER {
        let must = if *code == 0 { catalogue::NOT_CATALOGUE } else { *code };
        assert_eq!(catalogue::answer(symbol.as_bytes(), number(symbol.as_bytes())), (must, String::new()), "{symbol}");
        out.push(symbol.as_bytes().to_vec());
    }
    out.extend(bytes(symbols::thunk_lengths(&[4096, 4097])));
    out.extend(spread(&bytes(symbols::thunk_texts(16384..=16385, &[0, 1, 742])), 12));
    let mut made = symbols::Thunks::new(seed);
    out.extend(std::iter::repeat_with(|| made.any()).filter(|s| s.len() <= 400).take(200));
    // catalogue symbols behind the offsets
    let (mut maker, mut rng) = (Maker::new(seed ^ 0x74), Rng::new(seed ^ 0x68));
    for offsets in ["Th8_", "Tv0_n24_"] {
        let spelled = (0..30).map(|_| catalogue::spelled(&maker.encoding(), &mut rng, 600).0);
        out.extend(spelled.map(|s| s.replacen("_Z", &format!("_Z{offsets}"), 1).into_bytes()));
    }
    out
}

fn damaged(seed: u64, count: usize) -> Vec<Vec<u8>> {
    let (mut maker, mut rng) = (Maker::new(seed ^ 0xd), Rng::new(seed ^ 0xda));
    let made = (0..count).map(|_| {
        let symbol = catalogue::spelled(&maker.encoding(), &mut rng, 600).0;
        catalogue::damaged(symbol.as_bytes(), &mut rng)
    });
    made.collect()
}

/// Limits from both sides.
fn limits(rng: &mut Rng) -> Vec<(&'static str, Vec<Vec<u8>>)> {
    let mut out = vec![
        ("arguments", bytes(catalogue::argument_counts(1024..=1025))),
        ("open readings", bytes(catalogue::depths(95..=97))),
        ("entries", bytes(catalogue::full_tables(1024..=1025, 32768..=32769))),
        ("references", bytes(catalogue::references())),
        ("texts", bytes(catalogue::long_texts(16384..=16385, 32768..=32769))),
    ];
    for (family, made) in symbols::few_limits(rng) {
        out.push((family, spread(&bytes(made), 12)));
    }
    out
}

fn lines_of(file: &str) -> Vec<Vec<u8>> {
    let all = std::fs::read(file).unwrap();
    all.split(|b| *b == b'\n').filter(|l| !l.is_empty() && l.len() <= 400).map(|l| l.to_vec()).collect()
}

fn groups(real: &str, seed: u64) -> Vec<(&'static str, Vec<Vec<u8>>)> {
    let mut rng = Rng::new(seed);
    let mut grammar = Grammar::new(seed);
    let mut out = vec![
        ("document 01 and each rule from both sides", by_hand()),
        ("spellings of trees", spellings(seed, 350)),
        ("longer than the symbol", longer(seed, 60)),
        ("spellings of large trees", large(seed, 25)),
        ("damaged spellings", damaged(seed, 700)),
        ("short", spread(&catalogue::short(seed, 40_000).collect::<Vec<_>>(), 400)),
        ("lengths", lengths(seed, 5)),
    ];
    out.extend(limits(&mut rng));
    out.push(("any symbols", (0..200).map(|_| grammar.any()).collect()));
    out.push(("real", spread(&lines_of(real), 200)));
    out.push(("high bytes", (0..10).map(|_| symbols::high(&mut rng, &grammar.any())).collect()));
    out.push(("thunks", thunks_by_hand(seed)));
    out.push(("equal sums", bytes(catalogue::equal_sums())));
    out.push(("long", long(seed)));
    // a last line without line feed
    out.push(("the last", vec![b"_Z4last1a1bS0_".to_vec()]));
    out
}

fn told(counts: &BTreeMap<u8, usize>) -> String {
    counts.iter().map(|(number, n)| format!("{number}: {n}")).collect::<Vec<_>>().join(", ")
}

fn write(folder: &str, real: &str, seed: u64) {
    let (mut given, mut listing) = (vec![], String::from("code,bytes,name\n"));
    let mut seen: HashSet<Vec<u8>> = HashSet::new();
    let mut total: BTreeMap<u8, usize> = BTreeMap::new();
    for (group, made) in groups(real, seed) {
        let mut counts: BTreeMap<u8, usize> = BTreeMap::new();
        for symbol in made {
            assert!(!symbol.contains(&b'\n'));
            if !seen.insert(symbol.clone()) {
                continue;
            }
            let (code, normal) = catalogue::answer(&symbol, number(&symbol));
            *counts.entry(code).or_default() += 1;
            *total.entry(code).or_default() += 1;
            listing += &format!("{code},{},{normal}\n", normal.len());
            given.extend(symbol);
            given.push(b'\n');
        }
        println!("{group}: {} symbols, {}", counts.values().sum::<usize>(), told(&counts));
    }
    given.pop();
    println!("{} symbols, {} bytes; {}", seen.len(), given.len(), told(&total));
    for code in CODES {
        assert!(total.contains_key(code), "no symbol has the number {code}");
    }
    let file = |name: &str| std::path::Path::new(folder).join(name);
    std::fs::write(file("stdin"), given).unwrap();
    std::fs::write(file("stdout"), listing).unwrap();
}

fn main() {
    let words: Vec<String> = std::env::args().skip(1).collect();
    let [folder, real, seed] = words.try_into().expect("folder, real symbols, seed");
    let run = move || write(&folder, &real, seed.parse().expect("a number"));
    // the Rust recurses
    std::thread::Builder::new().stack_size(1 << 30).spawn(run).unwrap().join().unwrap();
}
