//! Compares the program for normal symbols with document 01 on generated symbols, through `catalogue.rs` and the program for names.
//!
//! With `--stand-in` it is itself a program that lists names or normal symbols: rightly, or with one mistake that the comparison must catch.

#[path = "catalogue.rs"]
mod catalogue;
#[path = "numbered.rs"]
mod numbered;
#[path = "symbols.rs"]
mod symbols;
#[path = "thunks.rs"]
mod thunks;

use catalogue::{Encoding, Maker, Mistake, Step};
use std::collections::{BTreeMap, HashMap, HashSet};
use std::hash::{DefaultHasher, Hash, Hasher};
use std::io::{Read, Write};
use std::process::{Command, ExitCode, Stdio};
use std::rc::Rc;
use symbols::{Grammar, Rng};

// ---------------------------------------------------------------- stand-ins

const HEADER: &str = "code,bytes,name";

/// Programs for normal symbols: the right one, and such as must be caught.
const STAND_INS: &[(&str, &str)] = &[
    ("right", ""),
    ("copy", "the symbol itself for every catalogue symbol"),
    ("constant", "one normal symbol for all"),
    ("six", "6 for all that is read"),
    ("six-first", "6 before the refusals of the reading"),
    ("copied-six", "the symbol itself where 6 is due"),
    ("no-13", "a normal symbol of any length"),
    ("13-early", "13 from 16,384 bytes on"),
    ("13-at-4096", "13 past 4,096 bytes"),
    ("index", "references as places in the table of the normal symbol"),
    ("barred", "R on R and the like taken in"),
    ("count", "arguments not counted"),
    ("last-part", "the last part of a function's name entered"),
    ("shortest", "a class in full where that is shorter"),
    ("stretch", "a part without its arguments no stretch"),
    ("twice", "a nested class that ends in arguments entered twice"),
    ("words", "words such as int taken as names"),
    ("nested", "N around one part"),
    ("digits", "36 in base 36 as one digit"),
    ("thunk-refused", "4 for thunks"),
    ("thunk-base", "the normal symbol of what stands behind a thunk's offsets"),
];

/// Programs for names: the right one, and such as must be caught.
const NAME_STAND_INS: &[(&str, &str)] = &[("names", ""), ("fixed-name", "one name for all"), ("no-const", "names without const")];

fn mistake(stand_in: &str) -> Mistake {
    match stand_in {
        "index" => Mistake::Index,
        "barred" => Mistake::Barred,
        "count" => Mistake::Count,
        "last-part" => Mistake::LastPart,
        "shortest" => Mistake::Shortest,
        "stretch" => Mistake::Stretch,
        "twice" => Mistake::Twice,
        "words" => Mistake::Words,
        "nested" => Mistake::Nested,
        "digits" => Mistake::Digits,
        _ => Mistake::No,
    }
}

/// The name of a symbol or the refusal, by the numbered copy of the Rust and, for thunks, by document 02.
fn read(symbol: &[u8]) -> Result<String, u8> {
    thunks::answered(symbol, numbered::reading)
}

fn named(stand_in: &str, symbol: &[u8]) -> (u8, String) {
    match read(symbol) {
        Err(number) => (number, String::new()),
        Ok(_) if stand_in == "fixed-name" => (0, "f()".into()),
        Ok(name) if stand_in == "no-const" => (0, name.replace(" const", "")),
        Ok(name) => (0, name),
    }
}

fn normal(stand_in: &str, symbol: &[u8]) -> (u8, String) {
    let number = read(symbol).err().unwrap_or(0);
    if stand_in == "six-first" && ![1, 2, 3].contains(&number) && (number != 0 || catalogue::recognised(symbol, Mistake::No).is_none()) {
        return (6, String::new());
    }
    if number != 0 {
        return (number, String::new());
    }
    let text = String::from_utf8(symbol.to_vec()).unwrap();
    if stand_in.starts_with("thunk-") && thunks::is_struck(symbol) {
        let base = || normal("right", thunks::base(&text).unwrap().as_bytes());
        return if stand_in == "thunk-refused" { (4, String::new()) } else { base() };
    }
    let Some(encoding) = catalogue::recognised(symbol, mistake(stand_in)).filter(|_| stand_in != "six") else {
        return if stand_in == "copied-six" { (0, text) } else { (6, String::new()) };
    };
    let normal = catalogue::normal(&encoding, mistake(stand_in));
    match stand_in {
        "copy" => (0, text),
        "constant" => (0, "_Z1fv".into()),
        "no-13" => (0, normal),
        "13-early" if normal.len() == catalogue::MOST_NORMAL => (13, String::new()),
        "13-at-4096" if normal.len() > 4096 => (13, String::new()),
        _ => catalogue::within(normal),
    }
}

fn stand_in(which: &str) {
    let mut given = vec![];
    std::io::stdin().read_to_end(&mut given).unwrap();
    let body = given.strip_suffix(b"\n").unwrap_or(&given);
    let mut out = format!("{HEADER}\n");
    for line in body.split(|b| *b == b'\n').filter(|_| !given.is_empty()) {
        let names = NAME_STAND_INS.iter().any(|(name, _)| *name == which);
        let (code, text) = if names { named(which, line) } else { normal(which, line) };
        out += &format!("{code},{},{text}\n", text.len());
    }
    std::io::stdout().write_all(out.as_bytes()).unwrap();
}

// ---------------------------------------------------------------- the programs

type Answer = (u8, Vec<u8>);

struct Program {
    words: Vec<String>,
}

impl Program {
    fn new(words: &[&str]) -> Program {
        Program { words: words.iter().map(|w| w.to_string()).collect() }
    }

    fn own(stand_in: &str) -> Program {
        Program::new(&[std::env::current_exe().unwrap().to_str().unwrap(), "--stand-in", stand_in])
    }

    /// The answers, or a symbol with which the program fails.
    fn answers(&self, batch: &[Vec<u8>]) -> Result<Vec<Answer>, (Vec<u8>, String)> {
        self.run(batch).map_err(|why| self.failing(batch, why))
    }

    fn failing(&self, batch: &[Vec<u8>], why: String) -> (Vec<u8>, String) {
        if batch.len() > 1 {
            let (first, second) = batch.split_at(batch.len() / 2);
            for half in [first, second] {
                if let Err(why) = self.run(half) {
                    return self.failing(half, why);
                }
            }
        }
        (batch[0].clone(), format!("{}: {why}, for {} symbols from this on", self.words.join(" "), batch.len()))
    }

    fn run(&self, batch: &[Vec<u8>]) -> Result<Vec<Answer>, String> {
        let mut given = batch.join(&b'\n');
        // a last line without line feed counts if it has bytes
        if batch.len() % 2 == 0 || batch.last().is_some_and(|s| s.is_empty()) {
            given.push(b'\n');
        }
        let mut command = Command::new("timeout");
        command.args(["-s", "KILL", "300"]).args(&self.words).stdin(Stdio::piped()).stdout(Stdio::piped());
        let mut child = command.spawn().map_err(|e| e.to_string())?;
        let mut stdin = child.stdin.take().unwrap();
        let mut printed = vec![];
        std::thread::scope(|scope| {
            // a program that ends early closes its end; that shows in what it printed
            scope.spawn(move || stdin.write_all(&given));
            child.stdout.take().unwrap().read_to_end(&mut printed).unwrap();
        });
        let status = child.wait().unwrap();
        if !status.success() {
            return Err(format!("ended with {status}"));
        }
        taken_apart(&printed, batch.len())
    }
}

fn taken_apart(printed: &[u8], wanted: usize) -> Result<Vec<Answer>, String> {
    let body = printed.strip_suffix(b"\n").ok_or("the last line has no line feed")?;
    let mut lines = body.split(|b| *b == b'\n');
    if lines.next() != Some(HEADER.as_bytes()) {
        return Err("no header".into());
    }
    let answers: Vec<Answer> = lines.map(line_taken_apart).collect::<Option<_>>().ok_or("a line isn't code, length, text")?;
    if answers.len() == wanted { Ok(answers) } else { Err(format!("{} lines for {wanted} symbols", answers.len())) }
}

/// `CODE,LENGTH,TEXT`; a refusal has length 0.
fn line_taken_apart(line: &[u8]) -> Option<Answer> {
    let mut parts = line.splitn(3, |b| *b == b',');
    let mut number = || -> Option<usize> {
        let text = std::str::from_utf8(parts.next()?).ok()?;
        let number: usize = text.parse().ok()?;
        (number.to_string() == text).then_some(number)
    };
    let (code, length) = (number()?, number()?);
    let text = parts.next()?;
    let fits = length == text.len() && (code == 0 || length == 0);
    Some((u8::try_from(code).ok().filter(|_| fits)?, text.to_vec()))
}

// ---------------------------------------------------------------- the checks

/// A symbol to compare, and what is known of it beforehand.
struct Item {
    symbol: Vec<u8>,
    known: Known,
}

enum Known {
    Nothing,
    /// The normal symbol of the tree that it spells, and its arguments as written.
    Spelling(Rc<String>, usize),
    /// The answer, by hand.
    Answer(u8, &'static str),
}

impl Item {
    fn of(symbol: impl Into<Vec<u8>>) -> Item {
        Item { symbol: symbol.into(), known: Known::Nothing }
    }
}

/// Enough of a text to tell it from any other of a run.
fn digest(text: &[u8]) -> u128 {
    let half = |salt: u8| {
        let mut hasher = DefaultHasher::new();
        (salt, text).hash(&mut hasher);
        hasher.finish() as u128
    };
    half(1) << 64 | half(2)
}

/// Which texts stand for which: one text each way, with the symbol that showed it first.
#[derive(Default)]
struct OneForOne {
    normal_of: HashMap<u128, (u128, Box<[u8]>)>,
    name_of: HashMap<u128, (u128, Box<[u8]>)>,
}

impl OneForOne {
    /// What is wrong with another pair, if anything.
    fn wrong(&mut self, symbol: &[u8], name: u128, normal: u128) -> Option<String> {
        let (a, b) = (self.normal_of.get(&name), self.name_of.get(&normal));
        let one_name = a.filter(|(n, _)| *n != normal).map(|(_, s)| format!("one name and two normal symbols, with {}", shown(s)));
        let one_normal = b.filter(|(n, _)| *n != name).map(|(_, s)| format!("one normal symbol and two names, with {}", shown(s)));
        if a.is_none() {
            self.normal_of.insert(name, (normal, symbol.into()));
        }
        if b.is_none() {
            self.name_of.insert(normal, (name, symbol.into()));
        }
        one_name.or(one_normal)
    }
}

fn shown(bytes: &[u8]) -> String {
    let text: String = bytes.iter().take(300).flat_map(|b| std::ascii::escape_default(*b)).map(char::from).collect();
    if bytes.len() > 300 { format!("{text}.. ({} bytes)", bytes.len()) } else { text }
}

struct Difference {
    symbol: Vec<u8>,
    why: String,
}

#[derive(Default)]
struct Counts {
    symbols: usize,
    codes: BTreeMap<u8, usize>,
    /// Spellings of a tree that both programs answered with 0, and normal symbols longer than what they came from.
    spellings: usize,
    longer: usize,
    handed_back: usize,
}

struct Comparison {
    list: Program,
    normals: Program,
    by_program: OneForOne,
    by_document: OneForOne,
    seen: HashSet<u128>,
    handed_back: HashSet<u128>,
    counts: Vec<(String, Counts)>,
    /// How often each check failed, and the smallest symbol that failed it.
    differences: BTreeMap<&'static str, (usize, Difference)>,
}

const BATCH: usize = 20_000;
const BATCH_BYTES: usize = 4 << 20;

impl Comparison {
    fn new(list: Program, normals: Program) -> Comparison {
        Comparison {
            list,
            normals,
            by_program: OneForOne::default(),
            by_document: OneForOne::default(),
            seen: HashSet::new(),
            handed_back: HashSet::new(),
            counts: vec![],
            differences: BTreeMap::new(),
        }
    }

    fn count(&mut self) -> &mut Counts {
        &mut self.counts.last_mut().unwrap().1
    }

    /// Compares symbols of one kind that weren't compared before, at most so many, in batches.
    fn kind(&mut self, kind: &str, items: impl Iterator<Item = Item>, most: usize) {
        self.counts.push((kind.to_string(), Counts::default()));
        let (mut batch, mut bytes, mut taken) = (vec![], 0, 0);
        for item in items {
            if taken == most {
                break;
            }
            if !self.seen.insert(digest(&item.symbol)) {
                continue;
            }
            taken += 1;
            bytes += item.symbol.len() + 1;
            batch.push(item);
            if batch.len() == BATCH || bytes >= BATCH_BYTES {
                self.batch(std::mem::take(&mut batch));
                bytes = 0;
            }
        }
        if !batch.is_empty() {
            self.batch(batch);
        }
    }

    /// The thunks: an accepted one has no normal symbol. Without one nothing would be tested.
    fn thunks(&mut self, seed: u64, most: usize) {
        let papers = thunks::PAPER.iter().map(|(symbol, code, _)| {
            let must = if *code == 0 { catalogue::NOT_CATALOGUE } else { *code };
            Item { symbol: symbol.as_bytes().to_vec(), known: Known::Answer(must, "") }
        });
        self.kind("thunks", papers.chain(thunk_items(seed)), most.max(thunks::PAPER.len()));
        if !self.count().codes.contains_key(&catalogue::NOT_CATALOGUE) {
            self.differs("thunks", b"", "none was accepted".into());
        }
    }

    fn differs(&mut self, check: &'static str, symbol: &[u8], why: String) {
        let smaller = |new: &[u8], old: &[u8]| (new.len(), new) < (old.len(), old);
        let difference = Difference { symbol: symbol.to_vec(), why };
        match self.differences.get_mut(check) {
            None => {
                self.differences.insert(check, (1, difference));
            }
            Some((count, smallest)) => {
                *count += 1;
                if smaller(symbol, &smallest.symbol) {
                    *smallest = difference;
                }
            }
        }
    }

    /// Both programs' answers; a failing program is a difference.
    fn asked(&mut self, symbols: &[Vec<u8>]) -> Option<(Vec<Answer>, Vec<Answer>)> {
        match (self.list.answers(symbols), self.normals.answers(symbols)) {
            (Ok(names), Ok(normals)) => Some((names, normals)),
            (Err((symbol, why)), _) | (_, Err((symbol, why))) => {
                self.differs("a program fails", &symbol, why);
                None
            }
        }
    }

    fn batch(&mut self, items: Vec<Item>) {
        let (symbols, known): (Vec<_>, Vec<_>) = items.into_iter().map(|item| (item.symbol, item.known)).unzip();
        self.count().symbols += symbols.len();
        let Some((names, normals)) = self.asked(&symbols) else { return };
        let mut back = vec![];
        for (((symbol, known), name), normal) in symbols.iter().zip(&known).zip(&names).zip(&normals) {
            *self.count().codes.entry(normal.0).or_default() += 1;
            self.answer(symbol, name, normal);
            self.known(symbol, known, name, normal);
            if name.0 == 0 && normal.0 == 0 {
                self.one_for_one(symbol, name, normal);
                if normal.1.len() <= catalogue::MOST_NORMAL && self.handed_back.insert(digest(&normal.1)) {
                    back.push((symbol, name, &normal.1));
                }
            }
        }
        self.hand_back(&back);
    }

    /// Codes and normal symbols are those of document 01, given the code of the program for names.
    fn answer(&mut self, symbol: &[u8], name: &Answer, normal: &Answer) {
        if name.0 != 0 {
            if normal.0 != name.0 {
                self.differs("a refusal of the reading", symbol, format!("must be {}, is {}", name.0, normal.0));
            }
            return;
        }
        let tree = catalogue::recognised(symbol, Mistake::No);
        if (normal.0 == catalogue::NOT_CATALOGUE) != tree.is_none() {
            let must = if tree.is_none() { "is none" } else { "is one" };
            self.differs("6 where it is no catalogue symbol", symbol, format!("the code is {}, and it {must}", normal.0));
        }
        let Some(tree) = tree else { return };
        let expected = catalogue::normal(&tree, Mistake::No);
        if let Some(why) = self.by_document.wrong(symbol, digest(&name.1), digest(expected.as_bytes())) {
            self.differs("names and the document's normal symbols", symbol, why);
        }
        if (normal.0 == catalogue::TOO_LONG) != (expected.len() > catalogue::MOST_NORMAL) {
            self.differs("13 where the normal symbol is longer", symbol, format!("the code is {} for {} bytes", normal.0, expected.len()));
        } else if normal.0 == 0 && normal.1 != expected.as_bytes() {
            self.differs("the normal symbol", symbol, format!("must be {}, is {}", shown(expected.as_bytes()), shown(&normal.1)));
        } else if ![0, 6, 13].contains(&normal.0) {
            self.differs("a code", symbol, format!("the name is read, the code is {}", normal.0));
        }
        self.count().longer += (normal.0 == 0 && normal.1.len() > symbol.len()) as usize;
    }

    /// All spellings of a tree have its normal symbol, and answers known by hand are given.
    fn known(&mut self, symbol: &[u8], known: &Known, name: &Answer, normal: &Answer) {
        match known {
            Known::Nothing => {}
            Known::Answer(code, text) => {
                if (normal.0, &normal.1[..]) != (*code, text.as_bytes()) {
                    self.differs("an answer by hand", symbol, format!("must be {code} {text}, is {} {}", normal.0, shown(&normal.1)));
                }
            }
            Known::Spelling(expected, arguments) if name.0 == 0 => {
                let must = if *arguments > 1024 { (6, String::new()) } else { catalogue::within(expected.to_string()) };
                if (normal.0, &normal.1[..]) != (must.0, must.1.as_bytes()) {
                    let why = format!("must be {} {}, is {} {}", must.0, shown(must.1.as_bytes()), normal.0, shown(&normal.1));
                    self.differs("a spelling of a tree", symbol, why);
                }
                self.count().spellings += (normal.0 == 0) as usize;
            }
            Known::Spelling(..) => {}
        }
    }

    fn one_for_one(&mut self, symbol: &[u8], name: &Answer, normal: &Answer) {
        if let Some(why) = self.by_program.wrong(symbol, digest(&name.1), digest(&normal.1)) {
            self.differs("names and normal symbols", symbol, why);
        }
    }

    /// A normal symbol gives itself and the name that it came with.
    fn hand_back(&mut self, back: &[(&Vec<u8>, &Answer, &Vec<u8>)]) {
        let given: Vec<Vec<u8>> = back.iter().map(|(_, _, normal)| normal.to_vec()).collect();
        if given.is_empty() {
            return;
        }
        self.count().handed_back += given.len();
        let Some((names, normals)) = self.asked(&given) else { return };
        for (((symbol, name, normal), name_back), normal_back) in back.iter().zip(&names).zip(&normals) {
            if name_back != *name {
                let why = format!("of {}: {} {}, was {}", shown(normal), name_back.0, shown(&name_back.1), shown(&name.1));
                self.differs("the name of a normal symbol", symbol, why);
            }
            if normal_back.0 != 0 || normal_back.1 != **normal {
                let why = format!("of {}: {} {}", shown(normal), normal_back.0, shown(&normal_back.1));
                self.differs("the normal symbol of a normal symbol", symbol, why);
            }
        }
    }

    fn report(&self) {
        for (kind, counts) in &self.counts {
            let codes: Vec<String> = counts.codes.iter().map(|(code, n)| format!("{code}: {n}")).collect();
            println!("{kind}: {} symbols; {}", counts.symbols, codes.join(", "));
            let Counts { spellings, longer, handed_back, .. } = counts;
            println!("    answered spellings of trees {spellings}, normal symbols longer than the symbol {longer}, handed back {handed_back}");
        }
        let total: usize = self.counts.iter().map(|(_, c)| c.symbols).sum();
        let catalogue: usize = self.counts.iter().flat_map(|(_, c)| &c.codes).filter(|(code, _)| [0, 13].contains(*code)).map(|(_, n)| n).sum();
        println!("{total} symbols, of them accepted catalogue symbols {catalogue}");
        println!("different names {}, different normal symbols {}", self.by_document.normal_of.len(), self.by_document.name_of.len());
        for (check, (count, smallest)) in &self.differences {
            println!("difference in {check}: {count} times; the smallest symbol is");
            println!("    {}\n    {}", shown(&smallest.symbol), smallest.why);
        }
        let all: usize = self.differences.values().map(|(count, _)| count).sum();
        println!("{all} differences");
    }
}

// ---------------------------------------------------------------- kinds of symbols

const KINDS: &[&str] = &["document", "spellings", "large", "long", "damaged", "short", "limits", "thunks", "any"];

/// Chances of a reference, of a thousand, in the spellings of one tree.
const CHANCES: &[usize] = &[0, 300, 700, 1000, 1000];

fn spellings_of(tree: &Encoding, rng: &mut Rng) -> Vec<Item> {
    let normal = Rc::new(catalogue::normal(tree, Mistake::No));
    let spelled = CHANCES.iter().map(|of_thousand| {
        let (text, arguments) = catalogue::spelled(tree, rng, *of_thousand);
        Item { symbol: text.into_bytes(), known: Known::Spelling(normal.clone(), arguments) }
    });
    spelled.collect()
}

fn spellings(seed: u64) -> impl Iterator<Item = Item> {
    let (mut maker, mut rng) = (Maker::new(seed), Rng::new(seed ^ 0x5be1));
    let trees = std::iter::repeat_with(move || {
        let tree = maker.encoding();
        let other = catalogue::altered(&tree, &mut maker.rng);
        [tree, other]
    });
    trees.flatten().flat_map(move |tree| spellings_of(&tree, &mut rng))
}

fn large(seed: u64) -> impl Iterator<Item = Item> {
    let (mut maker, mut rng) = (Maker::new(seed ^ 0x1a), Rng::new(seed ^ 0x1a49e));
    std::iter::repeat_with(move || spellings_of(&maker.large(), &mut rng)).flatten()
}

/// Large trees with a long name, so that symbols and normal symbols are of every length up to the limit and past it.
fn long(seed: u64) -> impl Iterator<Item = Item> {
    let (mut maker, mut rng) = (Maker::new(seed ^ 0x10), Rng::new(seed ^ 0x10e6));
    let trees = std::iter::repeat_with(move || {
        let name = "g".repeat(1 + maker.rng.below(catalogue::MOST_NORMAL));
        Encoding { name: vec![Step::Name(name.into())], constant: false, ..maker.large() }
    });
    trees.flat_map(move |tree| spellings_of(&tree, &mut rng))
}

fn damaged(seed: u64) -> impl Iterator<Item = Item> {
    let mut rng = Rng::new(seed ^ 0xda3a);
    spellings(seed ^ 0xd).filter(|item| item.symbol.len() < 400).map(move |item| Item::of(catalogue::damaged(&item.symbol, &mut rng)))
}

/// Catalogue symbols behind a thunk's offsets, and thunks of every kind.
fn thunk_items(seed: u64) -> impl Iterator<Item = Item> {
    let (mut made, mut rng) = (symbols::Thunks::new(seed), Rng::new(seed ^ 0x7468));
    let behind = spellings(seed ^ 0x74).map(move |item| {
        let offsets = rng.pick(&["Th8_", "Thn16_", "Tv0_n24_", "GTtTh0_"]);
        Item::of([b"_Z", offsets.as_bytes(), &item.symbol[2..]].concat())
    });
    behind.flat_map(move |item| [item, Item::of(made.any())])
}

fn by_hand() -> impl Iterator<Item = Item> {
    let all = catalogue::PAPER.iter().chain(catalogue::RULES);
    all.map(|(symbol, code, normal)| Item { symbol: symbol.as_bytes().to_vec(), known: Known::Answer(*code, normal) })
}

/// Families of symbols about the limits; `wide` is how far about.
fn limits(seed: u64, wide: usize) -> Vec<(&'static str, Vec<Vec<u8>>)> {
    let about = |n: usize| n - wide..=n + wide;
    let mut rng = Rng::new(seed ^ 0x117);
    let bytes = |texts: Vec<String>| texts.into_iter().map(String::into_bytes).collect::<Vec<_>>();
    let mut out = vec![
        ("catalogue symbols by arguments", bytes(catalogue::argument_counts(about(1024)))),
        ("catalogue symbols by open readings", bytes(catalogue::depths(about(96)))),
        ("catalogue symbols by entries", bytes(catalogue::full_tables(about(1024), about(32768)))),
        ("catalogue symbols by references", bytes(catalogue::references())),
        ("catalogue symbols of equal sums", bytes(catalogue::equal_sums())),
        ("catalogue symbols by texts", bytes(catalogue::long_texts(about(16384), about(32768)))),
        ("catalogue symbols by lengths", bytes(lengths(seed, about(4096), 40))),
        ("long catalogue symbols by lengths", bytes(long_lengths(seed, about(catalogue::MOST_NORMAL), 24))),
    ];
    out.extend(symbols::limits(&mut rng).into_iter().map(|(family, made)| (family, bytes(made))));
    out
}

/// Symbols and normal symbols of about 4,096 bytes.
fn lengths(seed: u64, totals: std::ops::RangeInclusive<usize>, trees: usize) -> Vec<String> {
    let (mut maker, mut rng) = (Maker::new(seed ^ 0x1e), Rng::new(seed ^ 0x1f));
    let mut out = vec![];
    for i in 0..trees {
        let tree = if i % 4 == 0 { maker.encoding() } else { let size = 20 + rng.below(1000); catalogue::crowd(&mut rng, size) };
        for total in totals.clone() {
            out.extend(catalogue::of_length(&tree, &mut rng, total));
        }
    }
    out
}

/// Symbols and normal symbols of about as many bytes as they may have.
fn long_lengths(seed: u64, totals: std::ops::RangeInclusive<usize>, trees: usize) -> Vec<String> {
    let mut rng = Rng::new(seed ^ 0x2f);
    let mut out = vec![];
    for _ in 0..trees {
        let size = rng.pick(&[60, 100, 500, 900, 970, 1500, 3000, 3900]) + rng.below(60);
        // none, some, as many as the table takes, more
        for in_full in [0, 450, 930, 970] {
            out.extend(catalogue::long_lengths(&mut rng, size, in_full, totals.clone()));
        }
    }
    out
}

fn compare(comparison: &mut Comparison, kinds: &[String], seed: u64, count: usize) {
    for kind in KINDS.iter().filter(|k| kinds.is_empty() || kinds.iter().any(|chosen| chosen == *k)) {
        match *kind {
            "document" => comparison.kind("document 01 and each rule from both sides", by_hand(), usize::MAX),
            "spellings" => comparison.kind("spellings of trees", spellings(seed), count),
            "large" => comparison.kind("spellings of large trees", large(seed), count / 50),
            "long" => comparison.kind("spellings of trees with a long name", long(seed), count / 50),
            "damaged" => comparison.kind("damaged spellings", damaged(seed), count / 2),
            "short" => comparison.kind("short", catalogue::short(seed, count / 2).map(Item::of), usize::MAX),
            "limits" => {
                for (family, made) in limits(seed, 4) {
                    comparison.kind(&format!("limits, {family}"), made.into_iter().map(Item::of), usize::MAX);
                }
            }
            "thunks" => comparison.thunks(seed, count / 10),
            _ => {
                let mut grammar = Grammar::new(seed);
                comparison.kind("any symbols", std::iter::repeat_with(|| Item::of(grammar.any())), count / 10);
            }
        }
    }
}

// ---------------------------------------------------------------- the test of itself

/// The right stand-ins must pass, and each mistake must be caught.
fn selftest(seed: u64, count: usize) -> bool {
    let mut sound = true;
    let normals = STAND_INS.iter().map(|(normals, mistake)| ("names", *normals, *mistake));
    let names = NAME_STAND_INS.iter().skip(1).map(|(names, mistake)| (*names, "right", *mistake));
    for (names, normals, mistake) in normals.chain(names) {
        let mut comparison = Comparison::new(Program::own(names), Program::own(normals));
        compare(&mut comparison, &[], seed, count);
        let differences: usize = comparison.differences.values().map(|(n, _)| n).sum();
        let caught = (differences > 0) == !mistake.is_empty();
        sound &= caught;
        let what = if mistake.is_empty() { "no mistake" } else { mistake };
        println!("{}: {what}: {differences} differences", if caught { "as it must be" } else { "WRONG" });
        for (check, (count, smallest)) in &comparison.differences {
            println!("    {check}: {count}, the smallest {}", shown(&smallest.symbol));
        }
    }
    sound
}

// ---------------------------------------------------------------- options

struct Options {
    list: String,
    normals: String,
    seed: u64,
    count: usize,
    kinds: Vec<String>,
    symbols: Option<String>,
    selftest: bool,
}

fn options() -> Options {
    let mut o = Options { list: String::new(), normals: String::new(), seed: 1, count: 1_000_000, kinds: vec![], symbols: None, selftest: false };
    let mut words = std::env::args().skip(1);
    while let Some(word) = words.next() {
        let mut value = || words.next().unwrap_or_else(|| usage(&format!("{word} takes a value")));
        let number = |text: String| text.parse().unwrap_or_else(|_| usage(&format!("{text}: no number")));
        match word.as_str() {
            "--list" => o.list = value(),
            "--normals" => o.normals = value(),
            "--seed" => o.seed = number(value()) as u64,
            "--count" => o.count = number(value()),
            "--kind" => o.kinds.push(value()),
            "--symbols" => o.symbols = Some(value()),
            "--selftest" => o.selftest = true,
            _ => usage(&format!("{word}: no such option")),
        }
    }
    if let Some(kind) = o.kinds.iter().find(|k| !KINDS.contains(&k.as_str())) {
        usage(&format!("{kind}: no such kind"));
    }
    o
}

fn usage(why: &str) -> ! {
    eprintln!("{why}");
    eprintln!("options: --list PROGRAM --normals PROGRAM --seed N --count N --kind {} --symbols FILE --selftest", KINDS.join("|"));
    std::process::exit(2)
}

/// A program by its path, or a stand-in by its name.
fn program(words: &str) -> Program {
    let own = STAND_INS.iter().chain(NAME_STAND_INS).any(|(name, _)| *name == words);
    if own { Program::own(words) } else { Program::new(&[words]) }
}

fn lines_of(file: &str) -> Vec<Vec<u8>> {
    let bytes = std::fs::read(file).unwrap_or_else(|e| usage(&format!("{file}: {e}")));
    let body = bytes.strip_suffix(b"\n").unwrap_or(&bytes);
    body.split(|b| *b == b'\n').map(|l| l.to_vec()).collect()
}

fn run() -> bool {
    let o = options();
    if o.selftest {
        return selftest(o.seed, o.count);
    }
    let mut comparison = Comparison::new(program(&o.list), program(&o.normals));
    match &o.symbols {
        Some(file) => comparison.kind("given", lines_of(file).into_iter().map(Item::of), usize::MAX),
        None => compare(&mut comparison, &o.kinds, o.seed, o.count),
    }
    comparison.report();
    comparison.differences.is_empty()
}

fn main() -> ExitCode {
    let work = || match std::env::args().nth(1).as_deref() {
        Some("--stand-in") => {
            stand_in(&std::env::args().nth(2).unwrap_or_default());
            true
        }
        _ => run(),
    };
    // the Rust recurses
    let passed = std::thread::Builder::new().stack_size(1 << 30).spawn(work).unwrap().join();
    if passed.unwrap_or(false) { ExitCode::SUCCESS } else { ExitCode::FAILURE }
}
