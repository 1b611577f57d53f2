//! Compares a listing program with the Rust demangler on generated symbols.
//!
//! The Rust answers in a process of its own (this program with `--answer`): it recurses, and a short symbol can make it
//! ask for more memory than there is. `itanium.rs` is the Rust, unchanged. `numbered.rs` is made from it by
//! `build.py`: the same readings, with document 01's numbers and limits. Thunks, which the Rust refuses, are struck and judged by `thunks.rs`.

#[path = "itanium.rs"]
mod itanium;
#[path = "numbered.rs"]
mod numbered;
#[path = "symbols.rs"]
mod symbols;
#[path = "thunks.rs"]
mod thunks;

use std::alloc::{GlobalAlloc, Layout, System};
use std::collections::{BTreeMap, HashSet};
use std::io::{Read, Write};
use std::process::{Command, ExitCode, Stdio};
use std::sync::atomic::{AtomicUsize, Ordering::Relaxed};
use std::time::{Duration, Instant};
use symbols::{Grammar, Rng};
use thunks::{MOST_SYMBOL, Mistake};

// ---------------------------------------------------------------- memory

/// Memory that the answering process may hold. No reading that meets no limit comes near it.
const MOST_MEMORY: usize = 256 << 20;

static CAP: AtomicUsize = AtomicUsize::new(usize::MAX);
static HELD: AtomicUsize = AtomicUsize::new(0);

/// The system's allocator, which fails past the cap. The process then ends.
struct Capped;

unsafe impl GlobalAlloc for Capped {
    unsafe fn alloc(&self, layout: Layout) -> *mut u8 {
        if HELD.fetch_add(layout.size(), Relaxed) + layout.size() > CAP.load(Relaxed) {
            return std::ptr::null_mut();
        }
        unsafe { System.alloc(layout) }
    }

    unsafe fn dealloc(&self, at: *mut u8, layout: Layout) {
        HELD.fetch_sub(layout.size(), Relaxed);
        unsafe { System.dealloc(at, layout) }
    }
}

#[global_allocator]
static MEMORY: Capped = Capped;

// ---------------------------------------------------------------- the Rust's answers

/// A name past this length is never printed.
const MOST_TEXT: usize = 16384;

enum Answer {
    None,
    /// The name, cut behind 16,385 bytes, and its whole length.
    Name(Vec<u8>, usize),
    /// It panicked: the number 2^64 - 1 behind S or T.
    Overflow,
    /// It asked for more memory than `MOST_MEMORY`.
    TooLarge,
    /// A byte of 128 or more, or a symbol that is too long: not asked.
    NotAsked,
}

struct Reference {
    answer: Answer,
    /// The number by the papers, from the numbered copy; a thunk's from `thunks.rs`.
    number: Option<u8>,
}

/// Reads symbols from standard input and writes the answers: the process behind `Answers`.
fn answer_all(careful: bool) {
    std::panic::set_hook(Box::new(|_| {}));
    CAP.store(MOST_MEMORY, Relaxed);
    let run = move || {
        let mut input = std::io::BufReader::with_capacity(1 << 16, std::io::stdin());
        let mut output = std::io::BufWriter::with_capacity(1 << 16, std::io::stdout());
        let mut head = [0; 4];
        let mut bytes = vec![];
        while input.read_exact(&mut head).is_ok() {
            bytes.resize(u32::from_le_bytes(head) as usize, 0);
            input.read_exact(&mut bytes).unwrap();
            let symbol = std::str::from_utf8(&bytes).unwrap();
            let number = match thunks::answer(symbol, numbered::reading) {
                Ok(_) => 0,
                Err(k) => k,
            };
            output.write_all(&[number]).unwrap();
            if careful {
                output.flush().unwrap();
            }
            let answer = std::panic::catch_unwind(|| thunks::named(symbol, itanium::demangle));
            let (tag, name) = match answer {
                Ok(None) => (0, String::new()),
                Ok(Some(name)) => (1, name),
                Err(_) => (2, String::new()),
            };
            output.write_all(&[tag]).unwrap();
            output.write_all(&(name.len() as u32).to_le_bytes()).unwrap();
            output.write_all(&name.as_bytes()[..name.len().min(MOST_TEXT + 1)]).unwrap();
            if careful {
                output.flush().unwrap();
            }
        }
        output.flush().unwrap();
    };
    on_large_stack(run);
}

fn asked(symbol: &[u8]) -> bool {
    symbol.len() <= MOST_SYMBOL && symbol.is_ascii()
}

/// Runs a program with the bytes given, and takes what it prints.
fn piped(mut command: Command, given: &[u8]) -> (Vec<u8>, std::process::ExitStatus) {
    let mut child = command.stdin(Stdio::piped()).stdout(Stdio::piped()).spawn().unwrap_or_else(|e| {
        eprintln!("{command:?}: {e}");
        std::process::exit(2)
    });
    let mut stdin = child.stdin.take().unwrap();
    let mut printed = vec![];
    std::thread::scope(|scope| {
        // a program that ends early closes its end; that shows in what it printed
        scope.spawn(move || stdin.write_all(given));
        child.stdout.take().unwrap().read_to_end(&mut printed).unwrap();
    });
    (printed, child.wait().unwrap())
}

/// The answers, and the number of a symbol that has no answer.
fn read_answers(mut printed: &[u8]) -> (Vec<Reference>, Option<u8>) {
    let mut out = vec![];
    while printed.len() >= 6 {
        let (number, tag) = (printed[0], printed[1]);
        let length = u32::from_le_bytes(printed[2..6].try_into().unwrap()) as usize;
        let kept = length.min(MOST_TEXT + 1);
        if printed.len() < 6 + kept {
            break;
        }
        let answer = match tag {
            0 => Answer::None,
            1 => Answer::Name(printed[6..6 + kept].to_vec(), length),
            _ => Answer::Overflow,
        };
        out.push(Reference { answer, number: Some(number) });
        printed = &printed[6 + kept..];
    }
    (out, printed.first().copied())
}

/// The Rust's answers. Where the process ends before its time, the symbol that ended it is too large for it, and the
/// rest is asked anew.
fn references(batch: &[Vec<u8>]) -> Vec<Reference> {
    let wanted: Vec<&Vec<u8>> = batch.iter().filter(|s| asked(s)).collect();
    let mut found: Vec<Reference> = vec![];
    let mut careful = false;
    while found.len() < wanted.len() {
        let mut given = vec![];
        for symbol in &wanted[found.len()..] {
            given.extend_from_slice(&(symbol.len() as u32).to_le_bytes());
            given.extend_from_slice(symbol);
        }
        let mut command = Command::new(std::env::current_exe().unwrap());
        command.arg(if careful { "--answer-carefully" } else { "--answer" }).stderr(Stdio::null());
        let (printed, _) = piped(command, &given);
        let (answers, number) = read_answers(&printed);
        found.extend(answers);
        if careful && found.len() < wanted.len() {
            found.push(Reference { answer: Answer::TooLarge, number });
        }
        careful = true;
    }
    let mut found = found.into_iter();
    let unasked = || Reference { answer: Answer::NotAsked, number: None };
    batch.iter().map(|s| if asked(s) { found.next().unwrap() } else { unasked() }).collect()
}

// ---------------------------------------------------------------- the listing program

struct Listing {
    /// The program and its words.
    program: Vec<String>,
    /// The program's machine stack in KiB, if it is set.
    stack: Option<usize>,
    /// How long it may take for a batch.
    seconds: usize,
    /// Where to keep a batch for which the program fails.
    failing: Option<String>,
    failures: usize,
}

const HEADER: &[u8] = b"code,bytes,name";

impl Listing {
    fn command(&self) -> Command {
        // a program that doesn't end for a batch is ended
        let mut command = Command::new("timeout");
        command.args(["-s", "KILL", &self.seconds.to_string()]);
        match self.stack {
            None => command.args(&self.program),
            Some(kib) => command.args(["sh", "-c", &format!("ulimit -s {kib} && exec \"$0\" \"$@\"")]).args(&self.program),
        };
        command
    }

    /// The lines behind the header, or what went wrong.
    fn lines(&self, batch: &[Vec<u8>], last_feed: bool, again: bool) -> Result<Vec<Vec<u8>>, String> {
        let mut command = self.command();
        if again {
            command.stderr(Stdio::null());
        }
        let (printed, status) = piped(command, &joined(batch, last_feed));
        if !status.success() {
            return Err(format!("the program ended with {status}"));
        }
        let Some(body) = printed.strip_suffix(b"\n") else {
            return Err("the last line has no line feed".into());
        };
        let mut lines: Vec<Vec<u8>> = body.split(|b| *b == b'\n').map(|l| l.to_vec()).collect();
        if lines[0] != HEADER {
            return Err(format!("the first line is {:?}", shown(&lines[0])));
        }
        lines.remove(0);
        if lines.len() != batch.len() {
            return Err(format!("{} lines for {} symbols", lines.len(), batch.len()));
        }
        Ok(lines)
    }

    fn answers(&mut self, batch: &[Vec<u8>], last_feed: bool) -> Vec<Result<Vec<u8>, String>> {
        match self.lines(batch, last_feed, false) {
            Ok(lines) => lines.into_iter().map(Ok).collect(),
            Err(why) => self.parted(batch, last_feed, why),
        }
    }

    /// The lines for a batch that fails: it is halved until what fails stands alone, or has two halves that don't fail.
    fn parted(&mut self, batch: &[Vec<u8>], last_feed: bool, why: String) -> Vec<Result<Vec<u8>, String>> {
        let mut failing = |this: &mut Listing| {
            this.failures += 1;
            if let Some(file) = this.failing.take() {
                let _ = std::fs::write(file, joined(batch, last_feed));
            }
        };
        if batch.len() == 1 || self.failures >= MOST_SHOWN {
            failing(self);
            return vec![Err(why); batch.len()];
        }
        let (first, second) = batch.split_at(batch.len() / 2);
        let parts = [self.lines(first, last_feed, true), self.lines(second, last_feed, true)];
        let both_pass = parts.iter().all(|p| p.is_ok());
        let mut out = vec![];
        for (part, lines) in [first, second].into_iter().zip(parts) {
            match lines {
                Ok(lines) => out.extend(lines.into_iter().map(Ok)),
                Err(why) => out.extend(self.parted(part, last_feed, why)),
            }
        }
        if both_pass {
            failing(self);
            out.pop();
            out.push(Err(format!("{why}, for {} symbols together, of which this is the last; the halves pass", batch.len())));
        }
        out
    }
}

/// The lines of a batch. A last line without line feed counts if it has bytes.
fn joined(batch: &[Vec<u8>], last_feed: bool) -> Vec<u8> {
    let mut given = batch.join(&b'\n');
    if last_feed || batch.last().is_some_and(|s| s.is_empty()) {
        given.push(b'\n');
    }
    given
}

/// Code and name of a line `CODE,LENGTH,NAME`.
fn taken_apart(line: &[u8]) -> Result<(u8, &[u8]), String> {
    let mut parts = line.splitn(3, |b| *b == b',');
    let number = |part: Option<&[u8]>| -> Option<usize> {
        let text = std::str::from_utf8(part?).ok()?;
        let plain = !text.is_empty() && text.bytes().all(|b| b.is_ascii_digit()) && (text == "0" || !text.starts_with('0'));
        if plain { text.parse().ok() } else { None }
    };
    let (code, length, name) = (number(parts.next()), number(parts.next()), parts.next());
    let (Some(code), Some(length), Some(name)) = (code, length, name) else {
        return Err("the line isn't code, length, name".into());
    };
    if length != name.len() {
        return Err(format!("the length is {length}, the name has {} bytes", name.len()));
    }
    if code != 0 && length != 0 {
        return Err("a refusal with a name".into());
    }
    u8::try_from(code).map(|code| (code, name)).map_err(|_| format!("the code {code}"))
}

// ---------------------------------------------------------------- the comparison

/// Refusals of a reading that the Rust has as None.
const NONE: &[u8] = &[4, 5, 7, 8];
/// Limits that the Rust doesn't have.
const LIMITS: &[u8] = &[9, 10, 11];

/// Whether a symbol is so short that it meets no limit. The shortest found that meet one are `_Z1fVVMM5`, five bytes 1,
/// `S_S0_` (19 bytes) and `_Z1fMMMMFvES_S0_S1_S2_` (22 bytes): a type with slots that is a member of itself grows by its
/// square. Without slots a reference doubles a text at best, and without references a text can't repeat.
fn below_limits(symbol: &[u8]) -> bool {
    let has = |bytes: &[u8]| symbol.iter().any(|b| bytes.contains(b));
    symbol.len() <= if has(b"\x01") { 16 } else if has(b"F") { 18 } else if has(b"ST") { 32 } else { 40 }
}

/// What doesn't fit the Rust's answer, or the papers' of a thunk, if anything.
fn unfit(symbol: &[u8], answer: &Answer, code: u8, name: &[u8]) -> Option<String> {
    let limit = LIMITS.contains(&code);
    if limit && matches!(answer, Answer::Name(..) | Answer::None) && below_limits(symbol) {
        return Some("too short for a limit".into());
    }
    let fits = match answer {
        Answer::Name(_, length) if code == 0 && *length > MOST_TEXT => return Some("the name has more than 16,384 bytes".into()),
        Answer::Name(expected, _) if code == 0 && name != expected => return Some("another name".into()),
        Answer::Name(..) => code == 0 || limit,
        Answer::None => limit || NONE.contains(&code),
        Answer::Overflow => {
            let text = symbol.to_ascii_lowercase();
            let has = |digits: &[u8]| text.windows(digits.len()).any(|w| w == digits);
            let (s, t) = (has(b"3w5e11264sgsf_"), has(b"18446744073709551615_"));
            limit || s && code == 7 || t && code == 4
        }
        Answer::TooLarge => limit,
        Answer::NotAsked => unreachable!(),
    };
    let whose = if thunks::is_struck(symbol) { "the papers'" } else { "the Rust's" };
    if fits { None } else { Some(format!("a code that doesn't fit {whose} answer")) }
}

/// What is wrong with a line, if anything. `numbers` asks for the very number too.
fn wrong(symbol: &[u8], reference: &Reference, line: &[u8], numbers: bool) -> Option<String> {
    let (code, name) = match taken_apart(line) {
        Ok(parts) => parts,
        Err(why) => return Some(why),
    };
    let must = |number: u8, why: &str| if code == number { None } else { Some(format!("{why}: must be {number}, is {code}")) };
    if symbol.len() > MOST_SYMBOL {
        return must(1, "longer than 16,384 bytes");
    }
    if !symbol.is_ascii() {
        return must(2, "a byte of 128 or more");
    }
    if !symbol.starts_with(b"_Z") && !symbol.starts_with(b"__Z") {
        return must(3, "no _Z or __Z in front");
    }
    if let Some(why) = unfit(symbol, &reference.answer, code, name) {
        return Some(why);
    }
    match reference.number {
        // what the papers say of thunks is all that there is, numbers too
        Some(number) if (numbers || thunks::is_struck(symbol)) && number != code => Some(format!("the number is {number} by the papers")),
        _ => None,
    }
}

const MOST_SHOWN: usize = 20;

fn shown(bytes: &[u8]) -> String {
    let text: String = bytes.iter().take(200).flat_map(|b| std::ascii::escape_default(*b)).map(char::from).collect();
    if bytes.len() > 200 { format!("{text}.. ({} bytes)", bytes.len()) } else { text }
}

fn hex(bytes: &[u8]) -> String {
    bytes.iter().map(|b| format!("{b:02x}")).collect()
}

fn unhex(text: &str) -> Vec<u8> {
    (0..text.len() / 2).map(|i| u8::from_str_radix(&text[2 * i..2 * i + 2], 16).expect("hex digits")).collect()
}

#[derive(Default)]
struct Counts {
    codes: BTreeMap<u8, usize>,
    names: usize,
    nones: usize,
    overflows: usize,
    too_large: usize,
    not_asked: usize,
    short_limits: usize,
    /// Thunks: struck from the comparison with the Rust.
    struck: usize,
    struck_names: usize,
    bytes: usize,
    generating: Duration,
    rust: Duration,
    listing: Duration,
}

impl Counts {
    fn symbols(&self) -> usize {
        self.names + self.nones + self.overflows + self.too_large + self.not_asked
    }

    fn add(&mut self, symbol: &[u8], answer: &Answer) {
        self.bytes += symbol.len();
        let struck = thunks::is_struck(symbol);
        self.struck += struck as usize;
        self.struck_names += (struck && matches!(answer, Answer::Name(..))) as usize;
        match answer {
            Answer::Name(..) => self.names += 1,
            Answer::None => self.nones += 1,
            Answer::Overflow => self.overflows += 1,
            Answer::TooLarge => self.too_large += 1,
            Answer::NotAsked => self.not_asked += 1,
        }
    }
}

struct Comparison {
    listing: Listing,
    numbers: bool,
    counts: Vec<(String, Counts)>,
    differences: usize,
    batches: usize,
    /// Counts alone: nothing is printed.
    quiet: bool,
}

const BATCH: usize = 20_000;
const BATCH_BYTES: usize = 4 << 20;

impl Comparison {
    /// Compares one kind of symbols, in batches.
    fn kind(&mut self, kind: &str, symbols: impl Iterator<Item = Vec<u8>>) {
        self.counts.push((kind.to_string(), Counts::default()));
        let (mut batch, mut bytes) = (vec![], 0);
        let mut began = Instant::now();
        for symbol in symbols {
            bytes += symbol.len() + 1;
            batch.push(symbol);
            if batch.len() == BATCH || bytes >= BATCH_BYTES {
                self.counts.last_mut().unwrap().1.generating += began.elapsed();
                self.batch(&batch);
                batch.clear();
                bytes = 0;
                began = Instant::now();
            }
        }
        self.counts.last_mut().unwrap().1.generating += began.elapsed();
        if !batch.is_empty() {
            self.batch(&batch);
        }
        let (kind, counts) = self.counts.last().unwrap();
        if !self.quiet {
            report(kind, counts);
        }
    }

    /// The thunks. Were none struck, or none of them accepted, nothing would be tested.
    fn thunks(&mut self, seed: u64, count: usize) {
        self.kind("thunks", distinct(thunk_symbols(seed, count)));
        let counts = &self.counts.last().unwrap().1;
        if counts.struck == 0 || counts.struck_names == 0 {
            println!("thunks: {} struck, {} of them with a name: nothing is tested", counts.struck, counts.struck_names);
            self.differences += 1;
        }
    }

    fn batch(&mut self, batch: &[Vec<u8>]) {
        let began = Instant::now();
        let references = references(batch);
        let between = Instant::now();
        let lines = self.listing.answers(batch, self.batches % 2 == 0);
        let (kind, counts) = self.counts.last_mut().unwrap();
        counts.rust += between - began;
        counts.listing += between.elapsed();
        self.batches += 1;
        for ((symbol, reference), line) in batch.iter().zip(&references).zip(&lines) {
            counts.add(symbol, &reference.answer);
            let why = match line {
                Err(why) => Some(why.clone()),
                Ok(line) => {
                    if let Ok((code, _)) = taken_apart(line) {
                        *counts.codes.entry(code).or_default() += 1;
                        if LIMITS.contains(&code) && symbol.len() <= 200 {
                            counts.short_limits += 1;
                        }
                    }
                    wrong(symbol, reference, line, self.numbers)
                }
            };
            if let Some(why) = why {
                self.differences += 1;
                if self.differences <= MOST_SHOWN && !self.quiet {
                    difference(kind, symbol, reference, line, &why);
                }
            }
        }
    }
}

fn difference(kind: &str, symbol: &[u8], reference: &Reference, line: &Result<Vec<u8>, String>, why: &str) {
    println!("difference ({kind}): {why}");
    println!("    symbol:      {}", shown(symbol));
    println!("    in hex:      {}", hex(symbol));
    let rust = match &reference.answer {
        Answer::None => "None".into(),
        Answer::Name(name, length) => format!("{length} bytes: {}", shown(name)),
        Answer::Overflow => "overflow".into(),
        Answer::TooLarge => "past the memory that it may have".into(),
        Answer::NotAsked => "not asked".into(),
    };
    let number = reference.number.map_or("none".into(), |k| k.to_string());
    let (whose, by) = if thunks::is_struck(symbol) { ("the papers: ", "the papers") } else { ("the Rust:   ", "the numbered copy") };
    println!("    {whose} {rust} (number by {by}: {number})");
    println!("    the program: {}", line.as_ref().map_or("no line".into(), |l| shown(l)));
}

fn report(kind: &str, counts: &Counts) {
    let n = counts.symbols();
    let codes: Vec<String> = counts.codes.iter().map(|(code, n)| format!("{code}: {n}")).collect();
    println!("{kind}: {n} symbols, {} bytes", counts.bytes);
    println!("    the program's codes: {}", codes.join(", "));
    println!(
        "    the Rust: names {}, None {}, overflow {}, too large {}, not asked {}",
        counts.names, counts.nones, counts.overflows, counts.too_large, counts.not_asked
    );
    if counts.struck > 0 {
        let (struck, names) = (counts.struck, counts.struck_names);
        println!("    of these thunks, struck from the comparison with the Rust and judged by the papers: {struck}, with a name {names}");
    }
    if counts.short_limits > 0 {
        println!("    9, 10 or 11 for a symbol of at most 200 bytes: {}", counts.short_limits);
    }
    let seconds = |d: Duration| d.as_secs_f64();
    println!(
        "    seconds: generating {:.1}, the Rust {:.1}, the program {:.1} ({:.0} symbols a second)",
        seconds(counts.generating),
        seconds(counts.rust),
        seconds(counts.listing),
        n as f64 / seconds(counts.listing).max(0.001)
    );
    let _ = std::io::stdout().flush();
}

// ---------------------------------------------------------------- kinds

const KINDS: &[&str] = &["systematic", "short", "grammar", "grown", "long", "damaged", "high", "limits", "chains-small-stack", "thunks", "real"];

struct Options {
    list: String,
    seed: u64,
    count: Option<usize>,
    kinds: Vec<String>,
    real: Option<String>,
    symbols: Option<String>,
    hex: Vec<String>,
    stack: Option<usize>,
    small_stack: usize,
    numbers: bool,
    failing: Option<String>,
    seconds: usize,
    selftest: bool,
}

fn options() -> Options {
    let mut o = Options {
        list: "crates/list/out/list".into(),
        seed: 1,
        count: None,
        kinds: vec![],
        real: None,
        symbols: None,
        hex: vec![],
        stack: None,
        small_stack: 2048,
        numbers: false,
        failing: None,
        seconds: 120,
        selftest: false,
    };
    let mut words = std::env::args().skip(1);
    while let Some(word) = words.next() {
        let mut value = || words.next().unwrap_or_else(|| usage(&format!("{word} takes a value")));
        let number = |text: String| text.parse().unwrap_or_else(|_| usage(&format!("{text}: no number")));
        match word.as_str() {
            "--list" => o.list = value(),
            "--seed" => o.seed = number(value()) as u64,
            "--count" => o.count = Some(number(value())),
            "--kind" => o.kinds.extend(value().split(',').map(String::from)),
            "--real" => o.real = Some(value()),
            "--symbols" => o.symbols = Some(value()),
            "--hex" => o.hex.push(value()),
            "--stack" => o.stack = Some(number(value())),
            "--small-stack" => o.small_stack = number(value()),
            "--numbers" => o.numbers = true,
            "--failing" => o.failing = Some(value()),
            "--seconds" => o.seconds = number(value()),
            "--selftest" => o.selftest = true,
            _ => usage(&format!("{word}: no such option")),
        }
    }
    if let Some(kind) = o.kinds.iter().find(|k| !KINDS.contains(&k.as_str())) {
        usage(&format!("{kind}: no such kind"));
    }
    o
}

fn usage(why: &str) -> ! {
    eprintln!("{why}");
    eprintln!("options: --list PROGRAM --seed N --count N --kind {} --real FILE", KINDS.join(","));
    eprintln!("         --symbols FILE --hex SYMBOL --stack KIB --small-stack KIB --numbers --failing FILE --seconds N --selftest");
    std::process::exit(2)
}

fn lines_of(file: &str) -> Vec<Vec<u8>> {
    let bytes = std::fs::read(file).unwrap_or_else(|e| usage(&format!("{file}: {e}")));
    let body = bytes.strip_suffix(b"\n").unwrap_or(&bytes);
    body.split(|b| *b == b'\n').map(|l| l.to_vec()).collect()
}

/// At most `count` of all short symbols, evenly spread, from a place that the seed gives.
fn short(seed: u64, count: Option<usize>) -> impl Iterator<Item = Vec<u8>> {
    let total: usize = symbols::SHORT.iter().map(|s| s.total()).sum();
    let step = count.map_or(1, |n| total.div_ceil(n.max(1)));
    let from = Rng::new(seed).below(step);
    let spread = symbols::SHORT.iter().flat_map(|s| s.all());
    spread.skip(from).step_by(step).chain(symbols::any_two_bytes().into_iter().take(count.unwrap_or(usize::MAX)))
}

fn distinct(symbols: impl Iterator<Item = Vec<u8>>) -> impl Iterator<Item = Vec<u8>> {
    let mut seen: HashSet<u64> = HashSet::new();
    symbols.filter(move |s| {
        use std::hash::{DefaultHasher, Hasher};
        let mut hasher = DefaultHasher::new();
        hasher.write(s);
        seen.insert(hasher.finish())
    })
}

fn grammar_symbols(mut grammar: Grammar, count: usize) -> impl Iterator<Item = Vec<u8>> {
    (0..count).map(move |_| grammar.any())
}

fn damaged_symbols(seed: u64, count: usize, real: &[Vec<u8>]) -> impl Iterator<Item = Vec<u8>> {
    let (mut grammar, mut rng) = (Grammar::new(seed ^ 0x5eed), Rng::new(seed ^ 0xda3a));
    (0..count).map(move |i| {
        let mut one = || if i % 3 == 0 && !real.is_empty() { real[rng.below(real.len())].clone() } else { grammar.any() };
        let (symbol, other) = (one(), one());
        symbols::damaged(&mut rng, &symbol, &other)
    })
}

fn high_symbols(seed: u64, count: usize) -> impl Iterator<Item = Vec<u8>> {
    let (mut grammar, mut rng) = (Grammar::new(seed ^ 0x41f), Rng::new(seed ^ 0x80));
    (0..count).map(move |_| {
        let symbol = grammar.any();
        symbols::high(&mut rng, &symbol)
    })
}

/// Chains and open readings, and the same behind a thunk's offsets.
fn chain_symbols(seed: u64) -> impl Iterator<Item = Vec<u8>> {
    let plain: Vec<String> = symbols::long_chains().into_iter().chain(symbols::opened(&mut Rng::new(seed), 40)).collect();
    plain.clone().into_iter().chain(symbols::thunked(plain.into_iter())).map(String::into_bytes)
}

/// Short thunks, those of the papers and near the limits, and so many generated ones.
fn thunk_symbols(seed: u64, count: usize) -> impl Iterator<Item = Vec<u8>> {
    let papers = thunks::PAPER.iter().map(|(symbol, ..)| symbol.as_bytes().to_vec());
    let limits = symbols::thunk_limits(&mut Rng::new(seed)).into_iter().map(String::into_bytes);
    let short = symbols::SHORT_THUNKS.iter().flat_map(|s| s.all()).take(count);
    let mut made = symbols::Thunks::new(seed);
    papers.chain(limits).chain(short).chain((0..count).map(move |_| made.any()))
}

// ---------------------------------------------------------------- the test of itself

/// A listing program by the papers, with a mistake about thunks.
fn stand_in(mistake: Mistake) {
    let mut given = vec![];
    std::io::stdin().read_to_end(&mut given).unwrap();
    let body = given.strip_suffix(b"\n").unwrap_or(&given);
    let mut out = [HEADER, b"\n"].concat();
    for line in body.split(|b| *b == b'\n') {
        let answer = match std::str::from_utf8(line) {
            _ if line.len() > MOST_SYMBOL => Err(1),
            Ok(symbol) if symbol.is_ascii() => thunks::mistaken(symbol, numbered::reading, mistake),
            _ => Err(2),
        };
        let (code, name) = answer.map_or_else(|code| (code, String::new()), |name| (0, name));
        out.extend(format!("{code},{},{name}\n", name.len()).bytes());
    }
    std::io::stdout().write_all(&out).unwrap();
}

/// What an oracle answers otherwise than the papers, if anything: answers by hand, and names of 16,384 bytes and of one more.
fn against_papers(mistake: Mistake) -> Option<String> {
    let answer = |symbol: &str| thunks::mistaken(symbol, numbered::reading, mistake);
    for (symbol, code, name) in thunks::PAPER {
        if answer(symbol) != if *code == 0 { Ok(name.to_string()) } else { Err(*code) } {
            return Some(symbol.to_string());
        }
    }
    let clones = [0, 1, 2, 10, 742];
    let fits = |symbol: &String| answer(symbol).is_ok_and(|name| name.len() == MOST_TEXT || symbol.contains('\x01'));
    let within = symbols::thunk_texts(MOST_TEXT..=MOST_TEXT, &clones).into_iter().find(|s| !fits(s));
    within.or_else(|| symbols::thunk_texts(MOST_TEXT + 1..=MOST_TEXT + 1, &clones).into_iter().find(|s| answer(s) != Err(11)))
}

/// The oracle must be the papers', a program like it must pass, and each mistake, in either, be caught.
fn selftest(seed: u64, count: usize) -> bool {
    let own = std::env::current_exe().unwrap().to_str().unwrap().to_string();
    let named = |symbol: &str| thunks::named(symbol, itanium::demangle).unwrap_or_default();
    let mut sound = thunks::PAPER.iter().all(|(symbol, _, name)| named(symbol) == *name);
    println!("{}: names of the papers, the Rust unchanged", if sound { "as it must be" } else { "WRONG" });
    for (i, (mistake, what)) in std::iter::once(&(Mistake::No, "no mistake")).chain(thunks::MISTAKES).enumerate() {
        let program = vec![own.clone(), "--stand-in".into(), i.to_string()];
        let listing = Listing { program, stack: None, seconds: 120, failing: None, failures: 0 };
        let mut comparison = Comparison { listing, numbers: true, counts: vec![], differences: 0, batches: 0, quiet: true };
        comparison.thunks(seed, count);
        let (found, differences) = (against_papers(*mistake), comparison.differences);
        let right = i == 0;
        let as_must = found.is_none() == right && (differences == 0) == right;
        sound &= as_must;
        let by_hand = found.map_or("none".into(), |s| shown(s.as_bytes()));
        println!("{}: {what}: {differences} differences; by hand: {by_hand}", if as_must { "as it must be" } else { "WRONG" });
    }
    sound
}

// ---------------------------------------------------------------- all of it

/// The Rust recurses.
fn on_large_stack<T: Send + 'static>(run: impl FnOnce() -> T + Send + 'static) -> T {
    std::thread::Builder::new().stack_size(1 << 30).spawn(run).unwrap().join().unwrap()
}

/// What a process that a comparison starts does, by its first word; whether this is one.
fn started() -> bool {
    match std::env::args().nth(1).as_deref() {
        Some("--answer") => answer_all(false),
        Some("--answer-carefully") => answer_all(true),
        Some("--stand-in") => {
            let which: usize = std::env::args().nth(2).and_then(|n| n.parse().ok()).unwrap_or(0);
            on_large_stack(move || stand_in(if which == 0 { Mistake::No } else { thunks::MISTAKES[which - 1].0 }));
        }
        _ => return false,
    }
    true
}

impl Comparison {
    /// Compares one of `KINDS`.
    fn chosen(&mut self, kind: &str, o: &Options, real: &[Vec<u8>]) {
        let count = |usual: usize| o.count.unwrap_or(usual);
        match kind {
            "systematic" => self.kind(kind, distinct(symbols::systematic().into_iter()).take(count(usize::MAX))),
            "short" => self.kind(kind, distinct(short(o.seed, o.count))),
            "grammar" => self.kind(kind, distinct(grammar_symbols(Grammar::new(o.seed), count(1_000_000)))),
            "grown" => self.kind(kind, distinct(grammar_symbols(Grammar::grown(o.seed), count(100_000)))),
            "long" => self.kind(kind, distinct(grammar_symbols(Grammar::long(o.seed), count(100_000) / 10))),
            "damaged" => self.kind(kind, distinct(damaged_symbols(o.seed, count(1_000_000), real))),
            "high" => self.kind(kind, distinct(high_symbols(o.seed, count(20_000)))),
            "limits" => {
                for (family, made) in symbols::limits(&mut Rng::new(o.seed)) {
                    self.kind(&format!("limits, {family}"), distinct(made.into_iter().map(String::into_bytes)));
                }
            }
            "chains-small-stack" => {
                self.listing.stack = Some(o.small_stack);
                self.kind(&format!("chains and open readings, machine stack of {} KiB", o.small_stack), distinct(chain_symbols(o.seed)));
                self.listing.stack = o.stack;
            }
            "thunks" => self.thunks(o.seed, count(1_000_000)),
            _ => self.kind(kind, distinct(real.iter().cloned()).take(count(usize::MAX))),
        }
    }

    fn report(&self, seed: u64) {
        let total: usize = self.counts.iter().map(|(_, c)| c.symbols()).sum();
        let mut codes: BTreeMap<u8, usize> = BTreeMap::new();
        for (code, n) in self.counts.iter().flat_map(|(_, c)| &c.codes) {
            *codes.entry(*code).or_default() += n;
        }
        let codes: Vec<String> = codes.iter().map(|(code, n)| format!("{code}: {n}")).collect();
        let struck: usize = self.counts.iter().map(|(_, c)| c.struck).sum();
        let differences = self.differences;
        println!("seed {seed}: {total} symbols, of them struck as thunks {struck}, {differences} differences; codes {}", codes.join(", "));
    }
}

/// Whether there is no difference.
fn compared(o: &Options) -> bool {
    let listing = Listing { program: vec![o.list.clone()], stack: o.stack, seconds: o.seconds, failing: o.failing.clone(), failures: 0 };
    let mut comparison = Comparison { listing, numbers: o.numbers, counts: vec![], differences: 0, batches: 0, quiet: false };
    if let Some(file) = &o.symbols {
        comparison.kind("given", lines_of(file).into_iter());
    }
    if !o.hex.is_empty() {
        comparison.kind("in hex", o.hex.iter().map(|h| unhex(h)));
    }
    let real = o.real.as_deref().map(lines_of).unwrap_or_default();
    let all = o.kinds.is_empty() && o.symbols.is_none() && o.hex.is_empty();
    for kind in KINDS.iter().filter(|k| all || o.kinds.iter().any(|chosen| chosen == *k)) {
        comparison.chosen(kind, o, &real);
    }
    comparison.report(o.seed);
    comparison.differences == 0
}

fn main() -> ExitCode {
    if started() {
        return ExitCode::SUCCESS;
    }
    let o = options();
    let sound = if o.selftest { on_large_stack(move || selftest(o.seed, o.count.unwrap_or(20_000))) } else { compared(&o) };
    if sound { ExitCode::SUCCESS } else { ExitCode::FAILURE }
}
