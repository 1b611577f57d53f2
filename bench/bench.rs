//! One pass over the symbols of a file by each contender in this process. Names are compared before anything is measured.
//!
//!     bench list FILE [alone]         compares the library with the Rust, and writes the library's listing
//!     bench time FILE ROUND [alone]   one pass of each, the first another one in each round: `contender nanoseconds`
//!     bench count FILE.. [alone FILE..]   one pass of each over each file, to be counted from outside: `contender file`
//!     bench clearing                  what clearing costs, by the lengths of the work slices
//!     bench unstruck FILE             the lines of the file but thunks
//!     bench read FILE CONTENDER       how many symbols of the file it reads, and how many of these get the library's name
//!
//! With `alone` no other demangler is asked: symbols for which the Rust takes seconds.
use std::io::{BufRead, Write};

/// The Rust original, unchanged.
mod itanium;
/// The functions of the library.
mod library;
/// The rule that strikes thunks.
mod thunks;

use library::{entry, Entry};

extern "C" {
    #[cfg(cxa)]
    fn __cxa_demangle(symbol: *const u8, out: *mut u8, length: *mut usize, status: *mut i32) -> *mut u8;
    #[cfg(cxa)]
    fn malloc(bytes: usize) -> *mut u8;
    fn clock_gettime(clock: i32, time: *mut [i64; 2]) -> i32;
}

// ---------------------------------------------------------------- the library

/// A function with an output and work slices of their least lengths: each call clears the work slices, so that longer ones would cost more.
struct Lent {
    entry: &'static Entry,
    out: Vec<u8>,
    text: Vec<u8>,
    store: Vec<u8>,
    numbers: Vec<Vec<u16>>,
}

impl Lent {
    fn new(what: &str) -> Lent {
        let entry = entry(what).expect("a function of the library");
        let [text, store] = [0, 1].map(|i| vec![0; entry.least[i]]);
        let numbers = entry.least[2..].iter().map(|length| vec![0; *length]).collect();
        Lent { entry, out: vec![0; entry.longest], text, store, numbers }
    }

    /// How many bytes of work slices a call clears.
    fn cleared(&self) -> usize {
        self.text.len() + self.store.len() + self.numbers.iter().map(|slice| 2 * slice.len()).sum::<usize>()
    }

    /// The number, and the length of what is written.
    fn call(&mut self, symbol: &[u8]) -> (u8, usize) {
        let mut bytes = 0;
        let number = self.entry.call(symbol, &mut self.out, &mut self.text, &mut self.store, &mut self.numbers, &mut bytes);
        (number, bytes)
    }

    fn name(&mut self, symbol: &[u8]) -> Result<Vec<u8>, u8> {
        let (number, bytes) = self.call(symbol);
        if number == 0 { Ok(self.out[..bytes].to_vec()) } else { Err(number) }
    }
}

// ---------------------------------------------------------------- passes

/// A symbol as each contender takes it: bytes, text, and bytes ended by 0.
struct Symbol {
    text: String,
    ended: Vec<u8>,
}

impl Symbol {
    fn bytes(&self) -> &[u8] {
        self.text.as_bytes()
    }
}

/// The listing of many lines by one function, with the lines and an output beside the slices of `Lent`.
struct Lines {
    lent: Lent,
    lines: Vec<u8>,
    listing: Vec<u8>,
}

/// So many bytes of lines are handed over at once, about.
const LINES: usize = 60_000;

impl Lines {
    fn new() -> Lines {
        Lines { lent: Lent::new("names"), lines: Vec::with_capacity(LINES + 65536), listing: vec![0; 65536] }
    }

    fn add(&mut self, symbol: &Symbol) {
        self.lines.extend(symbol.bytes());
        self.lines.push(b'\n');
    }

    /// How many bytes the listing of the lines has; each part of it is shown.
    fn list(&mut self, mut show: impl FnMut(&[u8])) -> usize {
        let Lent { entry, out, text, store, numbers } = &mut self.lent;
        let (mut from, mut sum) = (0, 0);
        while from < self.lines.len() {
            let (mut taken, mut written) = (0, 0);
            let number = entry.list(&self.lines[from..], &mut self.listing, out, text, store, numbers, &mut taken, &mut written);
            assert_eq!(number, 0);
            from += taken;
            show(&self.listing[..written]);
            sum += written;
        }
        self.lines.clear();
        sum
    }
}

struct Bench {
    names: Lent,
    lines: Lines,
    normals: Lent,
    #[cfg(cxa)]
    buffer: (*mut u8, usize),
}

/// Called before and behind each pass that is counted: callgrind is told to write its counts where this function begins.
#[no_mangle]
#[inline(never)]
extern "C" fn between_passes() {
    std::hint::black_box(());
}

// The sum is returned so that no call can be left out.

fn pass_library(bench: &mut Bench, symbols: &[Symbol]) -> usize {
    symbols.iter().map(|symbol| bench.names.call(symbol.bytes()).1).sum()
}

/// The symbols as lines, which are put together here.
fn pass_listing(bench: &mut Bench, symbols: &[Symbol]) -> usize {
    let mut sum = 0;
    for symbol in symbols {
        bench.lines.add(symbol);
        if LINES < bench.lines.lines.len() {
            sum += bench.lines.list(|_| ());
        }
    }
    sum + bench.lines.list(|_| ())
}

/// As many calls that are refused before anything is read: what clearing costs.
fn pass_clearing(bench: &mut Bench, symbols: &[Symbol]) -> usize {
    symbols.iter().map(|_| bench.names.call(b"").1).sum()
}

fn pass_rust(_: &mut Bench, symbols: &[Symbol]) -> usize {
    symbols.iter().map(|symbol| itanium::demangle(&symbol.text).map_or(0, |name| name.len())).sum()
}

/// The buffer is handed on from call to call, as its manual advises.
#[cfg(cxa)]
fn pass_cxa(bench: &mut Bench, symbols: &[Symbol]) -> usize {
    symbols.iter().filter(|symbol| bench.cxa(&symbol.ended).is_some()).count()
}

fn pass_normalize(bench: &mut Bench, symbols: &[Symbol]) -> usize {
    symbols.iter().map(|symbol| bench.normals.call(symbol.bytes()).1).sum()
}

type Pass = fn(&mut Bench, &[Symbol]) -> usize;

/// By all contenders, or by the library alone.
fn passes(alone: bool) -> Vec<(&'static str, Pass)> {
    let mut all = all_passes();
    all.retain(|(name, _)| !alone || !["rust", "cxa"].contains(name));
    all
}

fn all_passes() -> Vec<(&'static str, Pass)> {
    vec![
        ("library", pass_library),
        ("listing", pass_listing),
        ("clearing", pass_clearing),
        ("rust", pass_rust),
        #[cfg(cxa)]
        ("cxa", pass_cxa),
        ("normalize", pass_normalize),
    ]
}

impl Bench {
    fn new() -> Bench {
        Bench {
            names: Lent::new("names"),
            lines: Lines::new(),
            normals: Lent::new("normals"),
            #[cfg(cxa)]
            buffer: (unsafe { malloc(16384) }, 16384),
        }
    }

    #[cfg(cxa)]
    fn cxa(&mut self, ended: &[u8]) -> Option<&[u8]> {
        let (mut length, mut status) = (self.buffer.1, 0);
        let name = unsafe { __cxa_demangle(ended.as_ptr(), self.buffer.0, &mut length, &mut status) };
        if name.is_null() {
            return None;
        }
        self.buffer = (name, length.max(self.buffer.1));
        Some(unsafe { std::ffi::CStr::from_ptr(name.cast()) }.to_bytes())
    }
}

/// Processor time, so that other work on the machine counts less.
fn nanoseconds() -> i64 {
    const PROCESS_CPU_TIME: i32 = 2;
    let mut time = [0; 2];
    assert_eq!(unsafe { clock_gettime(PROCESS_CPU_TIME, &mut time) }, 0);
    time[0] * 1_000_000_000 + time[1]
}

// ---------------------------------------------------------------- what is asked for

fn symbols_of(file: &str) -> Vec<Symbol> {
    let text = String::from_utf8(std::fs::read(file).unwrap()).unwrap();
    text.lines().map(|line| Symbol { text: line.to_string(), ended: [line.as_bytes(), b"\0"].concat() }).collect()
}

/// The Rust has no numbers. It has no limits either, but the depth: where it prints and the library refuses, a limit must be the reason.
fn agrees(library: &Result<Vec<u8>, u8>, rust: &Option<String>) -> bool {
    match (library, rust) {
        (Ok(name), Some(text)) => name == text.as_bytes(),
        (Ok(_), None) => false,
        (Err(number), Some(_)) => [1, 2, 9, 10, 11].contains(number),
        (Err(_), None) => true,
    }
}

fn different(symbol: &Symbol) -> ! {
    eprintln!("the library and the Rust differ: {}", symbol.text);
    std::process::exit(1);
}

/// A normal symbol has the name of its symbol.
fn check_normal_symbol(bench: &mut Bench, symbol: &Symbol) {
    let (number, bytes) = bench.normals.call(symbol.bytes());
    if number == 0 {
        let normal = bench.normals.out[..bytes].to_vec();
        assert_eq!(bench.names.name(&normal), bench.names.name(symbol.bytes()), "{}", symbol.text);
    }
}

fn list(file: &str, alone: bool) {
    let mut bench = Bench::new();
    let mut listing = b"code,bytes,name\n".to_vec();
    let header = listing.len();
    for symbol in symbols_of(file) {
        bench.lines.add(&symbol);
        let name = bench.names.name(symbol.bytes());
        if !alone && !agrees(&name, &itanium::demangle(&symbol.text)) {
            different(&symbol);
        }
        check_normal_symbol(&mut bench, &symbol);
        let (number, text) = match name {
            Ok(text) => (0, text),
            Err(number) => (number, vec![]),
        };
        listing.extend(format!("{number},{},", text.len()).bytes());
        listing.extend(text);
        listing.push(b'\n');
    }
    let mut lines: Vec<u8> = vec![];
    bench.lines.list(|part| lines.extend(part));
    assert!(lines == listing[header..], "the function for listings writes something else");
    std::io::stdout().write_all(&listing).unwrap();
}

/// Memory that is touched for the first time costs the operating system's time, and the allocator's.
fn warm(bench: &mut Bench, pass: Pass, symbols: &[Symbol]) {
    std::hint::black_box(pass(bench, &symbols[..symbols.len().min(100)]));
}

fn time(file: &str, round: usize, alone: bool) {
    let mut bench = Bench::new();
    let symbols = symbols_of(file);
    let mut passes = passes(alone);
    let first = round % passes.len();
    passes.rotate_left(first);
    for (name, pass) in passes {
        warm(&mut bench, pass, &symbols);
        let before = nanoseconds();
        let sum = pass(&mut bench, &symbols);
        let after = nanoseconds();
        std::hint::black_box(sum);
        println!("{name} {}", after - before);
    }
}

fn count(files: &[String]) {
    let mut bench = Bench::new();
    let mut alone = false;
    for file in files {
        if file == "alone" {
            alone = true;
            continue;
        }
        let symbols = symbols_of(file);
        for (name, pass) in passes(alone) {
            warm(&mut bench, pass, &symbols);
            between_passes();
            let sum = pass(&mut bench, &symbols);
            between_passes();
            std::hint::black_box(sum);
            println!("{name} {file}");
        }
    }
}

impl Bench {
    /// The name by one of the contenders that are no processes; a normal symbol for `normalize`.
    fn answer(&mut self, contender: &str, symbol: &Symbol) -> Option<Vec<u8>> {
        match contender {
            #[cfg(cxa)]
            "cxa" => self.cxa(&symbol.ended).map(<[u8]>::to_vec),
            "normalize" => match self.normals.call(symbol.bytes()) {
                (0, bytes) => Some(self.normals.out[..bytes].to_vec()),
                _ => None,
            },
            _ => self.names.name(symbol.bytes()).ok(),
        }
    }
}

fn read(file: &str, contender: &str) {
    let mut bench = Bench::new();
    let (mut read, mut same) = (0, 0);
    for symbol in &symbols_of(file) {
        if let Some(answer) = bench.answer(contender, symbol) {
            read += 1;
            same += (bench.names.name(symbol.bytes()) == Ok(answer)) as usize;
        }
    }
    println!("{read} {same}");
}

fn unstruck(file: &str) {
    let lines = std::io::BufReader::new(std::fs::File::open(file).unwrap()).split(b'\n').map(Result::unwrap);
    let kept = lines.filter(|line| !thunks::is_struck(line)).flat_map(|line| [line, b"\n".to_vec()].concat());
    std::io::stdout().write_all(&kept.collect::<Vec<u8>>()).unwrap();
}

/// Nanoseconds of a call that is refused before anything is read, the least of 60 rounds: what clearing costs.
fn cost_of_clearing(lent: &mut Lent) -> i64 {
    let round = |lent: &mut Lent| {
        let before = nanoseconds();
        for _ in 0..2000 {
            std::hint::black_box(lent.call(b""));
        }
        nanoseconds() - before
    };
    (0..60).map(|_| round(lent)).min().unwrap() / 2000
}

/// Names with a `text` of the length it had once, of its least one, of a smaller one and with none; then normal symbols.
fn clearing() {
    let names = [65536, 51200, 34816, 0].map(|length| Lent { text: vec![0; length], ..Lent::new("names") });
    for mut lent in names.into_iter().chain([Lent::new("normals")]) {
        println!("{:8}{:7} bytes: {:5} ns, the least of 60 rounds", lent.entry.what, lent.cleared(), cost_of_clearing(&mut lent));
    }
}

fn run() {
    let args: Vec<String> = std::env::args().skip(1).collect();
    let alone = args.last().is_some_and(|word| word == "alone");
    match args[0].as_str() {
        "list" => list(&args[1], alone),
        "time" => time(&args[1], args[2].parse().unwrap(), alone),
        "count" => count(&args[1..]),
        "clearing" => clearing(),
        "unstruck" => unstruck(&args[1]),
        "read" => read(&args[1], &args[2]),
        other => panic!("{other}: not known"),
    }
}

fn main() {
    // the Rust recurses
    std::thread::Builder::new().stack_size(1 << 28).spawn(run).unwrap().join().unwrap();
}
