//! Calls an entry and its listing by their C functions, with slices of many lengths that are full of rubbish, and compares number, length
//! and every byte with a listing of the same symbols.
//!
//! edges names|normals SYMBOLS LISTING

mod library;

use library::Entry;

// ---------------------------------------------------------------- slices full of rubbish

struct Random(u64);

impl Random {
    fn next(&mut self) -> u64 {
        self.0 ^= self.0 << 13;
        self.0 ^= self.0 >> 7;
        self.0 ^= self.0 << 17;
        self.0
    }

    fn below(&mut self, n: usize) -> usize {
        (self.next() % n as u64) as usize
    }
}

/// Made once, since making it anew would take longer than the calls.
struct Rubbish {
    random: Random,
    bytes: Vec<u8>,
    numbers: Vec<u16>,
}

const RUBBISH: usize = 1 << 20;

impl Rubbish {
    fn new(seed: u64) -> Rubbish {
        let mut random = Random(seed);
        let bytes = (0..RUBBISH).map(|_| (random.next() >> 32) as u8).collect();
        let numbers = (0..RUBBISH).map(|_| (random.next() >> 32) as u16).collect();
        Rubbish { random, bytes, numbers }
    }
}

/// On both sides of a slice, so that a write beside it is seen.
const MARGIN: usize = 64;

struct Lent<'a, T> {
    before: &'a [T],
    now: Vec<T>,
}

impl<'a, T: Copy + PartialEq> Lent<'a, T> {
    fn new(random: &mut Random, rubbish: &'a [T], len: usize) -> Lent<'a, T> {
        let whole = len + 2 * MARGIN;
        let from = random.below(rubbish.len() - whole);
        let before = &rubbish[from..from + whole];
        Lent { before, now: before.to_vec() }
    }

    fn slice(&mut self) -> &mut [T] {
        let end = self.now.len() - MARGIN;
        &mut self.now[MARGIN..end]
    }

    /// Whether `put` stands at the front, and all behind it and beside the slice is as it was.
    fn has(&self, put: &[T]) -> bool {
        let behind = MARGIN + put.len();
        self.now[..MARGIN] == self.before[..MARGIN]
            && self.now[MARGIN..behind] == *put
            && self.now[behind..] == self.before[behind..]
    }

    fn is_all(&self, value: T) -> bool {
        self.has(&vec![value; self.now.len() - 2 * MARGIN])
    }
}

impl<T: Copy + PartialEq> AsMut<[T]> for Lent<'_, T> {
    fn as_mut(&mut self) -> &mut [T] {
        self.slice()
    }
}

/// Work slices of the lengths given, in the order of `library::SLICES`.
struct Work<'a> {
    text: Lent<'a, u8>,
    store: Lent<'a, u8>,
    numbers: Vec<Lent<'a, u16>>,
}

impl<'a> Work<'a> {
    fn new(random: &mut Random, bytes: &'a [u8], numbers: &'a [u16], lengths: &[usize]) -> Work<'a> {
        Work {
            text: Lent::new(random, bytes, lengths[0]),
            store: Lent::new(random, bytes, lengths[1]),
            numbers: lengths[2..].iter().map(|len| Lent::new(random, numbers, *len)).collect(),
        }
    }

    fn is_zero(&self) -> bool {
        self.text.is_all(0) && self.store.is_all(0) && self.numbers.iter().all(|slice| slice.is_all(0))
    }
}

// ---------------------------------------------------------------- what is expected

struct Row<'a> {
    symbol: &'a [u8],
    number: u8,
    result: &'a [u8],
}

fn row<'a>(symbol: &'a [u8], line: &'a [u8]) -> Option<Row<'a>> {
    let mut parts = line.splitn(3, |x| *x == b',');
    let mut number = || std::str::from_utf8(parts.next()?).ok()?.parse::<usize>().ok();
    let (code, bytes) = (number()?, number()?);
    let result = parts.next()?;
    (bytes == result.len()).then_some(Row { symbol, number: code.try_into().ok()?, result })
}

/// A last line feed ends a line and begins none.
fn lines(text: &[u8]) -> Vec<&[u8]> {
    text.strip_suffix(b"\n").unwrap_or(text).split(|x| *x == b'\n').collect()
}

fn rows<'a>(symbols: &'a [u8], listing: &'a [u8]) -> Vec<Row<'a>> {
    let (symbols, listed) = (lines(symbols), &lines(listing)[1..]);
    assert_eq!(symbols.len(), listed.len(), "symbols and lines of the listing");
    let read = |(symbol, line): (&&'a [u8], &&'a [u8])| row(symbol, line).unwrap_or_else(|| panic!("{:?} in the listing", shown(line)));
    symbols.iter().zip(listed).map(read).collect()
}

struct Case {
    what: String,
    out: usize,
    work: Vec<usize>,
}

fn is_short(entry: &Entry, work: &[usize]) -> bool {
    work.iter().zip(entry.least).any(|(length, least)| length < least)
}

/// Where more than one refusal fits: 1 to 3 come first, 14 next, 12 last.
fn expected(entry: &Entry, row: &Row, case: &Case) -> u8 {
    match row.number {
        1..=3 => row.number,
        _ if is_short(entry, &case.work) => 14,
        0 if case.out < row.result.len() => 12,
        number => number,
    }
}

/// What normal symbols of 4,096 bytes took: 24,576 numbers in `ends`, and no slice behind it.
const OLD: &[usize] = &[51200, 65536, 24576, 0, 0, 0];

/// Lengths of the work slices: all of them longer, none at all, and each by itself longer, one element short, and missing.
fn works(least: &[usize]) -> Vec<(String, Vec<usize>)> {
    let mut out = vec![
        ("all work slices longer".into(), least.iter().map(|n| n + 77).collect()),
        ("no work slices".into(), vec![0; least.len()]),
    ];
    if least.len() == OLD.len() {
        out.push(("the work slices of 4,096 bytes".into(), OLD.to_vec()));
    }
    for (i, n) in least.iter().enumerate() {
        for (how, length) in [("longer", n + 1), ("one short", n - 1), ("missing", 0)] {
            let mut lengths = least.to_vec();
            lengths[i] = length;
            out.push((format!("{} {how}", library::SLICES[i]), lengths));
        }
    }
    out
}

fn cases(entry: &Entry, row: &Row) -> Vec<Case> {
    let full = row.result.len();
    let exact = |what: &str, out: usize| Case { what: what.into(), out, work: entry.least.to_vec() };
    let mut out = vec![exact("a longer output", entry.longest + 1), exact("an empty output", 0)];
    if row.number == 0 {
        out.push(exact("an output exactly full", full));
        out.push(exact("an output one byte short", full.saturating_sub(1)));
    }
    // an empty output must not hide what the work slices give
    for (what, work) in works(entry.least) {
        out.extend([entry.longest, 0].map(|out| Case { what: what.clone(), out, work: work.clone() }));
    }
    out
}

// ---------------------------------------------------------------- calls

struct Tried<'a> {
    entry: &'a Entry,
    rubbish: Rubbish,
    calls: usize,
    failures: usize,
}

fn shown(bytes: &[u8]) -> String {
    String::from_utf8_lossy(&bytes[..bytes.len().min(100)]).into_owned()
}

impl Tried<'_> {
    fn one(&mut self, row: &Row, case: &Case) {
        let Rubbish { random, bytes, numbers } = &mut self.rubbish;
        let mut out = Lent::new(random, bytes, case.out);
        let mut work = Work::new(random, bytes, numbers, &case.work);
        let mut length = random.next() as usize;
        let Work { text, store, numbers } = &mut work;
        let number = self.entry.call(row.symbol, out.slice(), text.slice(), store.slice(), numbers, &mut length);

        let wanted = expected(self.entry, row, case);
        let result = if wanted == 0 { row.result } else { b"" };
        let right = out.has(result);
        let zero = work.is_zero();
        self.calls += 1;
        if number != wanted || length != result.len() || !right || !zero {
            self.failures += 1;
            self.tell(row, case, &format!("{number} for {wanted}, {length} bytes for {}, output right: {right}, work slices zero: {zero}", result.len()));
        }
    }

    fn tell(&self, row: &Row, case: &Case, found: &str) {
        if self.failures <= 20 {
            println!("{}, {}, an output of {}: {:?} gives {found}", self.entry.what, case.what, case.out, shown(row.symbol));
        }
    }

    /// Symbols of any bytes, line feeds too, which no listing has. Without work slices the bytes and the front settle the number.
    fn any_bytes(&mut self) {
        for _ in 0..200_000 {
            let symbol = self.any_symbol();
            let front = symbol.starts_with(b"_Z") || symbol.starts_with(b"__Z");
            let number = if !symbol.is_ascii() { 2 } else if front { 14 } else { 3 };
            let row = Row { symbol: &symbol, number, result: b"" };
            self.one(&row, &Case { what: "any bytes".into(), out: 64, work: vec![0; self.entry.least.len()] });
        }
    }

    fn any_symbol(&mut self) -> Vec<u8> {
        let random = &mut self.rubbish.random;
        let mut symbol = [&b""[..], b"_Z", b"__Z"][random.below(3)].to_vec();
        let most = [127, 255][random.below(2)];
        symbol.extend((0..random.below(40)).map(|_| random.below(most + 1) as u8).collect::<Vec<u8>>());
        symbol
    }
}

// ---------------------------------------------------------------- listings

fn line_of(row: &Row) -> Vec<u8> {
    [format!("{},{},", row.number, row.result.len()).as_bytes(), row.result, b"\n"].concat()
}

/// The lines whose listing fits, and that listing.
fn fitting(lines: &[Vec<u8>], room: usize) -> (usize, Vec<u8>) {
    let mut out = vec![];
    for (i, line) in lines.iter().enumerate() {
        if room < out.len() + line.len() {
            return (i, out);
        }
        out.extend(line);
    }
    (lines.len(), out)
}

impl Tried<'_> {
    /// A few lines, and an end without line feed, with an output and work slices of these lengths.
    fn list(&mut self, rows: &[Row], out: usize, name: usize, work: &[usize]) {
        let lines: Vec<Vec<u8>> = rows.iter().map(line_of).collect();
        let mut input: Vec<u8> = rows.iter().flat_map(|row| [row.symbol, b"\n"].concat()).collect();
        input.extend(&b"_Z1fv"[..self.rubbish.random.below(6)]);
        let short = name < library::NAME || is_short(self.entry, work);
        let (count, listing) = if short { (0, vec![]) } else { fitting(&lines, out) };
        let number = if short { 14 } else if count == 0 && !rows.is_empty() { 12 } else { 0 };
        let wanted: usize = rows[..count].iter().map(|row| row.symbol.len() + 1).sum();

        let Rubbish { random, bytes, numbers } = &mut self.rubbish;
        let mut out = Lent::new(random, bytes, out);
        let mut name = Lent::new(random, bytes, name);
        let mut work = Work::new(random, bytes, numbers, work);
        let (mut taken, mut written) = (random.next() as usize, random.next() as usize);
        let Work { text, store, numbers } = &mut work;
        let told = self.entry.list(&input, out.slice(), name.slice(), text.slice(), store.slice(), numbers, &mut taken, &mut written);

        let right = out.has(&listing);
        let zero = name.is_all(0) && work.is_zero();
        self.calls += 1;
        if told != number || taken != wanted || written != listing.len() || !right || !zero {
            self.failures += 1;
            if self.failures <= 20 {
                println!(
                    "the listing of {}, {} lines from {:?}: {told} for {number}, {taken} bytes taken for {wanted}, {written} written for {}, output right: {right}, work slices zero: {zero}",
                    self.entry.what, rows.len(), rows.first().map(|row| shown(row.symbol)), listing.len()
                );
            }
        }
    }

    /// Stretches of the rows, with outputs around each length that decides how many lines fit.
    fn listings(&mut self, rows: &[Row]) {
        let least = self.entry.least;
        for out in [0, 64] {
            self.list(&[], out, library::NAME, least);
        }
        for (_, work) in works(least) {
            self.list(&[], 64, library::NAME, &work);
        }
        let mut from = 0;
        while from < rows.len() {
            let end = rows.len().min(from + 1 + self.rubbish.random.below(6));
            let stretch = &rows[from..end];
            let all: usize = stretch.iter().map(|row| line_of(row).len()).sum();
            let some = all - line_of(&stretch[stretch.len() - 1]).len();
            for out in [all + 1, all, all - 1, some, some.saturating_sub(1), 0] {
                self.list(stretch, out, library::NAME, least);
            }
            for name in [library::NAME + 5, library::NAME - 1, 0] {
                self.list(stretch, all, name, least);
            }
            for (_, work) in works(least) {
                self.list(stretch, all, library::NAME, &work);
            }
            from = end;
        }
    }
}

fn main() {
    let words: Vec<String> = std::env::args().skip(1).collect();
    let [what, symbols, listing] = words.try_into().expect("names or normals, symbols, listing");
    let entry = library::entry(&what).expect("names or normals");
    let (symbols, listing) = (std::fs::read(symbols).unwrap(), std::fs::read(listing).unwrap());
    let rows = rows(&symbols, &listing);
    let mut tried = Tried { entry, rubbish: Rubbish::new(88172645463325252), calls: 0, failures: 0 };
    for row in &rows {
        for case in cases(entry, row) {
            tried.one(row, &case);
        }
    }
    tried.any_bytes();
    tried.listings(&rows);
    println!("{what}: {} symbols, {} calls, {} differences", rows.len(), tried.calls, tried.failures);
    std::process::exit((tried.failures > 0) as i32);
}
