//! Finds how much machine stack the C functions take: for each of the symbols known to take much, the least stack of a ladder
//! of sizes on which a thread still answers it. What a thread itself needs of its stack, about 5 KiB, is within the sizes.
//!
//! stack                 all symbols, each size in a process of its own, since an overflow ends the process; fails past 2 MiB
//! stack run INDEX KIB   one of them, the answer to standard output

mod library;

use library::Entry;
use std::io::Write;
use std::process::{Command, Stdio, exit};

// ---------------------------------------------------------------- symbols

struct Kind {
    entry: &'static Entry,
    what: String,
    symbol: String,
}

type Named = (String, String);

fn times(text: &str, n: usize) -> String {
    text.repeat(n)
}

/// A number as it is written: 16,384.
fn with_comma(n: usize) -> String {
    if n < 1000 { n.to_string() } else { format!("{},{:03}", n / 1000, n % 1000) }
}

/// A unit between two texts, as often as a symbol has room for it, and another as often behind it.
fn filled(before: &str, unit: &str, closing: &str, after: &str, what: &str) -> Named {
    let n = (library::SYMBOL - before.len() - after.len()) / (unit.len() + closing.len());
    (format!("{} {what}", with_comma(n)), format!("{before}{}{}{after}", times(unit, n), times(closing, n)))
}

/// The same with 94 conversions in nested names open before it.
fn filled_deep(before: &str, what: &str) -> Named {
    let (packs, symbol) = filled(&format!("{before}1f{}St1aI", times("Ncv", 94)), "J", "", "", "J");
    (format!("{what}94 conversions in nested names, then {packs}"), symbol)
}

/// Chains that the grammar has no limit for, lists as long as they can be, and as many readings open as are allowed.
fn read() -> Vec<Named> {
    let open = |n: usize, text: &str, end: &str| format!("_Z1f{}i{}", times(text, n), times(end, n));
    let named = |what: &str, symbol: String| (what.to_string(), symbol);
    vec![
        named("no symbol", String::new()),
        filled("_Z1fI", "J", "", "", "J"),
        filled("_Z1fI", "J", "E", "E", "J with their E"),
        filled("_Z", "L", "", "1f", "L"),
        filled("_ZN", "L", "", "1aE", "L in a nested name"),
        filled("_Z1f", "B", "", "", "B"),
        filled("_Z1f", "B1a", "", "", "tags"),
        filled("_Z", "GTt", "", "", "GTt"),
        filled("_Z", "GTt", "", "1f", "GTt and a name"),
        filled("_Z1f", "i", "", "", "parameters"),
        named("1,024 template arguments", format!("_Z1fI{}E", times("i", 1024))),
        filled("_ZN", "1a", "", "E", "parts of a name"),
        filled("_Z", "N", "", "", "N"),
        filled("_Z1f", "P", "", "", "P"),
        named("95 P", open(95, "P", "")),
        named("95 functions as parameters", open(95, "Fv", "E")),
        named("95 functions around a local name", format!("_Z{}1f{}", times("Z", 95), times("Es", 95))),
        named("47 templates", open(47, "1aI", "E")),
        named("47 templates of std, with packs", open(47, "St1aIJ", "EE")),
        named("95 conversions in nested names", open(95, "Ncv", "E")),
        filled_deep("_Z", ""),
        filled_deep("_ZTh8_", "a thunk, "),
        filled("_Z", "GTt", "", "Th8_1f", "GTt and a thunk"),
    ]
}

/// What the writing of normal symbols opens and the reading doesn't: each argument of a list, each part of a nested name.
fn written() -> Vec<Named> {
    let inside = |n: usize| format!("{}i{}", times("N1b1cI", n), times("EE", n));
    let named = |what: &str, symbol: String| (what.to_string(), symbol);
    vec![
        named("3,270 parameters", format!("_Z1f{}", times("i", 3270))),
        named("5,460 references as parameters", format!("_Z1f1a{}", times("S_", 5459))),
        named("147 parts of a nested name", format!("_Z1fN{}E", times("1a", 147))),
        named("47 nested templates", format!("_Z1f{}", inside(47))),
        named("1,024 arguments of a class", format!("_Z1f1aI{}E", times("i", 1024))),
        named("110 parts, 977 arguments, 46 nested templates", format!("_Z1fN{}I{}{}EE", times("1a", 110), times("i", 977), inside(46))),
        // a nested name's arguments empty the reading's list, so that more than 1,024 can be open
        named("3 lists of 1,000 arguments inside one another", lists_inside(&[(0, 1000); 3], 2, "i")),
        named("4 lists of 1,000 references inside one another, then 11 nested templates", lists_inside(&[(1000, 0); 4], 8, &inside(11))),
    ]
}

/// Lists of so many references to the first entry and letters, each in the one before it, the first one behind so many parts.
/// The text of a reference has fewer bytes than that of a letter, so that more of them are within the limits of texts and tables.
fn lists_inside(lists: &[(usize, usize)], parts: usize, innermost: &str) -> String {
    let lists: Vec<String> = lists.iter().map(|(references, letters)| "S_".repeat(*references) + &"i".repeat(*letters)).collect();
    format!("_Z1fN{}I{}{innermost}{}", "1a".repeat(parts), lists.join("N1a1bI"), "EE".repeat(lists.len()))
}

fn kinds() -> Vec<Kind> {
    let of = |what: &str, made: Vec<Named>| {
        let entry = library::entry(what).unwrap();
        made.into_iter().map(move |(what, symbol)| Kind { entry, what, symbol })
    };
    of("names", read()).chain(of("normals", read())).chain(of("normals", written())).collect()
}

// ---------------------------------------------------------------- one call

/// The number and the result, by a thread with so much stack.
fn answer(kind: Kind, kib: usize) -> Vec<u8> {
    let least = kind.entry.least;
    let (mut out, mut text, mut store) = (vec![0; kind.entry.longest], vec![0; least[0]], vec![0; least[1]]);
    let mut numbers: Vec<Vec<u16>> = least[2..].iter().map(|length| vec![0; *length]).collect();
    let call = move || {
        let mut bytes = 0;
        let number = kind.entry.call(kind.symbol.as_bytes(), &mut out, &mut text, &mut store, &mut numbers, &mut bytes);
        (number, bytes, out)
    };
    let (number, bytes, out) = std::thread::Builder::new().stack_size(kib << 10).spawn(call).unwrap().join().unwrap();
    [&[number], &out[..bytes]].concat()
}

/// None where the process was ended by a signal: then the stack was too small.
fn answer_apart(index: usize, kib: usize) -> Option<Vec<u8>> {
    let program = std::env::current_exe().unwrap();
    let words = ["run".to_string(), index.to_string(), kib.to_string()];
    let ended = Command::new(program).args(words).stderr(Stdio::null()).output().unwrap();
    match ended.status.code() {
        None => None,
        Some(0) => Some(ended.stdout),
        Some(code) => panic!("symbol {index} with {kib} KiB: exit {code}"),
    }
}

// ---------------------------------------------------------------- all of them

/// Below 32 KiB a thread may be given more than was asked for.
fn ladder() -> impl Iterator<Item = usize> {
    (0..10).flat_map(|i| [32 << i, 48 << i])
}

const ENOUGH: usize = 65536;

/// No symbol may take more, in KiB.
const MOST: usize = 2048;

/// The number, and the least size of the ladder with the answer that there is on a large stack.
fn least(index: usize) -> (u8, usize) {
    let right = answer_apart(index, ENOUGH).unwrap_or_else(|| panic!("symbol {index}: no answer with {ENOUGH} KiB"));
    assert!(right[0] != 14, "symbol {index}: a work slice is too short");
    for kib in ladder() {
        if let Some(got) = answer_apart(index, kib) {
            assert!(got == right, "symbol {index}: another answer with {kib} KiB");
            return (right[0], kib);
        }
    }
    (right[0], ENOUGH)
}

/// Whether all of them are within `MOST`.
fn all() -> bool {
    println!("| Function | Symbol | Number | KiB |\n|---|---|--:|--:|");
    let mut worst: Vec<(&str, usize)> = vec![];
    for (index, kind) in kinds().iter().enumerate() {
        assert!(kind.symbol.len() <= library::SYMBOL, "{} has {} bytes", kind.what, kind.symbol.len());
        let (number, kib) = least(index);
        println!("| {} | {} | {number} | {kib} |", kind.entry.what, kind.what);
        match worst.iter_mut().find(|(what, _)| *what == kind.entry.what) {
            Some((_, most)) => *most = kib.max(*most),
            None => worst.push((kind.entry.what, kib)),
        }
    }
    for (what, kib) in &worst {
        println!("{what}: {kib} KiB for all of these{}", if *kib > MOST { ", which is too much" } else { "" });
    }
    worst.iter().all(|(_, kib)| *kib <= MOST)
}

fn main() {
    let words: Vec<String> = std::env::args().skip(1).collect();
    match words.iter().map(String::as_str).collect::<Vec<_>>()[..] {
        [] => exit(if all() { 0 } else { 1 }),
        ["run", index, kib] => {
            let kind = kinds().swap_remove(index.parse().unwrap());
            std::io::stdout().write_all(&answer(kind, kib.parse().unwrap())).unwrap();
        }
        _ => exit(2),
    }
}
