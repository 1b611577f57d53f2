//! Thunks by document 02, request T-01. The Rust refuses them: they are struck from the comparison with it by a rule, `is_struck`, and judged here.
//! The offsets are read by the request's words; for what stands behind them the Rust is asked, as for a symbol of its own.

/// Behind offsets no label is read.
const LABELS: &[&str] = &["TV", "TT", "TI", "TS", "GTt", "GV", "Th", "Tv"];
pub const NON_VIRTUAL: &str = "non-virtual thunk to ";
pub const VIRTUAL: &str = "virtual thunk to ";
pub const CLONE: &str = "transaction clone for ";
/// A longer symbol is refused with 1.
pub const MOST_SYMBOL: usize = 16384;
const MOST_TEXT: usize = 16384;
/// The Rust's `SLOT`: counted in a text, not printed.
const SLOT: char = '\u{1}';

/// Oracles that must be caught, by the answers of the papers below and by a right program.
#[derive(Clone, Copy, PartialEq)]
pub enum Mistake {
    No,
    Refused,
    OtherLabel,
    NoDigits,
    TwoSigns,
    Minus,
    NoEnd,
    OneOffset,
    ThreeOffsets,
    SmallOffsets,
    LabelBehind,
    NoClone,
    ManyClones,
    NameAlone,
    LimitItself,
    Slots,
    DotDropped,
}

pub const MISTAKES: &[(Mistake, &str)] = &[
    (Mistake::Refused, "4 for every thunk"),
    (Mistake::OtherLabel, "the other label"),
    (Mistake::NoDigits, "an offset without digits"),
    (Mistake::TwoSigns, "more than one n"),
    (Mistake::Minus, "- for n"),
    (Mistake::NoEnd, "an offset without _"),
    (Mistake::OneOffset, "one offset behind Tv"),
    (Mistake::ThreeOffsets, "an offset more than there are, where it is there"),
    (Mistake::SmallOffsets, "offsets within 64 bits only"),
    (Mistake::LabelBehind, "a label behind the offsets read"),
    (Mistake::NoClone, "no thunk behind GTt"),
    (Mistake::ManyClones, "no thunk behind a second GTt"),
    (Mistake::NameAlone, "11 by the name alone"),
    (Mistake::LimitItself, "11 for exactly 16,384 bytes"),
    (Mistake::Slots, "bytes 1 not counted for 11"),
    (Mistake::DotDropped, "what stands from a dot on taken off first"),
];

// ---------------------------------------------------------------- the rule

/// How often `GTt` stands behind `_Z` or `__Z`, and where what is behind that begins.
fn behind_clones(symbol: &[u8]) -> Option<(usize, usize)> {
    let front = [&b"_Z"[..], b"__Z"].into_iter().find(|f| symbol.starts_with(f))?.len();
    let clones = symbol[front..].chunks(3).take_while(|c| *c == b"GTt").count();
    Some((clones, front + 3 * clones))
}

/// Whether a symbol, behind `_Z` or `__Z` and any number of `GTt`, begins with Th or Tv.
pub fn is_struck(symbol: &[u8]) -> bool {
    behind_clones(symbol).is_some_and(|(_, at)| symbol[at..].starts_with(b"Th") || symbol[at..].starts_with(b"Tv"))
}

// ---------------------------------------------------------------- the offsets

/// What stands behind an offset and its `_`: `n` or not, one or more decimal digits, `_`.
fn behind_offset(text: &str, mistake: Mistake) -> Option<&str> {
    let digits = match mistake {
        Mistake::TwoSigns => text.trim_start_matches('n'),
        Mistake::Minus => text.strip_prefix(['n', '-']).unwrap_or(text),
        _ => text.strip_prefix('n').unwrap_or(text),
    };
    let behind = digits.trim_start_matches(|c: char| c.is_ascii_digit());
    let number = &digits[..digits.len() - behind.len()];
    if number.is_empty() && mistake != Mistake::NoDigits || mistake == Mistake::SmallOffsets && number.parse::<u64>().is_err() {
        return None;
    }
    match behind.strip_prefix('_') {
        None if mistake == Mistake::NoEnd => Some(behind),
        end => end,
    }
}

struct Thunk<'a> {
    clones: usize,
    label: &'static str,
    /// A name with its parameters, if any.
    rest: &'a str,
}

/// A struck symbol taken apart; none where no rule fits, which is 4.
fn taken_apart(symbol: &str, mistake: Mistake) -> Option<Thunk<'_>> {
    let (clones, at) = behind_clones(symbol.as_bytes())?;
    let virtual_one = symbol[at..].starts_with("Tv");
    let offsets = if virtual_one && mistake != Mistake::OneOffset { 2 } else { 1 };
    let mut rest = &symbol[at + 2..];
    for _ in 0..offsets {
        rest = behind_offset(rest, mistake)?;
    }
    if mistake == Mistake::ThreeOffsets {
        rest = behind_offset(rest, mistake).unwrap_or(rest);
    }
    if mistake == Mistake::DotDropped {
        rest = rest.split('.').next().unwrap_or(rest);
    }
    let barred = match mistake {
        Mistake::Refused => true,
        Mistake::NoClone => clones > 0,
        Mistake::ManyClones => clones > 1,
        _ => false,
    };
    let label_behind = LABELS.iter().any(|l| rest.starts_with(l)) && mistake != Mistake::LabelBehind;
    let label = if virtual_one == (mistake != Mistake::OtherLabel) { VIRTUAL } else { NON_VIRTUAL };
    if barred || label_behind { None } else { Some(Thunk { clones, label, rest }) }
}

/// The symbol of what stands behind a thunk's offsets.
pub fn base(symbol: &str) -> Option<String> {
    Some(format!("_Z{}", taken_apart(symbol, Mistake::No)?.rest))
}

// ---------------------------------------------------------------- answers, for symbols that are not too long, of bytes below 128

/// What the Rust says of the name behind a thunk's offsets, with the labels in front; of any other symbol what it says.
pub fn named(symbol: &str, rust: fn(&str) -> Option<String>) -> Option<String> {
    if !is_struck(symbol.as_bytes()) {
        return rust(symbol);
    }
    let Thunk { clones, label, rest } = taken_apart(symbol, Mistake::No)?;
    // what an encoding behind GTt leaves unread is dropped: the Rust does that
    let (front, own) = if clones == 0 { ("_Z", "") } else { ("_ZGTt", CLONE) };
    let name = rust(&format!("{front}{rest}"))?;
    Some(format!("{}{label}{}", CLONE.repeat(clones), name.strip_prefix(own)?))
}

/// A text with its bytes 1, and whether bytes are left that don't begin with a dot.
pub type Reading = Result<(String, bool), u8>;

/// The name or the number. `read` is the numbered copy's reading of a symbol.
pub fn answer(symbol: &str, read: fn(&str) -> Reading) -> Result<String, u8> {
    mistaken(symbol, read, Mistake::No)
}

/// The same for any bytes.
pub fn answered(symbol: &[u8], read: fn(&str) -> Reading) -> Result<String, u8> {
    if symbol.len() > MOST_SYMBOL {
        return Err(1);
    }
    if !symbol.is_ascii() {
        return Err(2);
    }
    answer(std::str::from_utf8(symbol).unwrap(), read)
}

pub fn mistaken(symbol: &str, read: fn(&str) -> Reading, mistake: Mistake) -> Result<String, u8> {
    let struck = is_struck(symbol.as_bytes());
    let (text, left) = if struck { labelled(symbol, read, mistake)? } else { read(symbol)? };
    if left { Err(5) } else { Ok(text.replace(SLOT, "")) }
}

/// Each text with a label in front is returned, and tested for its length.
fn labelled(symbol: &str, read: fn(&str) -> Reading, mistake: Mistake) -> Reading {
    let Thunk { clones, label, rest } = taken_apart(symbol, mistake).ok_or(4u8)?;
    let (mut text, left) = read(&format!("_Z{rest}"))?;
    for label in std::iter::once(label).chain(std::iter::repeat(CLONE).take(clones)) {
        text.insert_str(0, label);
        let bytes = match mistake {
            Mistake::NameAlone => 0,
            Mistake::LimitItself => text.len() + 1,
            Mistake::Slots => text.len() - text.matches(SLOT).count(),
            _ => text.len(),
        };
        if bytes > MOST_TEXT {
            return Err(11);
        }
    }
    Ok((text, left && clones == 0))
}

// ---------------------------------------------------------------- answers of the papers, by hand

/// The symbols that the request names, with number and name.
pub const PAPER: &[(&str, u8, &str)] = &[
    ("_ZTh0_1fv", 0, "non-virtual thunk to f()"),
    ("_ZTv0_0_1fv", 0, "virtual thunk to f()"),
    ("__ZTh0_1f", 0, "non-virtual thunk to f"),
    ("__ZTv0_n24_1f", 0, "virtual thunk to f"),
    ("_ZThn8_N1a1fEv", 0, "non-virtual thunk to a::f()"),
    ("_ZTv0_n24_N1a1fEv", 0, "virtual thunk to a::f()"),
    ("_ZThn16_NK1a1bEi", 0, "non-virtual thunk to a::b(int) const"),
    ("_ZThn8_N1aD0Ev", 0, "non-virtual thunk to a::~a()"),
    ("_ZTv0_n24_N1aD1Ev", 0, "virtual thunk to a::~a()"),
    ("_ZThn8_N1aC1ERKS_", 0, "non-virtual thunk to a::a(a const&)"),
    ("_ZTh00_1fIiEvi", 0, "non-virtual thunk to void f<int>(int)"),
    ("_ZTv1_2_1fI1aIiEEvT_", 0, "virtual thunk to void f<a<int> >(int)"),
    ("_ZTh8_plRK1aS1_", 0, "non-virtual thunk to operator+(a const&, a const&)"),
    ("_ZTh8_1fPFvPFicEE", 0, "non-virtual thunk to f(void (*)(int (**)(char)))"),
    ("_ZTh8_ZZ1fvE1gvEs", 0, "non-virtual thunk to f(void)::g(void)::string literal"),
    ("_ZThn0_1f", 0, "non-virtual thunk to f"),
    ("_ZTh007_1f", 0, "non-virtual thunk to f"),
    ("_ZTh99999999999999999999_1f", 0, "non-virtual thunk to f"),
    ("_ZTvn18446744073709551616_n0_1f", 0, "virtual thunk to f"),
    ("_ZGTtTh8_1fv", 0, "transaction clone for non-virtual thunk to f()"),
    ("_ZGTtGTtTv1_2_1f", 0, "transaction clone for transaction clone for virtual thunk to f"),
    ("_ZTh8_1fv.part.0", 0, "non-virtual thunk to f(void)"),
    ("_ZTv0_n8_N1a1fEv.x", 0, "virtual thunk to a::f(void)"),
    ("_ZGTtTh8_1fv.x", 0, "transaction clone for non-virtual thunk to f(void)"),
    ("_ZTh8_1f.", 0, "non-virtual thunk to f"),
    ("_ZTh", 4, ""),
    ("_ZTh8", 4, ""),
    ("_ZTh8_", 4, ""),
    ("_ZTh_1f", 4, ""),
    ("_ZThn_1f", 4, ""),
    ("_ZThnn8_1f", 4, ""),
    ("_ZTh-8_1f", 4, ""),
    ("_ZThN8_1f", 4, ""),
    ("_ZTh81fv", 4, ""),
    ("_ZTh8N1a1fEv", 4, ""),
    ("_ZTh8.1fv", 4, ""),
    ("_ZTh8a_1fv", 4, ""),
    ("_ZThn1f", 4, ""),
    ("_ZTh8__1f", 4, ""),
    ("_ZTh8_8_1f", 4, ""),
    ("_ZTv", 4, ""),
    ("_ZTv8_1f", 4, ""),
    ("_ZTv8__1f", 4, ""),
    ("_ZTv8_n_1f", 4, ""),
    ("_ZTv8_nn8_1f", 4, ""),
    ("_ZTv8_-8_1f", 4, ""),
    ("_ZTv8_81f", 4, ""),
    ("_ZTv8_8N1a1fEv", 4, ""),
    ("_ZTv0_0_0_1f", 4, ""),
    ("_ZTh8_TV1a", 4, ""),
    ("_ZTh8_TT1a", 4, ""),
    ("_ZTv0_8_TI1a", 4, ""),
    ("_ZTv0_8_TS1a", 4, ""),
    ("_ZTh8_GTt1f", 4, ""),
    ("_ZTv0_8_GTt1f", 4, ""),
    ("_ZTh8_GV1f", 4, ""),
    ("_ZTh8_Th8_1f", 4, ""),
    ("_ZTv0_8_Tv0_8_1f", 4, ""),
    ("_ZTh8_Tv0_8_1f", 4, ""),
    ("_ZGVTh8_1f", 4, ""),
    ("_ZGVTv0_8_1f", 4, ""),
    ("_ZGTtGVTh8_1f", 4, ""),
    ("_ZZTh8_1fvEs", 4, ""),
    ("_ZZTv0_8_1fvE1g", 4, ""),
    ("_Z1fIL_Th8_1gEE", 4, ""),
    ("_Z1fIL_ZTh8_1gEE", 4, ""),
    ("_ZLTh8_1f", 4, ""),
    ("_ZNTh8_1fE", 4, ""),
    ("_ZTc0_0_1f", 4, ""),
    ("_ZTch0_h0_1fv", 4, ""),
    ("_ZTh8_1fv!", 4, ""),
    ("_ZGTtTh8_1fv!", 4, ""),
    ("_ZTh8_1fS_", 7, ""),
    ("_ZTv0_8_S_", 7, ""),
    ("ZTh8_1f", 3, ""),
    ("_Th8_1f", 3, ""),
];
