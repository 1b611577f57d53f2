//! Catalogue symbols as document 01 has them, in the plainest way: a recogniser that gives the tree with references resolved, the writer of
//! the normal symbol, and makers of trees, of spellings of one tree and of symbols about the limits.
//!
//! Limits and refusals other than 6 and 13 are no concern of this file: they belong to the reading for names.

use crate::symbols::{self, Rng, entry, source};
use std::rc::Rc;

// ---------------------------------------------------------------- trees

/// A type with its references resolved.
#[derive(Clone, PartialEq, Eq, Hash, Debug)]
pub enum Tree {
    Letter(u8),
    /// P, R, O, K or V, and the type behind it.
    Wrap(u8, Rc<Tree>),
    /// Leading steps of a class are its stretches, a part without its arguments too.
    Class(Vec<Step>),
}

/// What a class is written of: a part is a name, or a name and arguments.
#[derive(Clone, PartialEq, Eq, Hash, Debug)]
pub enum Step {
    Name(Rc<str>),
    Args(Rc<Vec<Argument>>),
}

#[derive(Clone, PartialEq, Eq, Hash, Debug)]
pub enum Argument {
    Type(Rc<Tree>),
    /// One of b i j l m, and the value as it is written.
    Literal(u8, Rc<str>),
}

/// A whole symbol. A lone name is one step.
#[derive(Clone, PartialEq, Eq, Hash, Debug)]
pub struct Encoding {
    pub name: Vec<Step>,
    pub constant: bool,
    pub params: Vec<Rc<Tree>>,
}

fn parts(steps: &[Step]) -> usize {
    steps.iter().filter(|s| matches!(s, Step::Name(_))).count()
}

fn ends_bare(steps: &[Step]) -> bool {
    matches!(steps.last(), Some(Step::Name(_)))
}

fn class(steps: &[Step]) -> Rc<Tree> {
    Rc::new(Tree::Class(steps.to_vec()))
}

/// R and O never stand on R or O, K and V never on K or V.
fn barred(wrap: u8, on: &Tree) -> bool {
    let Tree::Wrap(below, _) = on else { return false };
    [b"RO", b"KV"].iter().any(|pair| pair.contains(&wrap) && pair.contains(below))
}

// ---------------------------------------------------------------- mistakes

/// Mistakes that the comparison must catch. Everything but its test of itself works with `No`.
#[derive(Clone, Copy, PartialEq, Eq, Debug)]
pub enum Mistake {
    No,
    /// References are taken as places in the table of the normal symbol.
    Index,
    /// R on R and the like are let through.
    Barred,
    /// Arguments are not counted.
    Count,
    /// The last part of a function's nested name is entered.
    LastPart,
    /// A class is written in full where that is shorter.
    Shortest,
    /// A part without its arguments is no stretch.
    Stretch,
    /// A nested class that ends in arguments is entered twice.
    Twice,
    /// Words such as `int` are taken as names.
    Words,
    /// `N` is written around one part with arguments.
    Nested,
    /// 36 in base 36 is one digit, the byte behind Z.
    Digits,
}

// ---------------------------------------------------------------- the table

/// The Rust's table, with trees in place of texts.
#[derive(Default)]
struct Table {
    entries: Vec<Rc<Tree>>,
    once: bool,
}

impl Table {
    fn push(&mut self, tree: Rc<Tree>) {
        if !self.once || !self.entries.contains(&tree) {
            self.entries.push(tree);
        }
    }

    /// What the Rust does behind a nested type.
    fn push_unless_newest(&mut self, tree: Rc<Tree>) {
        if self.entries.last() != Some(&tree) {
            self.push(tree);
        }
    }

    fn places(&self, tree: &Tree) -> Vec<usize> {
        (0..self.entries.len()).filter(|i| *self.entries[*i] == *tree).collect()
    }

    fn places_of_stretch(&self, steps: &[Step]) -> Vec<usize> {
        let fits = |i: &usize| matches!(&*self.entries[*i], Tree::Class(entered) if entered == steps);
        (0..self.entries.len()).filter(fits).collect()
    }
}

// ---------------------------------------------------------------- the recogniser

pub const LETTERS: &[u8] = b"vwbcahstijlmxynofdegz";
const WRAPS: &[u8] = b"PROKV";
const LITERALS: &[u8] = b"bijlm";
const MOST_ARGUMENTS: usize = 1024;

/// What no source name may be.
pub const WORDS: &[&str] =
    &["void", "wchar_t", "bool", "char", "short", "int", "long", "__int128", "float", "double", "__float128", "true", "false"];

struct Reader<'a> {
    symbol: &'a [u8],
    at: usize,
    table: Table,
    /// Arguments of all lists, as written.
    arguments: usize,
    mistake: Mistake,
}

/// The tree of a catalogue symbol. The symbol must be accepted: nothing here bounds what references grow to.
pub fn recognised(symbol: &[u8], mistake: Mistake) -> Option<Encoding> {
    let table = Table { entries: vec![], once: mistake == Mistake::Index };
    Reader { symbol, at: 0, table, arguments: 0, mistake }.symbol()
}

impl Reader<'_> {
    fn peek(&self) -> Option<u8> {
        self.symbol.get(self.at).copied()
    }

    fn eat(&mut self, byte: u8) -> bool {
        let found = self.peek() == Some(byte);
        self.at += found as usize;
        found
    }

    fn must(&mut self, byte: u8) -> Option<()> {
        self.eat(byte).then_some(())
    }

    fn symbol(mut self) -> Option<Encoding> {
        self.must(b'_')?;
        self.must(b'Z')?;
        let (name, constant) = if self.eat(b'N') { self.nested_function()? } else { (vec![self.name()?], false) };
        let mut params = vec![];
        while self.at < self.symbol.len() {
            params.push(self.ty()?);
        }
        let counted = self.arguments <= MOST_ARGUMENTS || self.mistake == Mistake::Count;
        (counted && !(constant && params.is_empty())).then_some(Encoding { name, constant, params })
    }

    /// A function's name has no reference in front: the table is empty there.
    fn nested_function(&mut self) -> Option<(Vec<Step>, bool)> {
        let constant = self.eat(b'K');
        let name = self.steps(vec![])?;
        (parts(&name) >= 2 && ends_bare(&name)).then_some((name, constant))
    }

    /// Names and arguments up to E. What stands before E is no entry yet, unless it is arguments.
    fn steps(&mut self, mut steps: Vec<Step>) -> Option<Vec<Step>> {
        while !self.eat(b'E') {
            if self.peek()? == b'I' {
                if !ends_bare(&steps) {
                    return None;
                }
                steps.push(self.args()?);
                self.table.push(class(&steps));
            } else {
                steps.push(self.name()?);
                if self.peek() != Some(b'E') {
                    self.table.push(class(&steps));
                }
            }
        }
        Some(steps)
    }

    fn name(&mut self) -> Option<Step> {
        let from = self.at;
        while self.peek().is_some_and(|b| b.is_ascii_digit()) {
            self.at += 1;
        }
        let length = plain_number(&self.symbol[from..self.at])?;
        let bytes = self.symbol.get(self.at..self.at.checked_add(length)?)?;
        self.at += length;
        let word = std::str::from_utf8(bytes).ok()?;
        (word_fits(word) && (self.mistake == Mistake::Words || !WORDS.contains(&word))).then(|| Step::Name(word.into()))
    }

    fn args(&mut self) -> Option<Step> {
        self.must(b'I')?;
        let mut list = vec![];
        while !self.eat(b'E') {
            self.arguments += 1;
            list.push(if self.peek()? == b'L' { self.literal()? } else { Argument::Type(self.ty()?) });
        }
        (!list.is_empty()).then(|| Step::Args(Rc::new(list)))
    }

    fn literal(&mut self) -> Option<Argument> {
        self.must(b'L')?;
        let kind = self.peek().filter(|b| LITERALS.contains(b))?;
        self.at += 1;
        let from = self.at;
        while self.peek()? != b'E' {
            self.at += 1;
        }
        let value = std::str::from_utf8(&self.symbol[from..self.at]).ok()?;
        self.at += 1;
        value_fits(kind, value).then(|| Argument::Literal(kind, value.into()))
    }

    fn ty(&mut self) -> Option<Rc<Tree>> {
        let byte = self.peek()?;
        match byte {
            b'N' => self.nested_class(),
            b'S' => self.referred(),
            b'0'..=b'9' => self.one_part(),
            _ if LETTERS.contains(&byte) => {
                self.at += 1;
                Some(Rc::new(Tree::Letter(byte)))
            }
            _ if WRAPS.contains(&byte) => self.wrapped(byte),
            _ => None,
        }
    }

    fn wrapped(&mut self, wrap: u8) -> Option<Rc<Tree>> {
        self.at += 1;
        let inner = self.ty()?;
        if barred(wrap, &inner) && self.mistake != Mistake::Barred {
            return None;
        }
        let tree = Rc::new(Tree::Wrap(wrap, inner));
        self.table.push(tree.clone());
        Some(tree)
    }

    fn one_part(&mut self) -> Option<Rc<Tree>> {
        let name = vec![self.name()?];
        let bare = class(&name);
        self.table.push(bare.clone());
        if self.peek() == Some(b'I') { self.with_args(name) } else { Some(bare) }
    }

    fn with_args(&mut self, mut steps: Vec<Step>) -> Option<Rc<Tree>> {
        steps.push(self.args()?);
        let tree = class(&steps);
        self.table.push(tree.clone());
        Some(tree)
    }

    fn reference(&mut self) -> Option<Rc<Tree>> {
        self.must(b'S')?;
        let from = self.at;
        while self.peek().is_some_and(|b| b.is_ascii_digit() || b.is_ascii_uppercase()) {
            self.at += 1;
        }
        let place = reference_place(&self.symbol[from..self.at])?;
        self.must(b'_')?;
        self.table.entries.get(place).cloned()
    }

    fn referred(&mut self) -> Option<Rc<Tree>> {
        let tree = self.reference()?;
        if self.peek() != Some(b'I') {
            return Some(tree);
        }
        match &*tree {
            Tree::Class(steps) if parts(steps) == 1 && ends_bare(steps) => self.with_args(steps.clone()),
            _ => None,
        }
    }

    fn nested_class(&mut self) -> Option<Rc<Tree>> {
        self.must(b'N')?;
        let leading = match self.peek()? {
            b'S' => match &*self.reference()? {
                Tree::Class(steps) => steps.clone(),
                _ => return None,
            },
            _ => vec![],
        };
        let given = leading.len();
        let steps = self.steps(leading)?;
        if steps.len() == given || parts(&steps) < 2 {
            return None;
        }
        let tree = class(&steps);
        self.table.push_unless_newest(tree.clone());
        Some(tree)
    }
}

fn word_fits(word: &str) -> bool {
    word.bytes().all(|b| b.is_ascii_alphanumeric() || b == b'_') && !word.starts_with(|c: char| c.is_ascii_digit())
}

/// A number from 1 on, without leading zeros.
fn plain_number(digits: &[u8]) -> Option<usize> {
    if digits.first().is_none_or(|b| *b == b'0') {
        return None;
    }
    std::str::from_utf8(digits).ok()?.parse().ok()
}

/// `S_` is entry 0, `S0_` entry 1, `S10_` entry 37.
fn reference_place(digits: &[u8]) -> Option<usize> {
    if digits.is_empty() {
        return Some(0);
    }
    if digits.len() > 1 && digits[0] == b'0' {
        return None;
    }
    usize::from_str_radix(std::str::from_utf8(digits).ok()?, 36).ok()?.checked_add(1)
}

fn value_fits(kind: u8, value: &str) -> bool {
    let digits = match value.strip_prefix('n') {
        Some(digits) if b"jm".contains(&kind) || digits == "0" => return false,
        Some(digits) => digits,
        None => value,
    };
    match kind {
        b'b' => value == "0" || value == "1",
        _ => digits == "0" || plain_number_of_any_size(digits),
    }
}

fn plain_number_of_any_size(digits: &str) -> bool {
    !digits.is_empty() && !digits.starts_with('0') && digits.bytes().all(|b| b.is_ascii_digit())
}

// ---------------------------------------------------------------- the writer

/// Which references a writer takes where it could.
enum Choice<'a> {
    /// All, the longest stretch first: the normal symbol.
    Normal,
    /// So many of a thousand, and any of the stretches and of equal entries.
    Chance(&'a mut Rng, usize),
}

struct Writer<'a> {
    out: String,
    table: Table,
    /// Arguments of all lists, as written.
    arguments: usize,
    choice: Choice<'a>,
    mistake: Mistake,
}

pub fn normal(of: &Encoding, mistake: Mistake) -> String {
    let mut writer = Writer { out: String::new(), table: Table::default(), arguments: 0, choice: Choice::Normal, mistake };
    writer.symbol(of);
    writer.out
}

/// A spelling of the tree and the number of its arguments as written. With 0 of a thousand nothing is referred to.
pub fn spelled(of: &Encoding, rng: &mut Rng, of_thousand: usize) -> (String, usize) {
    let choice = Choice::Chance(rng, of_thousand);
    let mut writer = Writer { out: String::new(), table: Table::default(), arguments: 0, choice, mistake: Mistake::No };
    writer.symbol(of);
    (writer.out, writer.arguments)
}

impl Writer<'_> {
    /// An entry for a reference, if one is taken: first how many steps it stands for, then its place.
    fn chosen(&mut self, found: &[(usize, usize)]) -> Option<(usize, usize)> {
        match &mut self.choice {
            Choice::Normal => found.first().copied(),
            Choice::Chance(rng, of_thousand) => (!found.is_empty() && rng.chance(*of_thousand)).then(|| rng.pick(found)),
        }
    }

    /// Makes an entry. In the normal symbol none is made twice: what has an entry is never written again.
    fn enter(&mut self, tree: Rc<Tree>) {
        if matches!(self.choice, Choice::Normal) && self.mistake == Mistake::No {
            assert!(self.table.places(&tree).is_empty(), "{} enters a type twice", self.out);
        }
        self.table.push(tree);
    }

    fn symbol(&mut self, of: &Encoding) {
        self.out += "_Z";
        if parts(&of.name) == 1 {
            self.step(&of.name[0]);
        } else {
            self.out += if of.constant { "NK" } else { "N" };
            self.steps(&of.name, 0);
            self.out += "E";
        }
        if self.mistake == Mistake::LastPart && parts(&of.name) > 1 {
            self.enter(class(&of.name));
        }
        for param in &of.params {
            self.ty(param);
        }
    }

    fn ty(&mut self, tree: &Rc<Tree>) {
        if let Tree::Letter(letter) = &**tree {
            self.out.push(*letter as char);
            return;
        }
        let found: Vec<_> = self.table.places(tree).into_iter().map(|place| (0, place)).collect();
        if let Some((_, place)) = self.chosen(&found).filter(|(_, place)| !self.shorter_in_full(tree, *place)) {
            self.out += &self.reference(place);
            return;
        }
        match &**tree {
            Tree::Letter(_) => unreachable!(),
            Tree::Wrap(wrap, inner) => {
                self.out.push(*wrap as char);
                self.ty(inner);
                self.enter(tree.clone());
            }
            Tree::Class(steps) if parts(steps) == 1 && self.mistake != Mistake::Nested => self.one_part(steps),
            Tree::Class(steps) => self.nested_class(steps),
        }
    }

    fn shorter_in_full(&self, tree: &Tree, place: usize) -> bool {
        let in_full = match tree {
            Tree::Class(steps) if steps.len() == 1 => match &steps[0] {
                Step::Name(name) => source(name).len(),
                _ => return false,
            },
            _ => return false,
        };
        self.mistake == Mistake::Shortest && in_full < entry(place).len()
    }

    fn reference(&self, place: usize) -> String {
        if self.mistake == Mistake::Digits && place == 37 { "S[_".into() } else { entry(place) }
    }

    /// Writes a reference to leading steps, if there is one and it is taken, and says how many they are.
    fn stretch(&mut self, steps: &[Step]) -> usize {
        let mut found = vec![];
        for n in (1..steps.len()).rev() {
            let counts = self.mistake != Mistake::Stretch || matches!(steps[n], Step::Name(_));
            let places = if counts { self.table.places_of_stretch(&steps[..n]) } else { vec![] };
            found.extend(places.into_iter().map(|place| (n, place)));
        }
        let Some((n, place)) = self.chosen(&found) else { return 0 };
        self.out += &self.reference(place);
        n
    }

    fn one_part(&mut self, steps: &[Step]) {
        let from = self.stretch(steps);
        for n in from..steps.len() {
            self.step(&steps[n]);
            self.enter(class(&steps[..=n]));
        }
    }

    fn nested_class(&mut self, steps: &[Step]) {
        self.out += "N";
        let from = self.stretch(steps);
        self.steps(steps, from);
        self.out += "E";
        self.table.push_unless_newest(class(steps));
        if self.mistake == Mistake::Twice && !ends_bare(steps) {
            self.enter(class(steps));
        }
    }

    /// The steps before E: the last is entered here only if it is arguments.
    fn steps(&mut self, steps: &[Step], from: usize) {
        for n in from..steps.len() {
            self.step(&steps[n]);
            if n + 1 < steps.len() || matches!(steps[n], Step::Args(_)) {
                self.enter(class(&steps[..=n]));
            }
        }
    }

    fn step(&mut self, step: &Step) {
        match step {
            Step::Name(name) => self.out += &source(name),
            Step::Args(list) => {
                self.out += "I";
                for argument in list.iter() {
                    self.arguments += 1;
                    self.argument(argument);
                }
                self.out += "E";
            }
        }
    }

    fn argument(&mut self, argument: &Argument) {
        match argument {
            Argument::Type(tree) => self.ty(tree),
            Argument::Literal(kind, value) => self.out += &format!("L{}{value}E", *kind as char),
        }
    }
}

// ---------------------------------------------------------------- the answer for normal symbols

/// A longer normal symbol is refused with 13.
pub const MOST_NORMAL: usize = 16384;
pub const NOT_CATALOGUE: u8 = 6;
pub const TOO_LONG: u8 = 13;

/// The answer for a symbol whose reading for its name gives the number: 0, or a refusal that stands before 6.
pub fn answer(symbol: &[u8], number: u8) -> (u8, String) {
    if number != 0 {
        return (number, String::new());
    }
    match recognised(symbol, Mistake::No) {
        None => (NOT_CATALOGUE, String::new()),
        Some(encoding) => within(normal(&encoding, Mistake::No)),
    }
}

pub fn within(normal: String) -> (u8, String) {
    if normal.len() > MOST_NORMAL { (TOO_LONG, String::new()) } else { (0, normal) }
}

// ---------------------------------------------------------------- symbols with known answers

/// Document 01's symbols. The first five answers and the refusals 4, 5, 3 and 7 are typed from it; the others follow from its rules.
pub const PAPER: &[(&str, u8, &str)] = &[
    ("_Z1fP1aPS_", 0, "_Z1fP1aS0_"),
    ("_Z1fP1aP1a", 0, "_Z1fP1aS0_"),
    ("_ZN1n1fEN1n1aE", 0, "_ZN1n1fENS_1aE"),
    ("_Z1f1a1b1b", 0, "_Z1f1a1bS0_"),
    ("_Z1fRRi", 6, ""),
    // of its names, these are in the class, and normal already
    ("_Z1fv", 0, "_Z1fv"),
    ("_Z1f", 0, "_Z1f"),
    ("_ZNK1a1bEi", 0, "_ZNK1a1bEi"),
    ("_Z1fOi", 0, "_Z1fOi"),
    // and these are not
    ("_Z1fv.isra.0", 6, ""),
    ("_ZN1aD0Ev", 6, ""),
    ("_ZplRK1aS1_", 6, ""),
    ("_Z1fI1aIiEEvT_", 6, ""),
    ("_Z1fT_", 6, ""),
    ("_Z1aB1bB1cv", 6, ""),
    ("_ZZ1fvEs", 6, ""),
    ("_Z1fPFvPFicEE", 6, ""),
    ("_ZTV1a", 6, ""),
    ("_ZTV1a1b", 5, ""),
    ("_ZGV1f!!", 6, ""),
    ("_Z1fS_", 7, ""),
    ("_Z0v", 4, ""),
    ("_Z2f", 4, ""),
    ("", 3, ""),
    ("_Z1fP1aIFviEE", 6, ""),
    ("_Z1f1aIPFviEE", 6, ""),
];

/// Each rule of the class from both sides, by hand.
pub const RULES: &[(&str, u8, &str)] = &[
    // starts with _Z, and is read to its end
    ("__Z1fv", 6, ""),
    ("_Z1fv.", 6, ""),
    ("_Z1f.", 6, ""),
    ("_Z1fv!", 4, ""),
    // bytes are left only behind a label
    ("_ZTI1ai", 5, ""),
    ("_ZTS1aS_", 5, ""),
    ("_ZTT1a!", 5, ""),
    ("_ZTVN1a1bE1c", 5, ""),
    ("_ZTI1a", 6, ""),
    ("_ZTV1a.", 6, ""),
    ("_ZGTtTV1a!", 6, ""),
    // the name: one source name, or N, parts, E
    ("_ZN1a1bE", 0, "_ZN1a1bE"),
    ("_ZN1aE", 6, ""),
    ("_ZNE", 6, ""),
    ("_ZN1a1b1c1dEv", 0, "_ZN1a1b1c1dEv"),
    ("_ZL1fv", 6, ""),
    ("_ZSt1fv", 6, ""),
    ("_ZSs", 6, ""),
    ("_ZplIiEvv", 6, ""),
    ("_ZN1aplEv", 6, ""),
    ("_ZN1aC1Ev", 6, ""),
    ("_ZNSt1aEv", 6, ""),
    ("_ZN1aL1bEv", 6, ""),
    ("_ZUt_", 6, ""),
    // its qualifiers
    ("_ZNK1a1bEv", 0, "_ZNK1a1bEv"),
    ("_ZNK1a1bE", 6, ""),
    ("_ZNKK1a1bEv", 6, ""),
    ("_ZNV1a1bEv", 6, ""),
    ("_ZNr1a1bEv", 6, ""),
    ("_ZNR1a1bEv", 6, ""),
    ("_ZNO1a1bEv", 6, ""),
    ("_ZNKR1a1bEv", 6, ""),
    ("_ZNK1aE1b", 6, ""),
    // its last part has no arguments
    ("_ZN1aIiE1bEv", 0, "_ZN1aIiE1bEv"),
    ("_ZN1a1bIiEEvv", 6, ""),
    ("_ZN1a1bIiEE", 6, ""),
    ("_Z1fIiEvv", 6, ""),
    ("_Z1fIiE", 6, ""),
    // it is not entered, the parts before it are
    ("_ZN1a1bES_", 0, "_ZN1a1bES_"),
    ("_ZN1a1bES0_", 7, ""),
    ("_ZN1a1bEN1a1bE", 0, "_ZN1a1bENS_1bE"),
    ("_ZN1a1bE1aS_", 0, "_ZN1a1bES_S_"),
    ("_ZN1aIiE1bES_S0_", 0, "_ZN1aIiE1bES_S0_"),
    ("_ZN1aIiE1bE1aIiE", 0, "_ZN1aIiE1bES0_"),
    ("_ZN1aIiE1bE1aIcE", 0, "_ZN1aIiE1bES_IcE"),
    ("_ZN1aIS_E1bEv", 0, "_ZN1aIS_E1bEv"),
    ("_ZN1aI1aE1bEv", 0, "_ZN1aIS_E1bEv"),
    ("_ZN1aI1bE1bES0_", 0, "_ZN1aI1bE1bES0_"),
    // parts of it are written, never referred to
    ("_ZN1aS_E", 6, ""),
    ("_ZN1aS_1bEv", 6, ""),
    ("_ZN1aI1bES0_1cEv", 6, ""),
    ("_ZN1aT_1bEv", 6, ""),
    // arguments of a part
    ("_Z1f1aIiE", 0, "_Z1f1aIiE"),
    ("_Z1f1aIE", 6, ""),
    ("_ZN1aIE1bEv", 6, ""),
    ("_Z1f1aIiEIiE", 4, ""),
    ("_Z1fN1a1bIiEIiEE", 6, ""),
    ("_Z1fN1aIiEIiE1bE", 6, ""),
    ("_ZN1aIiEIiE1bEv", 6, ""),
    // bytes of a source name
    ("_Z2a1v", 0, "_Z2a1v"),
    ("_Z2_1v", 0, "_Z2_1v"),
    // digits in front belong to the length
    ("_Z21av", 4, ""),
    ("_Z2a.v", 6, ""),
    ("_Z2a$v", 6, ""),
    ("_Z2a:v", 6, ""),
    ("_Z2a v", 6, ""),
    ("_Z1f2a-", 6, ""),
    ("_Z1f2a\x01", 6, ""),
    ("_ZN1a2b$Ev", 6, ""),
    ("_Z1fN1a2b$E", 6, ""),
    // its length
    ("_Z01fv", 6, ""),
    ("_Z1f01a", 6, ""),
    ("_ZN01a1bEv", 6, ""),
    ("_Z1fN1a01bE", 6, ""),
    ("_Z11abcdefghijkv", 0, "_Z11abcdefghijkv"),
    ("_Z011abcdefghijkv", 6, ""),
    ("_Z1aB1bv", 6, ""),
    ("_Z1f1aB1b", 6, ""),
    // its word
    ("_Z3intv", 6, ""),
    ("_Z1f4void", 6, ""),
    ("_Z1f7wchar_t", 6, ""),
    ("_Z1f4bool", 6, ""),
    ("_Z1f4char", 6, ""),
    ("_Z1f5short", 6, ""),
    ("_Z1f3int", 6, ""),
    ("_Z1f4long", 6, ""),
    ("_Z1f8__int128", 6, ""),
    ("_Z1f5float", 6, ""),
    ("_Z1f6double", 6, ""),
    ("_Z1f10__float128", 6, ""),
    ("_Z1f4true", 6, ""),
    ("_Z1f5false", 6, ""),
    ("_ZN1a3intEv", 6, ""),
    ("_ZN3int1aEv", 6, ""),
    ("_Z1fN1a4voidE", 6, ""),
    ("_Z1f1aI4trueE", 6, ""),
    ("_Z1f8unsigned", 0, "_Z1f8unsigned"),
    ("_Z1fK5const", 0, "_Z1fK5const"),
    ("_Z1f4void1a", 6, ""),
    ("_Z1f5void_", 0, "_Z1f5void_"),
    ("_Z1f6signed8volatile3std", 0, "_Z1f6signed8volatile3std"),
    // literals
    ("_Z1f1aILb0EE", 0, "_Z1f1aILb0EE"),
    ("_Z1f1aILb1EE", 0, "_Z1f1aILb1EE"),
    ("_Z1f1aILb2EE", 6, ""),
    ("_Z1f1aILbEE", 6, ""),
    ("_Z1f1aILb01EE", 6, ""),
    ("_Z1f1aILbn1EE", 6, ""),
    ("_Z1f1aILi0EE", 0, "_Z1f1aILi0EE"),
    ("_Z1f1aILi10EE", 0, "_Z1f1aILi10EE"),
    ("_Z1f1aILi01EE", 6, ""),
    ("_Z1f1aILiEE", 6, ""),
    ("_Z1f1aILinEE", 6, ""),
    ("_Z1f1aILin0EE", 6, ""),
    ("_Z1f1aILin1EE", 0, "_Z1f1aILin1EE"),
    ("_Z1f1aILin01EE", 6, ""),
    ("_Z1f1aILinn1EE", 6, ""),
    ("_Z1f1aILi-1EE", 6, ""),
    ("_Z1f1aILi1aEE", 6, ""),
    ("_Z1f1aILj1EE", 0, "_Z1f1aILj1EE"),
    ("_Z1f1aILjn1EE", 6, ""),
    ("_Z1f1aILln1EE", 0, "_Z1f1aILln1EE"),
    ("_Z1f1aILm1EE", 0, "_Z1f1aILm1EE"),
    ("_Z1f1aILmn1EE", 6, ""),
    ("_Z1f1aILx1EE", 6, ""),
    ("_Z1f1aILc1EE", 6, ""),
    ("_Z1f1aIL1b1EE", 6, ""),
    ("_Z1f1aIL_1bEE", 6, ""),
    ("_Z1f1aILS_1EE", 6, ""),
    ("_Z1f1aIXiEE", 6, ""),
    ("_Z1f1aIJiEE", 6, ""),
    ("_Z1fLi1E", 4, ""),
    ("_Z1f1aILi123456789012345678901234567890EE", 0, "_Z1f1aILi123456789012345678901234567890EE"),
    // types
    ("_Z1fvwbcahstijlmxynofdegz", 0, "_Z1fvwbcahstijlmxynofdegz"),
    ("_Z1fDn", 6, ""),
    ("_Z1fu1a", 6, ""),
    ("_Z1fA_i", 6, ""),
    ("_Z1fFvvE", 6, ""),
    ("_Z1fM1ai", 6, ""),
    ("_Z1fCi", 6, ""),
    ("_Z1fri", 6, ""),
    ("_Z1fSs", 6, ""),
    ("_Z1fSt1a", 6, ""),
    ("_Z1fNSt1aE", 6, ""),
    ("_Z1f1aIT_E", 6, ""),
    // R and O, K and V
    ("_Z1fORi", 6, ""),
    ("_Z1fROi", 6, ""),
    ("_Z1fOOi", 6, ""),
    ("_Z1fRiRS_", 6, ""),
    ("_Z1fRiOS_", 6, ""),
    ("_Z1fRiPS_", 0, "_Z1fRiPS_"),
    ("_Z1fKKi", 6, ""),
    ("_Z1fKVi", 6, ""),
    ("_Z1fVKi", 6, ""),
    ("_Z1fVVi", 6, ""),
    ("_Z1fKiVS_", 6, ""),
    ("_Z1fKiKS_", 6, ""),
    ("_Z1fKRi", 0, "_Z1fKRi"),
    ("_Z1fRKi", 0, "_Z1fRKi"),
    ("_Z1fRPRi", 0, "_Z1fRPRi"),
    ("_Z1fKPVi", 0, "_Z1fKPVi"),
    ("_Z1f1aIRiERS1_", 0, "_Z1f1aIRiERS1_"),
    ("_Z1f1aIRiERS0_", 6, ""),
    // each of K and V makes an entry
    ("_Z1fPKiS_S0_", 0, "_Z1fPKiS_S0_"),
    ("_Z1fPKiKi", 0, "_Z1fPKiS_"),
    ("_Z1fPViVi", 0, "_Z1fPViS_"),
    // classes
    ("_Z1fN1a1bE", 0, "_Z1fN1a1bE"),
    ("_Z1fN1aE", 6, ""),
    ("_Z1fNE", 6, ""),
    ("_Z1fN1aIiEE", 6, ""),
    ("_Z1fNK1a1bE", 6, ""),
    ("_Z1f1aS_", 0, "_Z1f1aS_"),
    ("_Z1f1a1a", 0, "_Z1f1aS_"),
    ("_Z1f1aNS_E", 6, ""),
    ("_Z1f1aNS_1bE", 0, "_Z1f1aNS_1bE"),
    ("_Z1f1aNS_IiEE", 6, ""),
    ("_Z1f1aNS_IiE1bE", 0, "_Z1f1aNS_IiE1bE"),
    ("_Z1f1aS_IiE", 0, "_Z1f1aS_IiE"),
    ("_Z1f1a1aIiE", 0, "_Z1f1aS_IiE"),
    ("_Z1f1aIiES_IiE", 0, "_Z1f1aIiES0_"),
    ("_Z1f1aIiES0_IiE", 6, ""),
    ("_Z1f1aIiENS0_IiE1bE", 6, ""),
    ("_Z1f1aIiENS0_1bE", 0, "_Z1f1aIiENS0_1bE"),
    ("_Z1fN1a1bES0_IiE", 6, ""),
    ("_Z1fN1a1bENS0_IiEE", 0, "_Z1fN1a1bENS0_IiEE"),
    ("_Z1fN1a1bEN1a1bIiEE", 0, "_Z1fN1a1bENS0_IiEE"),
    ("_Z1fN1a1bEN1aIiE1bE", 0, "_Z1fN1a1bENS_IiE1bE"),
    ("_Z1fPiNS_1bE", 6, ""),
    ("_Z1fPiS_IiE", 6, ""),
    ("_Z1fN1aS_E", 6, ""),
    ("_Z1f1aN1bS_E", 6, ""),
    ("_Z1f1aNS_S_E", 6, ""),
    ("_Z1f1aNS_S_1bE", 6, ""),
    // a nested type is entered unless the newest entry is the same
    ("_Z1fN1a1bENS_1bES1_", 7, ""),
    ("_Z1fN1a1bENS_1bES0_", 0, "_Z1fN1a1bES0_S0_"),
    ("_Z1fN1a1bEN1a1bES2_", 0, "_Z1fN1a1bES0_S0_"),
    ("_Z1fN1a1bEN1a1bES1_", 0, "_Z1fN1a1bES0_S_"),
    ("_Z1fN1a1bEPiNS_1bES2_", 0, "_Z1fN1a1bEPiS0_S0_"),
    ("_Z1fN1a1bIiEES1_", 0, "_Z1fN1a1bIiEES1_"),
    ("_Z1fN1a1bIiEES2_", 7, ""),
    // a table hit is judged by what stands there
    ("_Z1f1a1aP1aS1_", 0, "_Z1f1aS_PS_S_"),
    ("_Z1f1a1a1bS1_", 0, "_Z1f1aS_1bS0_"),
    ("_Z1f1a1a1bS0_", 0, "_Z1f1aS_1bS_"),
    // the same sum, each byte counted 9 times as much as the one behind it, and another name
    ("_Z1f2aj2ba", 0, "_Z1f2aj2ba"),
    ("_Z1f2aj2ba2aj2ba", 0, "_Z1f2aj2baS_S0_"),
    // references
    ("_Z1f1a1bS00_", 6, ""),
    ("_Z1f1a1bS0_", 0, "_Z1f1a1bS0_"),
    ("_Z1fPPPPPPPPPPPP1aSA_", 0, "_Z1fPPPPPPPPPPPP1aSA_"),
    ("_Z1fPPPPPPPPPPPPPPi1aSc_", 6, ""),
    ("_Z1fPPPPPPPPPPPPPPi1aSC_", 0, "_Z1fPPPPPPPPPPPPPPi1aSC_"),
    ("_Z1f1aS", 4, ""),
    ("_Z1f1aS0_", 7, ""),
    // void and the ellipsis stand anywhere
    ("_Z1fvv", 0, "_Z1fvv"),
    ("_Z1fPv", 0, "_Z1fPv"),
    ("_Z1f1aIvE", 0, "_Z1f1aIvE"),
    ("_Z1fzi", 0, "_Z1fzi"),
    ("_Z1fRvKv", 0, "_Z1fRvKv"),
];

// ---------------------------------------------------------------- random trees

const FEW_NAMES: &[&str] = &["a", "b", "c"];
/// Names that printing or the grammar could take for something else.
const ODD_NAMES: &[&str] = &[
    "unsigned", "signed", "const", "volatile", "std", "_", "__", "E", "I", "N", "K", "S_", "S0_", "i", "v", "i1", "Li1E", "T0", "n5", "operator", "auto",
    "char8_t", "_Float32", "complex", "restrict", "void_", "Void", "voi", "int8", "longlong", "allocator", "basic_string", "true1", "f", "_Z1fv", "x0123456789",
];
const VALUES: &[&str] = &["0", "1", "2", "9", "10", "n1", "n2", "n10", "18446744073709551616"];

/// Makes trees in which much occurs more than once.
pub struct Maker {
    pub rng: Rng,
    /// Types of the tree that is being made, to be used again.
    pool: Vec<Rc<Tree>>,
    /// How much more may be made.
    left: i32,
}

impl Maker {
    pub fn new(seed: u64) -> Maker {
        Maker { rng: Rng::new(seed), pool: vec![], left: 0 }
    }

    pub fn encoding(&mut self) -> Encoding {
        self.pool.clear();
        self.left = self.rng.pick(&[2, 4, 4, 6, 6, 8, 8, 12, 16, 24, 40, 80]);
        let params = self.rng.pick(&[0, 1, 1, 2, 2, 3, 3, 4, 5, 8, 20]);
        self.made(params, 4)
    }

    /// A tree near the limits: large, deep, with many arguments or with many entries.
    pub fn large(&mut self) -> Encoding {
        self.pool.clear();
        match self.rng.below(5) {
            0 | 1 => {
                self.left = 100 + self.rng.below(900) as i32;
                let (params, depth) = (self.rng.below(150), 3 + self.rng.below(8));
                self.made(params, depth)
            }
            2 => self.deep(),
            3 => self.wide(),
            _ => {
                let size = 20 + self.rng.below(1020);
                crowd(&mut self.rng, size)
            }
        }
    }

    fn made(&mut self, params: usize, depth: usize) -> Encoding {
        let name = if self.rng.chance(600) { vec![self.name()] } else { self.function_name() };
        let params: Vec<_> = (0..params).map(|_| self.ty(depth)).collect();
        let constant = name.len() > 1 && !params.is_empty() && self.rng.chance(400);
        Encoding { name, constant, params }
    }

    /// Types inside one another, about as deep as the reading may go, and some of them once more.
    fn deep(&mut self) -> Encoding {
        let mut chain = vec![Rc::new(Tree::Letter(b'i'))];
        let mut opened = 1;
        let most = 88 + self.rng.below(12);
        while opened < most {
            let inner = chain.last().unwrap().clone();
            let wrap = self.rng.pick(WRAPS);
            if self.rng.chance(700) && !barred(wrap, &inner) {
                chain.push(Rc::new(Tree::Wrap(wrap, inner)));
                opened += 1;
            } else {
                let mut steps = if self.rng.chance(500) { vec![] } else { vec![self.name()] };
                steps.extend([self.name(), Step::Args(Rc::new(vec![Argument::Type(inner)]))]);
                chain.push(class(&steps));
                opened += 2;
            }
        }
        let mut params = vec![chain.last().unwrap().clone()];
        for _ in 0..self.rng.below(4) {
            params.insert(self.rng.below(params.len() + 1), chain[self.rng.below(chain.len())].clone());
        }
        Encoding { name: vec![self.name()], constant: false, params }
    }

    /// Long lists of arguments, about 1,024 arguments in all.
    fn wide(&mut self) -> Encoding {
        let mut params = vec![];
        let mut left = 900 + self.rng.below(250);
        while left > 0 {
            let length = (1 + self.rng.pick(&[0, 1, 5, 200, 500])).min(left);
            left -= length;
            let mut list: Vec<_> = (0..length).map(|_| Argument::Type(Rc::new(Tree::Letter(b'i')))).collect();
            if !self.pool.is_empty() && self.rng.chance(300) {
                list[0] = Argument::Type(self.pool[self.rng.below(self.pool.len())].clone());
            }
            let mut steps = if self.rng.chance(400) { vec![self.name()] } else { vec![] };
            steps.extend([self.name(), Step::Args(Rc::new(list))]);
            self.pool.push(class(&steps));
            params.push(class(&steps));
            if self.rng.chance(300) {
                params.push(self.pool[self.rng.below(self.pool.len())].clone());
            }
        }
        Encoding { name: vec![self.name()], constant: false, params }
    }

    fn function_name(&mut self) -> Vec<Step> {
        let mut steps = vec![self.name()];
        self.grow(&mut steps, 3);
        steps.push(self.name());
        steps
    }

    fn name(&mut self) -> Step {
        let word = match self.rng.below(100) {
            0..=84 => self.rng.pick(FEW_NAMES).to_string(),
            85..=97 => self.rng.pick(ODD_NAMES).to_string(),
            98 => "x".repeat(8 + self.rng.below(4)),
            _ => "y".repeat(98 + self.rng.below(4)),
        };
        Step::Name(word.into())
    }

    /// Puts arguments and parts behind a class.
    fn grow(&mut self, steps: &mut Vec<Step>, depth: usize) {
        loop {
            if ends_bare(steps) && self.left > 0 && depth > 0 && self.rng.chance(350) {
                steps.push(self.args(depth));
            }
            if !self.rng.chance(300) {
                return;
            }
            steps.push(self.name());
        }
    }

    fn args(&mut self, depth: usize) -> Step {
        let most = self.rng.pick(&[1, 1, 1, 2, 2, 3]);
        let list = (0..most).map(|_| if self.rng.chance(200) { self.literal() } else { Argument::Type(self.ty(depth - 1)) });
        Step::Args(Rc::new(list.collect()))
    }

    fn literal(&mut self) -> Argument {
        loop {
            let (kind, value) = (self.rng.pick(LITERALS), self.rng.pick(VALUES));
            if value_fits(kind, value) {
                return Argument::Literal(kind, value.into());
            }
        }
    }

    fn ty(&mut self, depth: usize) -> Rc<Tree> {
        self.left -= 1;
        if !self.pool.is_empty() && self.rng.chance(300) {
            let at = self.rng.below(self.pool.len());
            return self.pool[at].clone();
        }
        if depth == 0 || self.left <= 0 {
            let letter = if self.rng.chance(700) { self.rng.pick(b"icv") } else { self.rng.pick(LETTERS) };
            return Rc::new(Tree::Letter(letter));
        }
        let tree = match self.rng.below(10) {
            0 | 1 => Rc::new(Tree::Letter(self.rng.pick(LETTERS))),
            2..=4 => self.wrapped(depth),
            _ => self.class(depth),
        };
        self.pool.push(tree.clone());
        tree
    }

    fn wrapped(&mut self, depth: usize) -> Rc<Tree> {
        let inner = self.ty(depth - 1);
        loop {
            let wrap = self.rng.pick(WRAPS);
            if !barred(wrap, &inner) {
                return Rc::new(Tree::Wrap(wrap, inner));
            }
        }
    }

    fn class(&mut self, depth: usize) -> Rc<Tree> {
        let mut steps = self.begun();
        self.grow(&mut steps, depth);
        class(&steps)
    }

    /// A new name, or leading steps of a class that is there.
    fn begun(&mut self) -> Vec<Step> {
        if !self.pool.is_empty() && self.rng.chance(500) {
            let at = self.rng.below(self.pool.len());
            if let Tree::Class(steps) = &*self.pool[at].clone() {
                let mut begun = steps[..1 + self.rng.below(steps.len())].to_vec();
                if self.rng.chance(300) {
                    begun.push(self.name());
                }
                return begun;
            }
        }
        vec![self.name()]
    }
}

/// A tree that differs in one place, or one that only looks different.
pub fn altered(of: &Encoding, rng: &mut Rng) -> Encoding {
    let mut out = of.clone();
    let params = out.params.len();
    match rng.below(6) {
        0 if params > 1 => out.params.swap(0, rng.below(params)),
        1 if params > 0 => {
            let at = rng.below(params);
            let again = out.params[rng.below(params)].clone();
            out.params.insert(at, again);
        }
        2 if params > 0 => {
            let at = rng.below(params);
            let wrap = rng.pick(WRAPS);
            if !barred(wrap, &out.params[at]) {
                out.params[at] = Rc::new(Tree::Wrap(wrap, out.params[at].clone()));
            }
        }
        3 if out.name.len() > 1 && params > 0 => out.constant = !out.constant,
        4 if params > 0 => {
            let at = rng.below(params);
            if let Tree::Wrap(_, inner) = &*out.params[at].clone() {
                out.params[at] = inner.clone();
            }
        }
        _ => out.params.push(Rc::new(Tree::Letter(rng.pick(b"iv")))),
    }
    if out.params.is_empty() {
        out.constant = false;
    }
    out
}

// ---------------------------------------------------------------- damage

const CODES: &[u8] = b"00112233456789abcfEEEIIINNNPPROKKVSSS__LLbijlmnvzT.BJXFMt";

/// One byte changed, removed or put in. A line feed would be two symbols.
pub fn damaged(symbol: &[u8], rng: &mut Rng) -> Vec<u8> {
    let mut out = symbol.to_vec();
    let byte = match rng.below(40) {
        0 => rng.next() as u8,
        _ => rng.pick(CODES),
    };
    let byte = if byte == b'\n' { b'!' } else { byte };
    let at = rng.below(out.len());
    match rng.below(3) {
        0 => out[at] = byte,
        1 => {
            out.remove(at);
        }
        _ => out.insert(at + rng.below(2), byte),
    }
    out
}

// ---------------------------------------------------------------- all short symbols

use symbols::Short;

pub const SHORT: &[Short] = &[
    Short { front: "_Z", alphabet: "1NKEaIiS_0P", end: "", most: 6 },
    Short { front: "_Z1f", alphabet: "1aNEIiS_0PRO", end: "", most: 5 },
    Short { front: "_Z1f", alphabet: "PROKVi1aS_", end: "", most: 6 },
    Short { front: "_Z1f", alphabet: "1a 1b N E I i P K S_ S0_ S1_", end: "", most: 6 },
    Short { front: "_Z1f", alphabet: "N1a 1b E S_ S0_ S1_ IiE I P", end: "", most: 7 },
    Short { front: "_ZN1a", alphabet: "1b 1f E S_ S0_ IiE I N v", end: "", most: 7 },
    Short { front: "_ZN1a1bE", alphabet: "1a 1b E S_ S0_ N IiE P", end: "", most: 7 },
    Short { front: "_Z1f1aIiE", alphabet: "1a S_ S0_ S1_ IiE IcE N 1b E", end: "", most: 6 },
    Short { front: "_ZNK1a1bE", alphabet: "v z i 1a S_ S0_ P R", end: "", most: 5 },
    Short { front: "_Z1f1aI", alphabet: "Lb Li Lj n 0 1 E i S_", end: "", most: 6 },
    Short { front: "_Z", alphabet: "1a 1b N K V E i v S_ 4void 3int", end: "", most: 5 },
    Short { front: "_Z1fN1a1bE", alphabet: "NS_ NS0_ 1b IiE E S1_ 1c S2_", end: "", most: 6 },
];

/// At most `count` of them, evenly spread, from a place that the seed gives.
pub fn short(seed: u64, count: usize) -> impl Iterator<Item = Vec<u8>> {
    let total: usize = SHORT.iter().map(|s| s.total()).sum();
    let step = total.div_ceil(count.max(1));
    let from = Rng::new(seed).below(step);
    SHORT.iter().flat_map(|s| s.all()).skip(from).step_by(step)
}

// ---------------------------------------------------------------- about the limits

fn times(word: &str, n: usize) -> String {
    word.repeat(n)
}

fn long_class(n: usize) -> String {
    source(&times("x", n))
}

/// About 1,024 arguments as written, in one list, in several, in lists inside lists, written again or referred to.
pub fn argument_counts(totals: std::ops::RangeInclusive<usize>) -> Vec<String> {
    let mut out = vec![];
    for n in totals {
        let i = |k: usize| times("i", k);
        out.push(format!("_Z1f1aI{}E", i(n)));
        out.push(format!("_Z1f1aI{}ES0_", i(n)));
        out.push(format!("_ZN1aI{}E1fEv", i(n)));
        out.push(format!("_ZN1aI{}E1bI{}E1fEv", i(n - 500), i(500)));
        out.push(format!("_Z1f1aI{}E1bI{}E", i(512), i(n - 512)));
        out.push(format!("_Z1f1aI{}E1aI{}E", i(512), i(n - 512)));
        out.push(format!("_Z1f1aI{}ES_I{}E", i(512), i(n - 512)));
        out.push(format!("_Z1f1aI{}1bI{}EE", i(512), i(n - 513)));
        out.push(format!("_Z1fN1a1bI{}EEN1c1dI{}EE", i(n - 500), i(500)));
        out.push(format!("_Z1fN1a1bI{}EENS_1bI{}EE", i(n / 2), i(n - n / 2)));
        out.push(format!("_Z1fN1a1bI{}EEN1a1bI{}EE", i(512), i(n - 512)));
        // the nested template written again empties the Rust's list; the reference in the normal symbol doesn't
        out.push(format!("_Z1fN1b1cIiEE1aI{}EN1b1cIiEE1dI{}E", i(512), i(n - 514)));
        out.push(format!("_Z1fN1b1cIiEE1aI{}EN1b1cIiEE1dI{}E", i(512), i(n - 513)));
        out.push(format!("_Z1fN1b1cIiEE1aI{}ES2_1dI{}E", i(512), i(n - 513)));
        out.push(format!("_Z1f{}", times("1aIiE", n.min(818))));
        out.push(format!("_Z1f1aI{}E", times("Li1E", n)));
        out.push(format!("_Z1f1aI{}{}E", times("Lb1E", 9), i(n - 9)));
    }
    out
}

/// About 96 open readings.
pub fn depths(totals: std::ops::RangeInclusive<usize>) -> Vec<String> {
    let mut out = vec![];
    for n in totals {
        let pk = |k: usize| (0..k).map(|i| if i % 2 == 0 { 'P' } else { 'K' }).collect::<String>();
        out.push(format!("_Z1f{}i", times("P", n)));
        out.push(format!("_Z1f{}1a", pk(n)));
        out.push(format!("_Z1f{}1a", times("1bI", n / 2) + &times("P", n % 2)) + &times("E", n / 2));
        out.push(format!("_Z1f{}i{}", times("N1b1cI", n / 2), times("EE", n / 2)));
        out.push(format!("_ZN{}i{}1fEv", times("1aI", n / 2), times("E", n / 2)));
        // below a reference nothing is open
        out.push(format!("_Z1f{}i{}{}", times("P", 90), times("P", n), entry(89)));
        out.push(format!("_Z1f{}i{}{}", times("P", 90), times("P", n - 90), entry(89)));
        out.push(format!("_Z1f{}i{}i", times("P", 90), times("P", n)));
        out.push(format!("_Z1f{}1aIiE{}", times("P", n - 1), times("P", n)) + &entry(1));
        out.push(format!("_Z1f{}1aILi1EE", times("P", n - 2)));
        out.push(format!("_Z1f{}1aILi1EE", times("P", n - 1)));
    }
    out
}

fn two_letters(i: usize) -> String {
    let letter = |i: usize| (b'a' + (i % 26) as u8) as char;
    if i < 676 { format!("2{}{}", letter(i), letter(i / 26)) } else { format!("2{}{}", letter(i).to_ascii_uppercase(), letter((i - 676) / 26)) }
}

fn classes(n: usize) -> String {
    (0..n).map(two_letters).collect()
}

/// About 1,024 entries, all different or equal, and about 32,768 bytes of them.
pub fn full_tables(entries: std::ops::RangeInclusive<usize>, bytes: std::ops::RangeInclusive<usize>) -> Vec<String> {
    let mut out = vec![];
    for n in entries {
        let all = classes(n);
        out.push(format!("_Z1f{all}"));
        out.push(format!("_Z1f{all}S_{}", entry(n - 1)));
        out.push(format!("_Z1f{all}{}", entry(n)));
        out.push(format!("_Z1f{}", times("1a", n)));
        out.push(format!("_Z1f{}{}", times("1a", n), entry(n - 1)));
        out.push(format!("_Z1f{}P{}", times("1a", n - 1), entry(n - 2)));
        out.push(format!("_Z1f{}", times("P1a", n / 2) + &times("1b", n % 2)));
        out.push(format!("_ZN1n1fE{}", times("NS_1aE1b", (n - 1) / 2)));
        // the newest entry is the class itself: it is not entered again
        out.push(format!("_Z1fN1n1aE{}", times("NS_1aE", n.min(660))));
        out.push(format!("_Z1f{}", (0..n / 2).map(|i| "P".to_string() + &two_letters(i)).collect::<String>()));
    }
    for total in bytes {
        // A, A*, A**, .. and a class in front that makes up the sum
        out.push(format!("_Z1f{}{}{}", long_class(total - 10 * 3250 - 45), times("P", 9), long_class(3250)));
        out.push(format!("_Z1f{}{}{}S_", long_class(total - 10 * 3250 - 45), times("P", 9), long_class(3250)));
        out.push(format!("_Z1f{}{}{}", long_class(total - 10 * 3240 - 6 * 5 - 10), "PKPKPKPKP", long_class(3240)));
        // the prefixes A, A::b, A::b::b, ..
        out.push(format!("_Z1fN{}{}E{}", long_class(3250), times("1b", 9), long_class(total - 10 * 3250 - 3 * 45)));
        out.push(format!("_ZN{}{}1cE{}", long_class(3250), times("1b", 9), long_class(total - 10 * 3250 - 3 * 45)));
    }
    out
}

/// A reference to each entry of a full table, 200 to a symbol; and 512 classes that all stand a second time in full.
pub fn references() -> Vec<String> {
    let places: Vec<usize> = (0..1024).collect();
    let given = places.chunks(200).map(|some| format!("_Z1f{}{}", classes(1024), some.iter().map(|i| entry(*i)).collect::<String>()));
    given.chain([format!("_Z1f{}{}", classes(512), classes(512))]).collect()
}

/// Texts of about 16,384 bytes and arguments of about 32,768.
pub fn long_texts(texts: std::ops::RangeInclusive<usize>, arguments: std::ops::RangeInclusive<usize>) -> Vec<String> {
    let mut out = vec![];
    for total in texts {
        let a = long_class(3260);
        // f(A, A, A, A, B)
        let b = |fixed: usize| long_class(total - fixed - 5 * 3262);
        out.push(format!("_Z1f{a}{}{}", times("S_", 4), b(3)));
        out.push(format!("_Z1f1cI{a}{}{}E", times("S0_", 4), b(6)));
        out.push(format!("_ZN{a}1gE{}{}", times("S_", 4), b(4) ));
        out.push(format!("_ZNK1n1gE{a}{}{}", times("S0_", 4), b(12)));
        out.push(format!("_Z1fPPPP{a}{}{}", times("S_", 4), b(7)));
    }
    for total in arguments {
        out.push(format!("_Z1f1aI{}{}Li{}EE", long_class(3600), times("S0_", 8), times("7", total - 9 * 3600)));
        out.push(format!("_Z1f1aI{}{}E1bI{}Li{}EE", long_class(3600), times("S0_", 3), times("S0_", 5), times("7", total - 9 * 3600)));
        out.push(format!("_Z1fN1a1bI{}{}EEN1c1dI{}Li{}EEE", long_class(3600), times("S1_", 3), times("S1_", 5), times("7", total - 9 * 3600)));
    }
    out
}

/// So many words of the alphabet that have the same sum in 14 bits, each byte counted 9 times as much as the one behind it. Equal classes and literals
/// may be sought by such a sum, and others be met on the way.
fn alike(alphabet: &[u8], length: usize, count: usize) -> Vec<String> {
    let base = alphabet.len();
    let front = |i: usize| (0..length - 1).rev().map(move |k| alphabet[i / base.pow(k as u32) % base]);
    let last = |i: usize| front(i).fold(0, |sum, byte| 9 * (sum + byte as usize)).wrapping_neg() % 16384;
    let fitting = (0..base.pow(length as u32 - 1)).filter(|i| u8::try_from(last(*i)).is_ok_and(|byte| alphabet.contains(&byte)));
    fitting.take(count).map(|i| front(i).chain([last(i) as u8]).map(char::from).collect()).collect()
}

/// Classes and literals that only their words tell apart, in full and once more.
pub fn equal_sums() -> Vec<String> {
    let (names, values) = (alike(b"abcdefghijklmnopqrstuvwxyz", 5, 250), alike(b"123456789", 8, 400));
    let mut out = vec![];
    for n in [2, 3, 40, 250] {
        let shape = |before: &str, after: &str| names[..n].iter().map(|name| format!("{before}{}{after}", source(name))).collect::<Vec<_>>();
        for (before, after) in [("", ""), ("P", ""), ("N1a", "E"), ("", "IiE"), ("N1a", "IiEE"), ("RK", "")] {
            let mut all = shape(before, after);
            let once = all.concat();
            all.reverse();
            out.extend([format!("_Z1f{once}{once}"), format!("_Z1f{once}{}", all.concat()), format!("_ZN1a1fE{once}")]);
        }
    }
    for n in [2, 3, 40, 400] {
        let list: String = values[..n].iter().map(|value| format!("Li{value}E")).collect();
        out.extend([format!("_Z1f1aI{list}E1aI{list}E"), format!("_Z1f1aI{list}E1bI{list}ES_I{list}E")]);
    }
    out
}

/// A lone function name so long that `fixed` bytes and the name are `total`. Lengths that no name makes are passed over.
fn function_name_for(total: usize, fixed: usize) -> Option<String> {
    let room = total.checked_sub(fixed)?;
    let name = (1..=5).filter_map(|digits| room.checked_sub(digits)).find(|n| *n > 0 && n.to_string().len() + n == room)?;
    Some(source(&times("f", name)))
}

/// Symbols whose normal symbol, or which themselves, have a length of `total`: the function's name makes it up.
pub fn of_length(made: &Encoding, rng: &mut Rng, total: usize) -> Vec<String> {
    let mut encoding = made.clone();
    encoding.name = vec![Step::Name("f".into())];
    encoding.constant = false;
    [0, 500, 1000].into_iter().flat_map(|of_thousand| of_length_by(&encoding, rng, total, of_thousand)).collect()
}

/// The same of a tree named f, with references by chance.
fn of_length_by(named_f: &Encoding, rng: &mut Rng, total: usize, of_thousand: usize) -> Vec<String> {
    let spelling = spelled(named_f, rng, of_thousand).0;
    let rest = spelling.strip_prefix("_Z1f").unwrap();
    let fixed = [normal(named_f, Mistake::No).len() - 2, spelling.len() - 2];
    fixed.into_iter().filter_map(|fixed| function_name_for(total, fixed)).map(|name| format!("_Z{name}{rest}")).collect()
}

/// Trees of many short classes, whose normal symbol is longer than the spelling in full.
pub fn crowd(rng: &mut Rng, size: usize) -> Encoding {
    let names = rng.pick(&[3, 20, 40, 52]);
    let one = |rng: &mut Rng| {
        let i = rng.below(names);
        let letter = (if i < 26 { b'a' + i as u8 } else { b'A' + i as u8 - 26 }) as char;
        class(&[Step::Name(letter.to_string().into())])
    };
    let params = (0..size).map(|_| match rng.below(12) {
        0 => Rc::new(Tree::Letter(rng.pick(LETTERS))),
        1 => Rc::new(Tree::Wrap(b'P', one(rng))),
        _ => one(rng),
    });
    Encoding { name: vec![Step::Name("f".into())], constant: false, params: params.collect() }
}

/// A tree of classes of one letter alone, 53 of them and then so many of those from entry 37 on. A reference to one of these has four bytes and its text
/// three: of the trees whose normal symbol is about as long as a text may be, only such have a name.
pub fn long_crowd(rng: &mut Rng, size: usize) -> Encoding {
    let one = |i: usize| {
        let letter = [&b"_"[..], &(b'a'..=b'z').collect::<Vec<u8>>(), &(b'A'..=b'Z').collect::<Vec<u8>>()].concat()[i];
        class(&[Step::Name((letter as char).to_string().into())])
    };
    let params = (0..53).chain((0..size).map(|_| 37 + rng.below(16)).collect::<Vec<_>>()).map(one);
    Encoding { name: vec![Step::Name("f".into())], constant: false, params: params.collect() }
}

/// Symbols of such a tree whose normal symbol, or which themselves, have these lengths, with about so many of the classes in full. In full a class
/// has two bytes fewer than its reference, and makes an entry: a normal symbol can be 1,972 bytes longer than what it came from.
pub fn long_lengths(rng: &mut Rng, size: usize, in_full: usize, totals: std::ops::RangeInclusive<usize>) -> Vec<String> {
    let tree = long_crowd(rng, size);
    let of_thousand = 1000 - in_full.min(size) * 1000 / size;
    totals.flat_map(|total| of_length_by(&tree, rng, total, of_thousand)).collect()
}
