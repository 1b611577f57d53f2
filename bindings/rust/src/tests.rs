use super::*;

fn named(symbol: &str) -> Result<String, Refusal> {
    Demangler::new().name(symbol.as_bytes()).map(text_of)
}

fn text_of(bytes: &[u8]) -> String {
    String::from_utf8(bytes.to_vec()).unwrap()
}

fn times(word: &str, n: usize) -> String {
    word.repeat(n)
}

/// A source name of n bytes.
fn long_word(n: usize) -> String {
    format!("{n}{}", times("a", n))
}

/// The name of `_ZNK1a1bEi` is 15 bytes long.
const METHOD: &[u8] = b"_ZNK1a1bEi";

fn method_with(out: usize, text: usize, store: usize, ends: usize) -> (Result<usize, Refusal>, Vec<u8>) {
    let mut out = vec![7; out];
    let work = Work { text: &mut vec![7; text], store: &mut vec![7; store], ends: &mut vec![7; ends] };
    let result = name_into(METHOD, &mut out, work);
    (result, out)
}

#[test]
fn names_of_document_01() {
    for (symbol, name) in [
        ("_Z1fv", "f()"),
        ("_Z1fv.isra.0", "f(void)"),
        ("_Z1f", "f"),
        ("_ZNK1a1bEi", "a::b(int) const"),
        ("_ZN1aD0Ev", "a::~a()"),
        ("_ZplRK1aS1_", "operator+(a const&, a const&)"),
        ("_Z1fI1aIiEEvT_", "void f<a<int> >(int)"),
        ("_Z1fT_", "f(T0)"),
        ("_Z1aB1bB1cv", "a[abi:b[abi:c]]()"),
        ("_ZZ1fvEs", "f(void)::string literal"),
        ("_Z1fPFvPFicEE", "f(void (*)(int (**)(char)))"),
        ("_ZTV1a", "vtable for a"),
        ("_ZGV1f!!", "guard variable for f"),
        ("_Z1fRRi", "f(int&&)"),
        ("_Z1fOi", "f(int&&)"),
    ] {
        assert_eq!(named(symbol), Ok(name.to_string()), "{symbol}");
    }
    let stars = format!("f(int{})", times("*", 95));
    assert_eq!(named(&format!("_Z1f{}i", times("P", 95))), Ok(stars));
}

#[test]
fn refusals_of_document_01() {
    for (symbol, number) in [("_ZTV1a1b", 5), ("_Z1fS_", 7), ("_Z0v", 4), ("_Z2f", 4), ("", 3)] {
        assert_eq!(named(symbol).unwrap_err().number(), number, "{symbol}");
    }
    assert_eq!(named(&format!("_Z1f{}i", times("P", 96))), Err(Refusal::TooDeep));
}

#[test]
fn limits_of_names() {
    for length in [4096, 4097, SYMBOL_BYTES - 1, SYMBOL_BYTES] {
        assert_eq!(named(&format!("_Z1fv.{}", times("!", length - 6))), Ok("f(void)".to_string()), "{length}");
    }
    assert_eq!(named(&format!("_Z1fv.{}", times("!", SYMBOL_BYTES - 5))), Err(Refusal::SymbolTooLong));
    assert_eq!(named(&format!("_Z1fv.{}\u{80}", times("!", SYMBOL_BYTES - 7))), Err(Refusal::SymbolTooLong));
    assert_eq!(named(&format!("_Z1fv.{}\u{80}", times("!", SYMBOL_BYTES - 8))), Err(Refusal::HighByte));
    assert_eq!(named(&format!("_Z1f{}", times("1a", 1024))).map(|name| name.len()), Ok(1024 * 3 + 1));
    assert_eq!(named(&format!("_Z1f{}", times("1a", 1025))), Err(Refusal::TableFull));
    assert_eq!(named(&format!("_Z1fI{}E", times("i", 1024))).map(|name| name.len()), Ok(1024 * 5 + 1));
    assert_eq!(named(&format!("_Z1fI{}E", times("i", 1025))), Err(Refusal::ArgumentsFull));
    assert_eq!(named(&format!("_Z1f{}{}", long_word(4000), times("S_", 3))).map(|name| name.len()), Ok(4 * 4002 + 1));
    assert_eq!(named(&format!("_Z1f{}{}", long_word(4000), times("S_", 4))), Err(Refusal::TextTooLong));
}

/// A name of 1 byte and 4,002 for each long word, 5 for each `i`.
fn long_name(letters: usize) -> String {
    format!("_Z1f{}{}{}", long_word(4000), times("S_", 3), times("i", letters))
}

#[test]
fn the_longest_name_fits() {
    assert_eq!(named(&long_name(75)).map(|name| name.len()), Ok(NAME_BYTES));
    assert_eq!(named(&long_name(76)), Err(Refusal::TextTooLong));
}

#[test]
fn any_bytes() {
    let mut demangler = Demangler::new();
    assert_eq!(demangler.name(b"_Z2\xc3\xa9"), Err(Refusal::HighByte));
    assert_eq!(demangler.name(b"_Z1\n"), Ok(&b"\n"[..]));
    assert_eq!(demangler.name(b"_Z1\0v"), Ok(&b"\0()"[..]));
    assert_eq!(demangler.name(b"_ZNE"), Ok(&b""[..]));
}

#[test]
fn usable_after_any_answer() {
    let mut demangler = Demangler::new();
    let before = [
        format!("_Z1f{}", times("1a", 1025)),
        format!("_Z1fI{}E", times("i", 1025)),
        format!("_Z1f{}{}", long_word(4000), times("S_", 4)),
        format!("_Z1f{}i", times("P", 96)),
        times("a", SYMBOL_BYTES + 1),
        "_Z1fS_".to_string(),
        "_ZTV1a1b".to_string(),
    ];
    for symbol in before {
        assert!(demangler.name(symbol.as_bytes()).is_err());
        assert_eq!(demangler.name(METHOD).map(text_of), Ok("a::b(int) const".to_string()));
        assert!(demangler.text.iter().chain(demangler.store.iter()).all(|byte| *byte == 0));
        assert!(demangler.numbers.iter().all(|slice| slice.iter().all(|number| *number == 0)));
    }
}

#[test]
fn a_name_as_long_as_a_symbol_may_be() {
    let symbol = format!("_Z{}", long_word(SYMBOL_BYTES - 7));
    assert_eq!(symbol.len(), SYMBOL_BYTES);
    assert_eq!(named(&symbol), Ok(times("a", SYMBOL_BYTES - 7)));
    assert_eq!(named(&format!("_Z{}", long_word(SYMBOL_BYTES - 6))), Err(Refusal::SymbolTooLong));
}

#[test]
fn outputs_of_any_length() {
    let full = (TEXT_LENGTH, STORE_LENGTH, ENDS_LENGTH);
    for length in 0..15 {
        assert_eq!(method_with(length, full.0, full.1, full.2), (Err(Refusal::OutputTooShort), vec![7; length]));
    }
    for length in 15..40 {
        let (result, out) = method_with(length, full.0, full.1, full.2);
        assert_eq!(result, Ok(15));
        assert_eq!(&out[..15], b"a::b(int) const");
        assert!(out[15..].iter().all(|byte| *byte == 7));
    }
}

#[test]
fn work_slices_of_any_length() {
    assert_eq!(method_with(20, TEXT_LENGTH + 9, STORE_LENGTH + 9, ENDS_LENGTH + 9).0, Ok(15));
    for (text, store, ends) in [(1, 0, 0), (0, 1, 0), (0, 0, 1), (TEXT_LENGTH, STORE_LENGTH, ENDS_LENGTH)] {
        let short = method_with(20, TEXT_LENGTH - text, STORE_LENGTH - store, ENDS_LENGTH - ends);
        assert_eq!(short, (Err(Refusal::WorkTooShort), vec![7; 20]));
    }
}

#[test]
fn numbers_and_messages() {
    for (i, refusal) in Refusal::ALL.into_iter().enumerate() {
        assert_eq!(usize::from(refusal.number()), i + 1);
        assert_eq!(Refusal::of(refusal.number()), Some(refusal));
        assert_eq!(refusal.to_string(), refusal.message());
        assert!(Refusal::ALL.iter().all(|other| *other == refusal || other.message() != refusal.message()));
    }
    assert_eq!(Refusal::of(0), None);
    assert_eq!(Refusal::of(15), None);
}

mod normal_symbols {
    use super::*;

    fn normal(symbol: &str) -> Result<String, Refusal> {
        Demangler::new().normal_symbol(symbol.as_bytes()).map(text_of)
    }

    #[test]
    fn of_document_01() {
        for (symbol, expected) in [
            ("_Z1fP1aPS_", "_Z1fP1aS0_"),
            ("_Z1fP1aP1a", "_Z1fP1aS0_"),
            ("_ZN1n1fEN1n1aE", "_ZN1n1fENS_1aE"),
            ("_Z1f1a1b1b", "_Z1f1a1bS0_"),
            ("_Z1f", "_Z1f"),
        ] {
            assert_eq!(normal(symbol), Ok(expected.to_string()), "{symbol}");
        }
    }

    #[test]
    fn outside_the_catalogue() {
        for symbol in ["_Z1fRRi", "__Z1fv", "_Z1fv.isra.0", "_ZplRK1aS1_", "_ZTV1a", "_Z1f4void"] {
            assert!(named(symbol).is_ok(), "{symbol}");
            assert_eq!(normal(symbol), Err(Refusal::NotInCatalogue), "{symbol}");
        }
    }

    #[test]
    fn refused_as_names_are() {
        for symbol in ["_ZTV1a1b", "_Z1fS_", "_Z0v", "_Z2f", "", "_Z1\u{80}"] {
            assert_eq!(normal(symbol), Err(named(symbol).unwrap_err()), "{symbol}");
        }
        let deep = format!("_Z1f{}i", times("P", 96));
        assert_eq!(normal(&deep), Err(Refusal::TooDeep));
    }

    /// A name of so many bytes, 53 classes, and the last of them so many times more: of these each becomes `S1F_`, longer by two bytes.
    fn growing(name: usize, more: usize) -> String {
        let classes: String = ('a'..='z').chain('A'..='Z').chain(['_']).map(|letter| format!("1{letter}")).collect();
        format!("_Z{}{classes}{}", long_word(name), times("1_", more))
    }

    #[test]
    fn limits() {
        for (name, more) in [(12387, 971), (16071, 50)] {
            let (full, over) = (growing(name, more), growing(name + 1, more));
            assert_eq!(full.len(), NORMAL_SYMBOL_BYTES - 2 * more);
            assert_eq!(normal(&full).map(|symbol| symbol.len()), Ok(NORMAL_SYMBOL_BYTES), "{name}");
            assert_eq!(normal(&over), Err(Refusal::NormalSymbolTooLong), "{name}");
            assert_eq!(named(&over).map(|name| name.len()), Ok(name + 1 + 2 + 3 * (53 + more) - 2));
        }
    }

    #[test]
    fn longer_than_4096_bytes() {
        let symbol = growing(100, 1000 - 29);
        assert_eq!(symbol.len(), 2 + 103 + 2 * 1024);
        assert_eq!(normal(&symbol).map(|symbol| symbol.len()), Ok(2 + 103 + 2 * 53 + 4 * 971));
        let full = format!("_Z{}", long_word(SYMBOL_BYTES - 7));
        assert_eq!(normal(&full), Ok(full.clone()));
        assert_eq!(normal(&format!("_Z{}", long_word(SYMBOL_BYTES - 6))), Err(Refusal::SymbolTooLong));
    }

    #[test]
    fn a_normal_symbol_is_its_own() {
        let mut demangler = Demangler::new();
        let normal = demangler.normal_symbol(growing(12387, 971).as_bytes()).unwrap().to_vec();
        assert_eq!(demangler.normal_symbol(&normal), Ok(&normal[..]));
        let name = demangler.name(&normal).unwrap().to_vec();
        assert_eq!(demangler.name(growing(12387, 971).as_bytes()), Ok(&name[..]));
    }

    #[test]
    fn names_after_normal_symbols() {
        let mut demangler = Demangler::new();
        assert_eq!(demangler.normal_symbol(b"_Z1fP1aP1a"), Ok(&b"_Z1fP1aS0_"[..]));
        assert_eq!(demangler.name(b"_Z1fP1aP1a"), Ok(&b"f(a*, a*)"[..]));
        assert_eq!(demangler.normal_symbol(b"_Z1fRRi"), Err(Refusal::NotInCatalogue));
        assert_eq!(demangler.normal_symbol(b"_Z1fv"), Ok(&b"_Z1fv"[..]));
    }

    /// An output of so many bytes and slices of numbers of so many.
    fn run(out: usize, numbers: [usize; 4]) -> (Result<usize, Refusal>, Vec<u8>) {
        let mut out = vec![7; out];
        let mut numbers = numbers.map(|length| vec![7; length]);
        let numbers = numbers.each_mut().map(|slice| &mut slice[..]);
        let work = NormalWork { text: &mut vec![7; TEXT_LENGTH], store: &mut vec![7; STORE_LENGTH], numbers };
        (normal_symbol_into(b"_Z1fP1aP1a", &mut out, work), out)
    }

    const FULL: [usize; 4] = [NORMALIZE_NUMBERS_LENGTH; 4];

    #[test]
    fn outputs_and_work_slices() {
        assert_eq!(run(10, FULL), (Ok(10), b"_Z1fP1aS0_".to_vec()));
        assert_eq!(run(9, FULL), (Err(Refusal::OutputTooShort), vec![7; 9]));
        for i in 0..4 {
            let with = |length: usize| std::array::from_fn(|k| if k == i { length } else { FULL[k] });
            assert_eq!(run(10, with(NORMALIZE_NUMBERS_LENGTH + 1)).0, Ok(10), "{i}");
            for length in [NORMALIZE_NUMBERS_LENGTH - 1, 0] {
                assert_eq!(run(10, with(length)), (Err(Refusal::WorkTooShort), vec![7; 10]), "{i}, {length}");
            }
        }
    }

    /// What was enough for 4,096 bytes.
    #[test]
    fn the_work_slices_of_shorter_symbols() {
        for numbers in [[24576, 0, 0, 0], [24576; 4]] {
            assert_eq!(run(10, numbers), (Err(Refusal::WorkTooShort), vec![7; 10]));
        }
    }
}

#[test]
fn listings() {
    let input = b"_Z1fv\n_Z0v\n\n_Z1fP1aPS_\n_Z1f";
    let mut out = vec![7; LINE_BYTES];
    let names = b"0,3,f()\n4,0,\n3,0,\n0,9,f(a*, a*)\n";
    assert_eq!(Demangler::new().list_names(input, &mut out), Ok(Listed { taken: 23, written: names.len() }));
    assert_eq!(&out[..names.len()], names);
    assert!(out[names.len()..].iter().all(|&x| x == 7));
    let symbols = b"0,5,_Z1fv\n4,0,\n3,0,\n0,10,_Z1fP1aS0_\n";
    assert_eq!(Demangler::new().list_normal_symbols(input, &mut out), Ok(Listed { taken: 23, written: symbols.len() }));
    assert_eq!(&out[..symbols.len()], symbols);
}

#[test]
fn listing_with_little_output() {
    let mut demangler = Demangler::new();
    let mut out = [7; 12];
    assert_eq!(demangler.list_names(b"_Z1fv\n_Z0v\n", &mut out), Ok(Listed { taken: 6, written: 8 }));
    assert_eq!(&out, b"0,3,f()\n\x07\x07\x07\x07");
    assert_eq!(demangler.list_names(b"_Z1fv\n", &mut out[..7]), Err(Refusal::OutputTooShort));
    assert_eq!(demangler.list_names(b"_Z1fv", &mut out), Ok(Listed { taken: 0, written: 0 }));
    assert_eq!(demangler.list_names(b"_Z1fv", &mut []), Ok(Listed { taken: 0, written: 0 }));
}

#[test]
fn listing_with_little_work() {
    let mut demangler = Demangler::new();
    let (name, Work { text, store, ends }) = demangler.lent();
    let work = Work { text, store, ends: &mut ends[1..] };
    assert_eq!(list_names_into(b"_Z1fv\n", &mut [7; 12], name, work), Err(Refusal::WorkTooShort));
    for i in 0..4 {
        let (name, NormalWork { text, store, mut numbers }) = demangler.lent_for_normal_symbols();
        numbers[i] = &mut std::mem::take(&mut numbers[i])[1..];
        let work = NormalWork { text, store, numbers };
        assert_eq!(list_normal_symbols_into(b"_Z1fv\n", &mut [7; 12], name, work), Err(Refusal::WorkTooShort), "{i}");
    }
}

#[test]
fn listing_leaves_the_memory_zero() {
    let mut demangler = Demangler::new();
    demangler.out.fill(7);
    demangler.text.fill(7);
    demangler.store.fill(7);
    demangler.numbers.iter_mut().for_each(|slice| slice.fill(7));
    let mut out = vec![0; 3 * LINE_BYTES];
    let listed = demangler.list_normal_symbols(b"_Z1fP1aPS_\n_Z1f1aIiE1b\n_ZN1a1bEi\n", &mut out);
    assert_eq!(listed.map(|l| l.taken), Ok(33));
    assert!(demangler.out.iter().chain(demangler.text.iter()).chain(demangler.store.iter()).all(|&x| x == 0));
    assert!(demangler.numbers.iter().all(|slice| slice.iter().all(|&x| x == 0)));
}
