//! The header, the declarations for Rust, the source of the library and the symbols of the archive say the same functions,
//! with the same parameters in the same order.

use sidebyside::root;
use std::collections::BTreeMap;
use std::process::Command;

/// What a parameter is for the machine.
#[derive(Clone, Copy, Debug, PartialEq, Eq)]
enum Passed {
    Bytes {
        mutable: bool,
    },
    Unit {
        mutable: bool,
    },
    Length,
    /// by value
    Number {
        bits: u8,
    },
}

#[derive(Clone, Debug, PartialEq, Eq)]
struct Parameter {
    name: String,
    passed: Passed,
}

#[derive(Clone, Debug, PartialEq, Eq)]
struct Signature {
    /// of the number that is returned
    bits: u8,
    parameters: Vec<Parameter>,
}

type Functions = BTreeMap<String, Signature>;

fn parameter(name: &str, passed: Passed) -> Parameter {
    Parameter { name: name.to_string(), passed }
}

/// A text without its comments, and with one space for all white space.
fn plain(text: &str, comments: &[(&str, &str)]) -> String {
    let mut text = text.to_string();
    for (open, close) in comments {
        while let Some(start) = text.find(open) {
            let length = text[start..].find(close).expect("a comment is closed") + close.len();
            text.replace_range(start..start + length, " ");
        }
    }
    text.split_whitespace().collect::<Vec<_>>().join(" ")
}

fn read(file: &str) -> String {
    std::fs::read_to_string(root().join(file)).unwrap_or_else(|error| panic!("{file}: {error}"))
}

/// What a form says before and behind a name that it declares: the bits of what is returned, where that is a number. Nothing where the
/// name stands and is not declared.
type Bits = fn(&str, &str) -> Option<Option<u8>>;

/// Each function that is declared, with the bits of what it returns and with its parameters.
fn declared(text: &str, bits: Bits, parameters: fn(&str) -> Vec<Parameter>) -> Functions {
    let mut functions = Functions::new();
    for (at, _) in text.match_indices("circmon_") {
        let (before, rest) = text.split_at(at);
        let Some((name, rest)) = rest.split_once('(') else { continue };
        if !name.chars().all(|letter| letter.is_ascii_alphanumeric() || letter == '_') {
            continue;
        }
        let (list, behind) = rest.split_once(')').expect("the end of the parameters");
        let Some(bits) = bits(before, behind) else { continue };
        let bits = bits.unwrap_or_else(|| panic!("{name} returns no number of so many bits: {behind:.20}"));
        let parameters = list.split(',').map(str::trim).filter(|it| !it.is_empty()).flat_map(parameters).collect();
        let twice = functions.insert(name.to_string(), Signature { bits, parameters });
        assert!(twice.is_none(), "{name} stands twice");
    }
    functions
}

/// `uint8_t circmon_read(..);`
fn bits_in_c(before: &str, behind: &str) -> Option<Option<u8>> {
    let bits = [("uint8_t ", 8), ("uint64_t ", 64)].into_iter().find(|(result, _)| before.ends_with(result))?.1;
    Some(behind.starts_with(';').then_some(bits))
}

/// `pub fn circmon_read(..) -> u8;`
fn bits_in_rust(before: &str, behind: &str) -> Option<Option<u8>> {
    before.ends_with("pub fn ").then(|| returned(behind, ';'))
}

/// `#[unsafe(no_mangle)] pub extern "C" fn circmon_read(..) -> u8 `
fn bits_in_rattle(before: &str, behind: &str) -> Option<Option<u8>> {
    before.ends_with(EXPORTED).then(|| returned(behind, ' '))
}

const EXPORTED: &str = "#[unsafe(no_mangle)] pub extern \"C\" fn ";

/// ` -> u8`, and then this character.
fn returned(behind: &str, end: char) -> Option<u8> {
    behind.strip_prefix(" -> u")?.split_once(end)?.0.parse().ok()
}

/// `const uint8_t *image`
fn in_c(parameter: &str) -> Vec<Parameter> {
    let (kind, name) = parameter.rsplit_once(' ').expect("a type and a name");
    let passed = match (kind, name.starts_with('*')) {
        ("circmon_size", false) => Passed::Length,
        ("uint8_t", false) => Passed::Number { bits: 8 },
        ("uint16_t", false) => Passed::Number { bits: 16 },
        ("uint32_t", false) => Passed::Number { bits: 32 },
        ("uint8_t", true) => Passed::Bytes { mutable: true },
        ("const uint8_t", true) => Passed::Bytes { mutable: false },
        ("circmon_unit", true) => Passed::Unit { mutable: true },
        ("const circmon_unit", true) => Passed::Unit { mutable: false },
        _ => panic!("include/circmon.h: {parameter}"),
    };
    vec![self::parameter(name.trim_start_matches('*'), passed)]
}

/// `image: *const u8`
fn in_rust(parameter: &str) -> Vec<Parameter> {
    let (name, kind) = parameter.split_once(": ").expect("a name and a type");
    let passed = match kind {
        "u64" => Passed::Length,
        "u8" => Passed::Number { bits: 8 },
        "u16" => Passed::Number { bits: 16 },
        "u32" => Passed::Number { bits: 32 },
        "*mut u8" => Passed::Bytes { mutable: true },
        "*const u8" => Passed::Bytes { mutable: false },
        "*mut Rows" => Passed::Unit { mutable: true },
        "*const Rows" => Passed::Unit { mutable: false },
        _ => panic!("host/circmon/src/raw.rs: {parameter}"),
    };
    vec![self::parameter(name, passed)]
}

/// `image: &mut [u8]`: a slice passes as a pointer and a length, a reference to an array as one pointer, a number as itself.
fn in_rattle(parameter: &str) -> Vec<Parameter> {
    let (name, kind) = parameter.split_once(": ").expect("a name and a type");
    if let Some(bits) = kind.strip_prefix('u') {
        return vec![self::parameter(name, Passed::Number { bits: bits.parse().expect("a width") })];
    }
    let (mutable, kind) = kind.strip_prefix("&mut ").map_or((false, kind.strip_prefix('&')), |it| (true, Some(it)));
    match kind {
        Some("[u8]") => vec![
            self::parameter(name, Passed::Bytes { mutable }),
            self::parameter(&format!("{name}_len"), Passed::Length),
        ],
        Some("Unit") => vec![self::parameter(name, Passed::Unit { mutable })],
        _ => panic!("crates/capi/src: {parameter}"),
    }
}

/// What a text in C declares.
fn declared_in_c(text: &str) -> Functions {
    declared(text, bits_in_c, in_c)
}

fn header() -> Functions {
    declared_in_c(&plain(&read("include/circmon.h"), &[("/*", "*/")]))
}

fn bindings() -> Functions {
    declared(&plain(&read("host/circmon/src/raw.rs"), &[("//", "\n")]), bits_in_rust, in_rust)
}

fn library() -> Functions {
    let folder = root().join("crates/capi/src");
    let mut functions = Functions::new();
    for entry in std::fs::read_dir(folder).unwrap().map(Result::unwrap) {
        let text = plain(&std::fs::read_to_string(entry.path()).unwrap(), &[("//", "\n")]);
        let exported = text.matches(&format!("{EXPORTED}circmon_")).count();
        assert_eq!(text.matches("no_mangle").count(), exported);
        functions.extend(declared(&text, bits_in_rattle, in_rattle));
    }
    functions
}

/// What each function returns and how its parameters pass, without their names.
fn passed(functions: &Functions) -> BTreeMap<&str, (u8, Vec<Passed>)> {
    let kinds = |it: &Signature| (it.bits, it.parameters.iter().map(|it| it.passed).collect());
    functions.iter().map(|(name, it)| (name.as_str(), kinds(it))).collect()
}

#[test]
fn header_and_bindings_declare_what_the_library_has() {
    let (header, bindings, library) = (header(), bindings(), library());
    assert!(header.len() > 1, "{header:?}");
    assert_eq!(header, bindings, "include/circmon.h beside host/circmon/src/raw.rs");
    // a caller does not see the names of the library's parameters
    assert_eq!(passed(&header), passed(&library), "include/circmon.h beside crates/capi/src");
}

/// A reference to a unit passes as one pointer to the rows, as the header has it: the struct is one array of them, laid out as C does.
#[test]
fn a_unit_of_the_library_is_one_array_of_rows() {
    let text = plain(&read("crates/journaled/src/lib.rt"), &[("//", "\n")]);
    let unit = "#[repr(C)] #[derive(Clone, Copy)] pub struct Unit { pub rows: [[u8; 16]; ROWS], }";
    assert_eq!(text.matches(unit).count(), 1);
}

#[test]
fn the_archive_defines_these_functions_and_no_others() {
    let output = Command::new("nm").args(["--extern-only", "--defined-only", circmon::ARCHIVE]).output().unwrap();
    let text = String::from_utf8(output.stdout).unwrap();
    let symbols: Vec<&str> = text.lines().filter_map(|line| line.split_once(" T ")).map(|(_, name)| name).collect();
    let names: Vec<String> = header().into_keys().collect();
    assert_eq!(symbols, names, "{text}");
}

/// The numbers that the header names, whose names begin so or not. What takes an argument is no number.
fn numbers<'a>(header: &'a str, start: &str, wanted: bool) -> BTreeMap<&'a str, usize> {
    let named = header.lines().filter_map(|line| line.strip_prefix("#define CIRCMON_")?.split_once(' '));
    let named = named.filter(|(name, _)| !name.contains('(') && name.starts_with(start) == wanted);
    named.map(|(name, number)| (name, number.parse().unwrap())).collect()
}

/// How the names of the codes of `circmon_clash` begin; every other number is a size.
const CODES: &str = "ORDERS_";

#[test]
fn the_sizes_of_the_header_are_those_of_the_bindings() {
    let text = read("include/circmon.h");
    let expected = [
        ("TABLE_BYTES", circmon::TABLE_BYTES),
        ("IMAGE_BYTES", circmon::IMAGE_BYTES),
        ("REQUEST_BYTES", circmon::REQUEST_BYTES),
        ("DISTINGUISH_BYTES", circmon::DISTINGUISH_BYTES),
        ("UNIT_BYTES", circmon::UNIT_BYTES),
        ("MONITOR_BYTES", circmon::MONITOR_BYTES),
        ("PAGE_BYTES", circmon::PAGE_BYTES),
    ];
    assert_eq!(numbers(&text, CODES, false), BTreeMap::from(expected));
    let rows = format!("uint8_t row[{}][{}];", circmon::ROWS, circmon::ROW_BYTES);
    assert!(text.contains(&rows), "{rows}");
    assert!(text.contains("typedef uint64_t circmon_size;"));
    assert_eq!((reference::TABLE_BYTES, reference::IMAGE_BYTES), (circmon::TABLE_BYTES, circmon::IMAGE_BYTES));
    assert_eq!(reference::PAGE_BYTES, circmon::PAGE_BYTES);
    assert_eq!((reference::SUBJECTS, reference::OBJECTS), (circmon::SUBJECTS, circmon::OBJECTS));
    assert_eq!(reference::MOST_GETS, circmon::MOST_GETS);
    assert_eq!(reference::MOST_ENTRIES, circmon::JOURNAL_ENTRIES);
    assert!(text.contains("3 CIRCMON_ORDERS_TOO_MANY: there are more than 4,096 pieces") && circmon::MOST_GETS == 4096);
}

/// The bindings read the same numbers (`StartOrder`), and `c/smoke.c` gets each of them by the macros of the header.
#[test]
fn the_codes_of_an_order_stand_in_the_header_with_what_they_say() {
    let text = read("include/circmon.h");
    let codes = [("ORDERS_AGREE", 0), ("ORDERS_CLASH", 1), ("ORDERS_NO_GET", 2), ("ORDERS_TOO_MANY", 3)];
    assert_eq!(numbers(&text, CODES, true), BTreeMap::from(codes));
    for (name, code) in codes {
        assert!(text.contains(&format!(" * {code} CIRCMON_{name}: ")), "the comment of circmon_clash says {name}");
    }
}

/// That the text declares a function as the header does, and with any of these words replaced does not.
fn check_edits(text: &str, edits: &[(&str, &str)]) {
    let right = declared_in_c(text);
    let name = right.keys().next().expect("a function").clone();
    assert_eq!(right[&name], header()[&name]);
    for (from, to) in edits {
        assert!(text.contains(from), "{from}");
        let wrong = declared_in_c(&text.replacen(from, to, 1));
        assert_ne!(passed(&wrong), passed(&right), "{to} for {from}");
    }
}

#[test]
fn what_is_not_so_would_be_seen() {
    check_edits(
        "uint8_t circmon_save(const circmon_unit *unit, uint8_t *image, circmon_size image_len);",
        &[
            ("const circmon_unit", "circmon_unit"),
            ("uint8_t *image", "const uint8_t *image"),
            (", circmon_size image_len", ""),
            ("_save", "_store"),
            ("uint8_t circmon_", "uint64_t circmon_"),
        ],
    );
    check_edits(
        "uint8_t circmon_page(const circmon_unit *unit, uint8_t object, uint8_t *page, circmon_size page_len);",
        &[("uint8_t object", "circmon_size object")],
    );
    check_edits(
        "uint8_t circmon_compare(uint8_t class_a, uint16_t needs_a, uint8_t class_b, uint16_t needs_b);",
        &[("uint16_t", "uint8_t")],
    );
    check_edits(
        "uint8_t circmon_start_in(circmon_unit *unit, uint8_t subjects, uint8_t objects, uint8_t highest_class, uint16_t needs, const uint8_t *table, circmon_size table_len);",
        &[("uint8_t subjects, ", ""), ("highest_class, uint16_t", "highest_class, uint8_t")],
    );
    check_edits(
        "uint64_t circmon_load(uint32_t seed, uint8_t *requests, circmon_size requests_len);",
        &[("uint64_t", "uint8_t"), ("uint32_t", "uint16_t"), ("uint8_t *requests", "const uint8_t *requests")],
    );
    check_edits(
        "uint64_t circmon_clash(const circmon_unit *unit, const uint8_t *requests, circmon_size requests_len);",
        &[
            ("uint64_t", "uint8_t"),
            ("const circmon_unit", "circmon_unit"),
            ("const uint8_t *requests", "uint8_t *requests"),
            (", circmon_size requests_len", ""),
        ],
    );
}
