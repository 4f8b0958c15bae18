//! What src/ says of the C interface is what include/rathnodi.h says: the functions with their
//! arguments, by name, kind and order, and the lengths. What the header says that a call returns is
//! what docs/C-INTERFACE.md says.

use std::collections::BTreeMap;

use rathnodi::{FORMER_TABLES_LEN, PAIRS_BYTES_MAX, REPLY_LEN, TABLES_LEN};

const HEADER: &str = include_str!("../../../include/rathnodi.h");
const RUST: &str = include_str!("../src/c.rs");
const PAGE: &str = include_str!("../../../docs/C-INTERFACE.md");

/// A name, arguments as "name: type", and the type of the result, as Rust writes them.
#[derive(Debug, PartialEq)]
struct Function {
    name: String,
    arguments: Vec<String>,
    result: String,
}

/// The header without comments and without lines of the preprocessor.
fn plain_header() -> String {
    let mut text = HEADER.replace("\\\n", " ");
    while let Some(start) = text.find("/*") {
        let end = start + text[start..].find("*/").expect("a comment's end") + 2;
        text.replace_range(start..end, " ");
    }
    text.lines().filter(|line| !line.starts_with('#')).collect::<Vec<_>>().join("\n")
}

fn rust_type(of_c: &str) -> &str {
    match of_c {
        "uint8_t *" => "*mut u8",
        "const uint8_t *" => "*const u8",
        "size_t" => "usize",
        "uint16_t" => "u16",
        "uint32_t" => "u32",
        "uint64_t" => "u64",
        other => panic!("a type that Rust's side does not know: {other}"),
    }
}

fn rust_argument(of_c: &str) -> String {
    let name = of_c.rfind([' ', '*']).expect("a type and a name") + 1;
    format!("{}: {}", &of_c[name..], rust_type(of_c[..name].trim()))
}

/// A declaration of the header: a type, a name and arguments. Anything else is none.
fn declared(statement: &str) -> Option<Function> {
    let (head, rest) = statement.split_once('(')?;
    let [result, name] = head.split_whitespace().collect::<Vec<_>>()[..] else { return None };
    let arguments = rest.split_once(')')?.0.split_whitespace().collect::<Vec<_>>().join(" ");
    let arguments = arguments.split(", ").filter(|argument| *argument != "void");
    (result != "return" && name.starts_with("rathnodi_")).then(|| Function {
        name: name.into(),
        arguments: arguments.map(rust_argument).collect(),
        result: rust_type(result).into(),
    })
}

/// A function of src/c.rs, from its name on.
fn bound(text: &str) -> Function {
    let (name, rest) = text.split_once('(').expect("arguments");
    let (arguments, rest) = rest.split_once(") -> ").expect("a result");
    let arguments = arguments.split(',').map(str::trim).filter(|argument| !argument.is_empty());
    Function {
        name: name.into(),
        arguments: arguments.map(String::from).collect(),
        result: rest.split_once(';').expect("an end").0.into(),
    }
}

#[test]
fn functions_are_the_headers() {
    let header: Vec<_> = plain_header().split([';', '{', '}']).filter_map(declared).collect();
    let rust: Vec<_> = RUST.split("pub fn ").skip(1).map(bound).collect();
    assert!(!rust.is_empty());
    for (of_rust, of_header) in rust.iter().zip(&header) {
        assert_eq!(of_rust, of_header);
    }
    assert_eq!(rust.len(), header.len());
}

#[test]
fn lengths_are_the_headers() {
    for (name, value) in [
        ("TABLES_LEN", TABLES_LEN),
        ("FORMER_TABLES_LEN", FORMER_TABLES_LEN),
        ("REPLY_LEN", REPLY_LEN),
        ("PAIRS_BYTES_MAX", PAIRS_BYTES_MAX),
    ] {
        let line = format!("\n#define RATHNODI_{name} {value}\n");
        assert!(HEADER.contains(&line), "{line}");
    }
}

fn numbers(text: &str) -> Vec<u32> {
    text.split(|c: char| !c.is_ascii_digit()).filter_map(|digits| digits.parse().ok()).collect()
}

/// By call, the numbers in the line "Returns .." of the comment before its declaration.
fn returned() -> BTreeMap<String, Vec<u32>> {
    let of_calls = HEADER.split("/*").filter_map(|text| {
        let (comment, rest) = text.split_once("*/")?;
        let call = declared(rest.split(';').next()?)?.name.replace("rathnodi_", "").to_uppercase();
        Some((call, numbers(comment.split_once("\n * Returns ")?.1)))
    });
    of_calls.collect()
}

/// By call, the numbers in its row of the page's table. After a semicolon stand those of a place.
fn tabled() -> BTreeMap<String, Vec<u32>> {
    let table = PAGE.split_once("\n| call | numbers |\n|---|---|\n").expect("the table").1;
    let rows = table.lines().map_while(|line| line.strip_prefix("| ")?.split_once(" | "));
    let of_calls = rows.flat_map(|(calls, results)| {
        let results = numbers(results.split(';').next().unwrap_or(results));
        calls.split(", ").map(move |call| (call.into(), results.clone()))
    });
    of_calls.collect()
}

#[test]
fn returns_are_the_pages() {
    assert_eq!(returned(), tabled());
    assert_eq!(returned().len(), RUST.matches(") -> u32;").count());
}
