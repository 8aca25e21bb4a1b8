//! What the crate declares is what `include/galthumir.h` declares: the functions, the numbers, the refusals.

use std::collections::BTreeSet;

use galthumir::Refusal;

const HEADER: &str = include_str!("../../../include/galthumir.h");
const RAW: &str = include_str!("../src/raw.rs");
const LAYOUT: &str = include_str!("../src/layout.rs");

#[test]
fn every_function_is_declared_as_in_the_header() {
    let there = functions_of_header();
    assert_eq!(there.len(), HEADER.matches("\nuint32_t galthumir_").count());
    assert!(!there.is_empty());
    assert_eq!(functions_of_raw(), there);
}

#[test]
fn every_number_is_that_of_the_header() {
    let there: BTreeSet<String> = definitions().filter(|line| !line.starts_with("REFUSED_")).collect();
    assert!(!there.is_empty());
    assert_eq!(numbers_of_layout(), there);
}

#[test]
fn every_refusal_is_that_of_the_header_in_its_order() {
    let there: Vec<String> = definitions().filter(|line| line.starts_with("REFUSED_")).collect();
    let here = Refusal::ALL.map(|refusal| format!("REFUSED_{} {}", in_capitals(refusal), refusal.number()));
    assert_eq!(here.to_vec(), there);
}

#[test]
fn every_refusal_has_the_words_of_the_header() {
    for refusal in Refusal::ALL {
        let start = format!("#define GALTHUMIR_REFUSED_{} ", in_capitals(refusal));
        let line = HEADER.lines().find(|line| line.starts_with(&start)).unwrap_or_default();
        assert!(line.ends_with(&format!("/* {refusal} */")), "{refusal}: {line}");
    }
}

/// The numbers that the header defines, each as its name, a blank and the number. 0, which is no refusal, is left out.
fn definitions() -> impl Iterator<Item = String> {
    HEADER.lines().filter_map(|line| {
        let mut words = line.strip_prefix("#define GALTHUMIR_")?.split_whitespace();
        let (name, number) = (words.next()?, words.next()?);
        let is_number = number.starts_with(|c: char| c.is_ascii_digit());
        (is_number && name != "DONE").then(|| format!("{name} {}", number.trim_end_matches('u')))
    })
}

/// The constants of `layout`, in the same form.
fn numbers_of_layout() -> BTreeSet<String> {
    let constants = LAYOUT.lines().filter_map(|line| {
        let (name, rest) = line.strip_prefix("pub const ")?.split_once(": ")?;
        let (_, number) = rest.strip_suffix(';')?.split_once(" = ")?;
        Some(format!("{name} {number}"))
    });
    constants.collect()
}

/// A refusal's name as C has it.
fn in_capitals(refusal: Refusal) -> String {
    let mut name = String::new();
    for c in format!("{refusal:?}").chars() {
        if c.is_uppercase() && !name.is_empty() {
            name.push('_');
        }
        name.push(c.to_ascii_uppercase());
    }
    name
}

/// The functions of the header, each declared in Rust. One that is lent a pointer is unsafe.
fn functions_of_header() -> BTreeSet<String> {
    let text = in_one_line(&without_comments(HEADER));
    let functions = text.split(';').filter_map(|declared| {
        let (name, rest) = declared.split_once("uint32_t galthumir_")?.1.split_once('(')?;
        let parameters: Vec<String> = rest.strip_suffix(')')?.split(',').map(parameter).collect();
        let parameters = parameters.join(", ");
        let safety = if parameters.contains('*') { "unsafe" } else { "safe" };
        Some(format!("{safety} fn galthumir_{name}({parameters}) -> u32"))
    });
    functions.collect()
}

/// The functions of `raw`, in the same form.
fn functions_of_raw() -> BTreeSet<String> {
    let text = in_one_line(RAW).replace("( ", "(").replace(", )", ")");
    let declared = text.split("pub ").skip(1);
    declared.map(|function| function.trim_end_matches([';', '}', ' ']).to_string()).collect()
}

/// A parameter of C, declared in Rust.
fn parameter(text: &str) -> String {
    let text = text.trim();
    let (constant, text) = text.strip_prefix("const ").map_or((false, text), |rest| (true, rest));
    let (kind, name) = text.split_once(' ').expect("a type and a name");
    let kind = number_type(kind);
    if let Some(name) = name.strip_prefix('*') {
        return format!("{name}: *{} {kind}", if constant { "const" } else { "mut" });
    }
    match name.split_once('[') {
        Some((name, size)) => {
            let size = size.trim_end_matches(']').trim_start_matches("GALTHUMIR_");
            format!("{name}: &{}[{kind}; {size}]", if constant { "" } else { "mut " })
        }
        None => format!("{name}: {kind}"),
    }
}

/// A type of numbers of C in Rust.
fn number_type(kind: &str) -> &str {
    match kind {
        "uint8_t" => "u8",
        "uint16_t" => "u16",
        "uint32_t" => "u32",
        "int64_t" => "i64",
        "size_t" => "usize",
        _ => panic!("{kind} is no type of numbers"),
    }
}

/// The text of C without its comments and directives.
fn without_comments(text: &str) -> String {
    let code = text.split("/*").map(|part| part.split_once("*/").map_or(part, |(_, code)| code));
    let code = code.collect::<String>();
    code.lines().filter(|line| !line.starts_with('#')).map(|line| format!("{line}\n")).collect()
}

/// The text with one blank where there were blanks and ends of lines.
fn in_one_line(text: &str) -> String {
    text.split_whitespace().collect::<Vec<_>>().join(" ")
}
