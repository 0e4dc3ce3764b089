//! Compares the declarations of src/ffi.rs with the header. The linker finds those that the library
//! does not have.

use std::collections::BTreeMap;

const HEADER: &str = include_str!("../../mesosev.h");
const DECLARATIONS: &str = include_str!("../src/ffi.rs");

/// The functions that the crate does not use: `mes_decoder_many` does more than `mes_decoder_next`,
/// and those that end in `_lines` are for languages in which each call of C is slow.
const UNUSED: [&str; 3] = [
    "mes_decoder_next",
    "mes_session_heard_lines",
    "mes_session_acknowledge_lines",
];

/// Returns the header without its comments.
fn header() -> String {
    let parts = HEADER
        .split("/*")
        .map(|part| part.split_once("*/").map_or(part, |it| it.1));
    parts.collect()
}

/// Returns the functions that a text declares, and the number of parameters of each.
fn functions(text: &str) -> BTreeMap<&str, usize> {
    let mut found = BTreeMap::new();
    for declaration in text.split(';') {
        let name_and_rest = declaration.find("mes_").map(|at| &declaration[at..]);
        let Some((name, rest)) = name_and_rest.and_then(|it| it.split_once('(')) else {
            continue;
        };
        let parameters = rest.split_once(')').map_or("", |it| it.0);
        let count = match parameters {
            "" | "void" => 0,
            _ => parameters.matches(',').count() + 1,
        };
        found.insert(name, count);
    }
    found
}

/// Returns the number after a name, with ` = ` or a space between them.
fn number_of(text: &str, name: &str) -> Option<u64> {
    let (_, rest) = text.split_once(&format!("{name} "))?;
    let rest = rest.trim_start_matches("= ");
    let number = rest.split(|it: char| !it.is_ascii_digit()).next()?;
    number.parse().ok()
}

#[test]
fn each_function_of_the_header_is_declared_with_its_parameters() {
    let header = header();
    let expected = functions(&header);
    let declared = functions(DECLARATIONS.split_once("extern \"C\" {").unwrap().1);
    assert!(expected.len() > 25, "{expected:?}");
    for (name, count) in expected {
        if !UNUSED.contains(&name) {
            assert_eq!(declared.get(name), Some(&count), "{name}");
        }
    }
}

#[test]
fn each_constant_has_the_number_of_the_header() {
    let header = header();
    let constants: Vec<_> = DECLARATIONS.split("const MES_").skip(1).collect();
    assert!(constants.len() > 10);
    for constant in constants {
        let (name, rest) = constant.split_once(':').unwrap();
        let declared = rest
            .split(['=', ';'])
            .nth(1)
            .unwrap()
            .trim()
            .replace('_', "");
        let expected = number_of(&header, &format!("MES_{name}"));
        assert_eq!(declared.parse().ok(), expected, "MES_{name}");
    }
}
