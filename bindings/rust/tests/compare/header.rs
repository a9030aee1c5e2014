//! The declarations in `src/sys.rs` are those of the C header, all of them, and so is what it cites. The header's refusals, its marks, the
//! room of an order and its version are the crate's.
use crate::sys::MASUVELIOR_MAX_CHOSEN;
use masuvelior::{marks, Refusal};

const HEADER: &str = include_str!("../../../c/masuvelior.h");
const DECLARED: &str = include_str!("../../src/sys.rs");

/// The header without its comments.
fn code() -> String {
    let mut code = String::new();
    for part in HEADER.split("*/") {
        code += part.split("/*").next().unwrap();
    }
    code
}

/// A parameter of C as Rust writes it. An array is a pointer in C, which does not hold its caller to the room; in Rust the type does.
fn parameter(c: &str) -> String {
    if let Some((c, size)) = c.strip_suffix(']').and_then(|c| c.split_once('[')) {
        let name = c.strip_prefix("uint32_t ").expect("arrays are of uint32_t");
        return format!("{name}: *mut [u32; {size}]");
    }
    let name = c.rsplit([' ', '*']).next().unwrap();
    let kind = match c.strip_suffix(name).unwrap().trim() {
        "uint32_t" => "u32",
        "size_t" => "usize",
        "const uint8_t *" => "*const u8",
        "const uint16_t *" => "*const u16",
        "const uint32_t *" => "*const u32",
        "uint8_t *" => "*mut u8",
        "uint32_t *" => "*mut u32",
        "size_t *" => "*mut usize",
        kind => panic!("a type without a name in Rust: {kind}"),
    };
    format!("{name}: {kind}")
}

/// A function of C as `src/sys.rs` declares it. All answer a `uint32_t`.
fn declaration(c: &str) -> Option<String> {
    let (_, function) = c.split_once("uint32_t masuvelior_")?;
    let (name, parameters) = function.trim_end().strip_suffix(')')?.split_once('(')?;
    let parameters: Vec<String> =
        parameters.split(',').map(|c| parameter(&c.split_whitespace().collect::<Vec<_>>().join(" "))).collect();
    Some(format!("masuvelior_{name}({});", parameters.join(", ")))
}

#[test]
fn declared_as_in_the_header() {
    let functions: Vec<String> = code().split(';').filter_map(declaration).collect();
    let declared: Vec<&str> = DECLARED.lines().map(str::trim).filter(|line| line.starts_with("masuvelior_")).collect();
    for function in &functions {
        assert!(declared.contains(&function.as_str()), "not declared: {function}");
    }
    assert_eq!(declared.len(), functions.len());
    assert_eq!(functions.len(), code().matches("uint32_t masuvelior_").count());
    assert!(functions.len() >= 40);
}

/// What the SAFETY comments cite stands in the header, word for word.
#[test]
fn sentences_of_the_header() {
    let words = |text: &str| text.replace(" * ", " ").split_whitespace().collect::<Vec<_>>().join(" ");
    let header = words(HEADER);
    let cited = DECLARED.lines().filter_map(|line| line.strip_prefix("//! - ")?.split('"').nth(1));
    assert_eq!(cited.clone().count(), 4);
    for sentence in cited {
        assert!(header.contains(&words(sentence)), "the header has no: {sentence}");
    }
}

/// A name of Rust as C writes it: `TooShort` is TOO_SHORT.
fn upper(name: &str) -> String {
    let mut upper = String::new();
    for letter in name.chars() {
        if letter.is_uppercase() && !upper.is_empty() {
            upper.push('_');
        }
        upper.push(letter.to_ascii_uppercase());
    }
    upper
}

#[test]
fn refusals_of_the_header() {
    for refusal in Refusal::ALL {
        let name = format!("{refusal:?}");
        let name = upper(name.split('(').next().unwrap());
        let (number, sentence) = (refusal.number(), refusal.sentence());
        let comma = if number < 19 { "," } else { "" };
        let line = format!("MASUVELIOR_REFUSED_{name} = {number}{comma} /* {sentence} */");
        assert!(HEADER.contains(&line), "the header has no: {line}");
    }
    assert_eq!(HEADER.matches("MASUVELIOR_REFUSED_").count(), 19);
}

#[test]
fn marks_of_the_header() {
    let marks =
        [("AND", marks::AND), ("OR", marks::OR), ("NOT", marks::NOT), ("OPEN", marks::OPEN), ("CLOSE", marks::CLOSE)];
    for (name, number) in marks {
        let line = format!("#define MASUVELIOR_{name} {number}\n");
        assert!(HEADER.contains(&line), "the header has no: {line}");
    }
}

#[test]
fn room_of_an_order() {
    assert!(HEADER.contains(&format!("#define MASUVELIOR_MAX_CHOSEN {MASUVELIOR_MAX_CHOSEN}\n")));
}

#[test]
fn version_of_the_header() {
    let (major, minor) = (env!("CARGO_PKG_VERSION_MAJOR"), env!("CARGO_PKG_VERSION_MINOR"));
    assert!(HEADER.contains(&format!("#define MASUVELIOR_VERSION_MAJOR {major}\n")));
    assert!(HEADER.contains(&format!("#define MASUVELIOR_VERSION_MINOR {minor}\n")));
}
