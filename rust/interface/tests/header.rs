//! include/pairing.h declares the calls that the list has, with these parameters in this order, and no others.

use interface::calls;

/// A parameter of the list in C: a buffer is a pointer and its length.
fn parameter(name: &str, kind: &str) -> String {
    match kind {
        "read" => format!("const uint8_t *{name}, size_t {name}_len"),
        "write" => format!("uint8_t *{name}, size_t {name}_len"),
        number => {
            let (sign, bits) = number.split_at(1);
            let prefix = if sign == "u" { "u" } else { "" };
            format!("{prefix}int{bits}_t {name}")
        }
    }
}

fn listed() -> Vec<String> {
    let mut listed = Vec::new();
    macro_rules! row {
        ($call:ident [$($name:ident: $how:ident),*] ($($number:ident: $type:ident),*)) => {
            let parameters = [
                $(parameter(stringify!($name), stringify!($how)),)*
                $(parameter(stringify!($number), stringify!($type)),)*
            ];
            listed.push(format!("uint32_t pairing_{}({})", stringify!($call), parameters.join(", ")));
        };
    }
    calls!(row);
    listed
}

/// The header's text without comments and directives.
fn code(header: &str) -> String {
    let mut code = String::new();
    for (place, part) in header.split("/*").enumerate() {
        let text = match place {
            0 => part,
            _ => part.split_once("*/").expect("a comment that ends").1,
        };
        code += text;
    }
    let lines = code.lines().filter(|line| !line.starts_with('#'));
    lines.collect::<Vec<_>>().join(" ")
}

/// What it declares, each declaration on one line with single spaces.
fn declared() -> Vec<String> {
    let path = concat!(env!("CARGO_MANIFEST_DIR"), "/../../include/pairing.h");
    let code = code(&std::fs::read_to_string(path).expect("the header"));
    let inner = code
        .trim()
        .strip_prefix("extern \"C\" {")
        .expect("C linkage");
    let inner = inner.trim_end().strip_suffix('}').expect("its end");
    let declarations = inner
        .split(';')
        .map(|words| words.split_whitespace().collect::<Vec<_>>().join(" "));
    declarations
        .filter(|declaration| !declaration.is_empty())
        .collect()
}

#[test]
fn the_header_declares_what_is_listed() {
    assert_eq!(declared(), listed());
}
