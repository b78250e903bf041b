//! Tokens as they are spelt, and the blanks between them.
use super::Rng;

pub const KEYWORDS: [&str; 15] = [
    "if",
    "then",
    "else",
    "while",
    "do",
    "const",
    "var",
    "procedure",
    "program",
    "begin",
    "end",
    "call",
    "read",
    "write",
    "odd",
];
pub const SIGNS: [&str; 15] = ["+", "-", "*", "/", "(", ")", "=", ";", ",", "<", ">", "<=", ">=", "<>", ":="];
/// Few, so that the same name comes up in several scopes; some look like keywords.
pub const NAMES: [&str; 14] = ["a", "b", "c", "x", "y", "q", "r", "p", "sum", "n1", "If", "END", "oddly", "beginner"];
pub const BAD: [&str; 12] = ["_", "x_", "end_", ":", "#", ".", "!", "\"", "{", "\0", "\x7f", "@"];

pub const COMPARISONS: [&str; 6] = ["=", "<>", "<", ">=", ">", "<="];

/// Literals around the ends of i64, and some that only look strange.
pub const EDGE_LITERALS: [&str; 9] = [
    "9223372036854775807",
    "9223372036854775806",
    "9223372036854775808",
    "9223372036854775809",
    "18446744073709551616",
    "99999999999999999999999999999999",
    "0009223372036854775807",
    "00000000000000000000000000000001",
    "4611686018427387904",
];

pub fn literal(rng: &mut Rng) -> String {
    match rng.below(40) {
        0 => rng.pick(&EDGE_LITERALS[..2]).to_string(),
        1 => (rng.next() >> 1).to_string(),
        2 => rng.pick(&EDGE_LITERALS[6..]).to_string(),
        3..=8 => rng.below(10_000).to_string(),
        _ => rng.below(10).to_string(),
    }
}

pub fn any(rng: &mut Rng) -> String {
    match rng.below(20) {
        0..=6 => rng.pick(&KEYWORDS).to_string(),
        7..=13 => rng.pick(&SIGNS).to_string(),
        14..=16 => rng.pick(&NAMES).to_string(),
        17..=18 => literal(rng),
        _ => match rng.below(3) {
            0 => rng.pick(&EDGE_LITERALS).to_string(),
            _ => rng.pick(&BAD).to_string(),
        },
    }
}

/// Would the two run together without a blank between them?
fn run_together(left: u8, right: u8) -> bool {
    let word = |byte: u8| byte.is_ascii_alphanumeric() || byte == b'_';
    word(left) && word(right) || b"<>:".contains(&left) && b"=>".contains(&right)
}

const BLANKS: [u8; 6] = [9, 10, 11, 12, 13, 32];

/// The tokens as a text: tight, with single blanks, or with any blanks between them.
pub fn spelt(tokens: &[String], rng: &mut Rng) -> Vec<u8> {
    let style = rng.below(4);
    let mut text: Vec<u8> = vec![];
    for token in tokens {
        let (Some(&left), Some(&right)) = (text.last(), token.as_bytes().first()) else {
            text.extend(token.bytes());
            continue;
        };
        match style {
            0 => {}
            1 | 2 => text.push(b' '),
            _ => (0..rng.below(3)).for_each(|_| text.push(*rng.pick(&BLANKS))),
        }
        if text.last() == Some(&left) && run_together(left, right) {
            text.push(*rng.pick(&BLANKS));
        }
        text.extend(token.bytes());
    }
    if rng.once_in(6) {
        let behind: [&[u8]; 6] = [b".", b" ", b" end", b"_", b" ;x:=", b"\n# \x01 99999999999999999999"];
        text.extend(*rng.pick(&behind));
    }
    text
}
