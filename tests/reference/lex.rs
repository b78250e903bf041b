//! Tokens.
#[derive(Clone, Debug, PartialEq, Eq)]
pub enum Token {
    /// A keyword or a sign, as it is spelt.
    Mark(&'static str),
    Name(String),
    Number(i64),
    TooBig,
    Bad,
}

const KEYWORDS: [&str; 15] = [
    "if",
    "then",
    "else",
    "while",
    "do",
    "const",
    "var",
    "procedure",
    "program",
    "begin",
    "end",
    "call",
    "read",
    "write",
    "odd",
];
/// The longer signs stand before those that they start with.
const SIGNS: [&str; 15] = ["<=", ">=", "<>", ":=", "+", "-", "*", "/", "(", ")", "=", ";", ",", "<", ">"];

pub fn is_blank(byte: u8) -> bool {
    byte == 32 || (9..=13).contains(&byte)
}

/// The token that starts at or after `from`, and the place behind it; nothing at the end of the text.
pub fn token_at(text: &[u8], from: usize) -> Option<(Token, usize)> {
    let start = from + text[from..].iter().position(|&byte| !is_blank(byte))?;
    let rest = &text[start..];
    let run = |test: fn(&u8) -> bool| rest.iter().take_while(|byte| test(byte)).count();
    if rest[0].is_ascii_alphabetic() {
        let length = run(u8::is_ascii_alphanumeric);
        if rest.get(length) == Some(&b'_') {
            return Some((Token::Bad, start + length));
        }
        let name = String::from_utf8_lossy(&rest[..length]).into_owned();
        let token = KEYWORDS.iter().find(|word| **word == name).map_or(Token::Name(name), |word| Token::Mark(word));
        return Some((token, start + length));
    }
    if rest[0].is_ascii_digit() {
        let length = run(u8::is_ascii_digit);
        let value = String::from_utf8_lossy(&rest[..length]).parse();
        return Some((value.map_or(Token::TooBig, Token::Number), start + length));
    }
    match SIGNS.iter().find(|sign| rest.starts_with(sign.as_bytes())) {
        Some(sign) => Some((Token::Mark(sign), start + sign.len())),
        None => Some((Token::Bad, start + 1)),
    }
}

/// Where each token of the text starts and ends, bad ones included.
pub fn tokens(text: &[u8]) -> Vec<(usize, usize)> {
    let mut found = vec![];
    let mut from = 0;
    while let Some((_, end)) = token_at(text, from) {
        let start = from + text[from..end].iter().position(|&byte| !is_blank(byte)).unwrap_or(0);
        found.push((start, end));
        from = end;
    }
    found
}
