//! Texts that break the rules: one token away from a program, damaged bytes, soups.
use super::{token, Rng};

/// Drops, doubles, swaps or replaces one token.
pub fn one_token(tokens: &mut Vec<String>, rng: &mut Rng) {
    if tokens.len() < 2 {
        return;
    }
    let at = rng.below(tokens.len());
    let next = (at + 1) % tokens.len();
    match rng.below(5) {
        0 => drop(tokens.remove(at)),
        1 => tokens.insert(at, tokens[at].clone()),
        2 => tokens.swap(at, next),
        3 => tokens[at] = token::any(rng),
        _ => tokens.insert(at, token::any(rng)),
    }
}

/// Changes one to three bytes, or cuts the text anywhere.
pub fn bytes(mut text: Vec<u8>, rng: &mut Rng) -> Vec<u8> {
    if text.is_empty() {
        return text;
    }
    match rng.below(4) {
        0 => text.truncate(rng.below(text.len())),
        1 => drop(text.drain(..rng.below(text.len().min(12)))),
        _ => {
            for _ in 0..rng.between(1, 3) {
                let at = rng.below(text.len());
                text[at] = if rng.once_in(4) { rng.byte() } else { rng.below(128) as u8 };
            }
        }
    }
    text
}

/// Tokens in any order, often behind the start of a program.
pub fn soup(rng: &mut Rng) -> Vec<String> {
    let starts =
        ["", "program p ;", "program p ; begin", "program p ; var x , y ; begin x :=", "program p ; procedure q ( ) ;"];
    let mut tokens: Vec<String> = rng.pick(&starts).split_whitespace().map(str::to_string).collect();
    let length = rng.below(60);
    tokens.extend((0..length).map(|_| token::any(rng)));
    tokens
}

/// Bytes in any order: all of them, ASCII, or those that tokens are made of.
pub fn raw(rng: &mut Rng) -> Vec<u8> {
    const USED: &[u8] = b"beginwhdopru xyz019+-*/()=;,<>:_.\n\t";
    let length = rng.below(200);
    let style = rng.below(3);
    let byte = |rng: &mut Rng| match style {
        0 => rng.byte(),
        1 => rng.below(128) as u8,
        _ => *rng.pick(USED),
    };
    (0..length).map(|_| byte(rng)).collect()
}
