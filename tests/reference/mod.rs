//! One plain reading of document 01, in as few words as it takes: `compile` and `run`, with 01's numbers; and the
//! listing of a code list. It knows nothing of the engine and is made for reading, not for speed.
mod lex;
mod listing;
mod machine;
mod parse;
mod translate;

use crate::protocol::Compiled;
pub use lex::{tokens, Token};
pub use listing::list;
pub use machine::{refused_place, run, PROMPT};

pub const MOST_BYTES: usize = 32_768;
pub const MOST_TOKENS: usize = 8_192;
pub const MOST_OPEN: usize = 64;
pub const MOST_ROWS: usize = 512;
pub const MOST_CODE: usize = 4_096;
pub const CELLS: usize = 4_096;
pub const VARIABLES: usize = 512;

pub fn compile(text: &[u8]) -> Compiled {
    let refused = |number| Compiled { number, code: vec![] };
    if text.len() > MOST_BYTES {
        return refused(1);
    }
    if text.iter().any(|&byte| byte >= 128) {
        return refused(2);
    }
    match parse::program(text).and_then(|block| translate::code(&block)) {
        Ok(code) => Compiled { number: 0, code },
        Err(number) => refused(number),
    }
}

/// Does the text's tree hold a procedure? Only asked of accepted texts.
pub fn holds_procedure(text: &[u8]) -> bool {
    parse::program(text).is_ok_and(|block| block.procedure.is_some())
}
