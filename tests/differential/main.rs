//! The engine beside the Rust that was ported: acceptance, every instruction, and what a run writes.
//!   differential compare REPLAY ORACLE SEED COUNT [--rates]
//!   differential lists REPLAY ORACLE SEED COUNT
//!   differential sample ORACLE SEED COUNT FOLDER
mod ask;
mod compare;
mod judge;
mod lists;
mod rates;
mod sample;
mod shrink;

use std::path::Path;
use std::process::ExitCode;

fn main() -> ExitCode {
    let words: Vec<String> = std::env::args().skip(1).collect();
    let words: Vec<&str> = words.iter().map(String::as_str).collect();
    match done(&words) {
        Ok(true) => ExitCode::SUCCESS,
        Ok(false) => ExitCode::from(1),
        Err(message) => {
            eprintln!("differential: {message}");
            ExitCode::from(2)
        }
    }
}

fn done(words: &[&str]) -> Result<bool, String> {
    match *words {
        ["compare", replay, oracle, seed, count, ref flags @ ..] => {
            let asked = ask::Asked::new(Path::new(replay), Path::new(oracle))?;
            compare::compare(&asked, number(seed)?, number(count)?, flags.contains(&"--rates"))
        }
        ["lists", replay, oracle, seed, count] => {
            let asked = ask::Asked::new(Path::new(replay), Path::new(oracle))?;
            lists::compare(&asked, number(seed)?, number(count)?)
        }
        ["sample", oracle, seed, count, folder] => {
            sample::sample(Path::new(oracle), number(seed)?, number(count)?, Path::new(folder))
        }
        _ => Err("tests/differential/run and tests/differential/sample say how to call it".to_string()),
    }
}

fn number(word: &str) -> Result<u64, String> {
    word.parse().map_err(|_| format!("{word} is no number"))
}
