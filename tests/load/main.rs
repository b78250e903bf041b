//! The compiled engine under load: every promise of its interface checked, call by call.
//!   load SEED COUNT SECONDS [--stack BYTES]     until so many calls were made or so much time has passed
//!   load case SEED PLACE                        one case of these alone, shown first
//!   load stacks                                 the smallest stacks that compile, run, walk and list can be called on
//!   load slowest                                the slowest texts and steps
//!   load numbers                                numbers of every length, in rooms of every size around them
//!   load bites                                  are faults noticed?
mod bites;
mod fault;
mod harness;
mod numbers;
mod promises;
mod sizes;
mod slowest;
mod stacks;
mod timed;
mod work;

use native::signal;
use native::silence::silence;
use std::fs::File;
use std::process::ExitCode;

/// Deep enough for the Rust, which calls itself once for each blank byte.
const DEEP_STACK: usize = 1 << 29;
/// What the engine is called on unless --stack says otherwise.
const CALL_STACK: usize = 1 << 18;

fn main() -> ExitCode {
    let words: Vec<String> = std::env::args().skip(1).collect();
    let out = silence();
    signal::report_to(&out);
    let told = out.try_clone().expect("standard output");
    signal::watched(DEEP_STACK, &told, move || {
        let words: Vec<&str> = words.iter().map(String::as_str).collect();
        done(&words, &out).map_err(|message| format!("load: {message}"))
    })
}

fn done(words: &[&str], out: &File) -> Result<bool, String> {
    match *words {
        ["case", seed, place] => work::one(number(seed)?, number(place)?, CALL_STACK, out),
        ["stacks"] => stacks::search(out),
        ["stack-trial", entry, bytes] => stacks::trial(entry, number(bytes)? as usize),
        ["slowest"] => slowest::print(out).map_err(|e| e.to_string()),
        ["numbers"] => numbers::all(out),
        ["bites"] => bites::all(out),
        ["past-the-room"] => bites::past_the_room(),
        [seed, count, seconds] => work::work(number(seed)?, number(count)?, number(seconds)?, CALL_STACK, out),
        [seed, count, seconds, "--stack", bytes] => {
            work::work(number(seed)?, number(count)?, number(seconds)?, number(bytes)? as usize, out)
        }
        _ => Err("tests/load/run says how to call it".to_string()),
    }
}

fn number(word: &str) -> Result<u64, String> {
    word.parse().map_err(|_| format!("{word} is no number"))
}
