//! The engine's listing beside the Rust's own, byte for byte, and in rooms of every size.
//!   listing SEED COUNT
mod cases;
mod owed;
mod shrink;
mod trial;

use cases::Case;
use common::generator::Rng;
use common::protocol::{self, Place};
use native::room::Room;
use native::{rust, signal};
use std::fs::File;
use std::io::Write;
use std::os::fd::AsFd;
use std::process::ExitCode;
use std::sync::atomic::Ordering;
use trial::Trial;

const STACK: usize = 1 << 23;
/// So many of the lists that differ are printed, and so many places of each.
const SHOWN: usize = 5;
const PLACES_SHOWN: usize = 6;

fn main() -> ExitCode {
    let words: Vec<String> = std::env::args().skip(1).collect();
    let out = File::from(std::io::stdout().as_fd().try_clone_to_owned().expect("standard output"));
    signal::report_to(&out);
    let told = out.try_clone().expect("standard output");
    signal::watched(STACK, &told, move || {
        let [seed, count] = &words[..] else { return Err("tests/listing/run says how to call it".to_string()) };
        let number = |word: &str| word.parse().map_err(|_| format!("listing: {word} is no number"));
        compare_all(number(seed)?, number(count)?, &out).map_err(|e| e.to_string())
    })
}

fn compare_all(seed: u64, count: u64, mut out: &File) -> std::io::Result<bool> {
    let (mut room, mut trial) = (Room::new(), Trial::new());
    let (mut compiled, mut lines, mut rooms, mut differing) = (0, 0, 0, 0);
    for place in 0..count {
        signal::PLACE.store(place, Ordering::Relaxed);
        let case = Case::new(seed, place, &mut room);
        // the same rooms for each list that is tried to make it smaller
        let mut tried = |code: &[Place]| trial.tried(code, &mut Rng::of_case(!seed, place));
        compiled += case.compiled as usize;
        match tried(&case.code) {
            Ok(tally) => {
                lines += tally.lines;
                rooms += tally.rooms;
            }
            Err(why) => {
                differing += 1;
                if differing <= SHOWN {
                    let (code, why) = shrink::smallest(case.code, why, |code| tried(code).err());
                    writeln!(out, "list {place}: {why}\n  code  {}", shown(&code))?;
                }
            }
        }
    }
    let beside = if rust::AT_HAND { "beside the Rust" } else { "by the plain reading alone, the Rust not at hand" };
    let what = format!("{compiled} of them compiled sheets, {lines} lines, {rooms} rooms");
    writeln!(out, "{count} code lists from seed {seed} listed {beside}: {what}; {differing} differences")?;
    Ok(differing == 0)
}

fn shown(code: &[Place]) -> String {
    let some = &code[..code.len().min(PLACES_SHOWN)];
    let more = code.len() - some.len();
    let rest = if more > 0 { format!(" and {more} places more") } else { String::new() };
    protocol::listed(some) + &rest
}
