//! The stack that compile, run, walk and list take, and the smallest thread that they can be called on, for the texts
//! that ask most of it: 64 open constructs of every kind and the longest lists. A stack that is too small ends a
//! process, so each size has one. A listing's stack must not grow with the list.
use crate::harness::Harness;
use crate::promises::Given;
use common::generator::{deepest, longest, Rng};
use common::protocol::Place;
use common::reference;
use native::engine::{CODE, LISTING};
use std::fs::File;
use std::io::Write;
use std::process::{Command, Stdio};

const ENTRIES: [&str; 4] = ["compile", "run", "walk", "list"];
const LIST: usize = 3;
/// The lengths of the lists that are listed.
const PLACES: [usize; 3] = [1, 64, CODE];
/// So much more a long list may take than a short one, whose index has one digit only.
const LEEWAY: usize = 256;
const STEP: usize = 4_096;
/// The C library gives a thread no less.
const LEAST: usize = 16_384;
const MOST: usize = 1 << 22;
/// Each text is called with the room laid out in a few ways.
const TIMES: u64 = 4;
const GIVEN: Given = Given { input: b"1\n", budget: 50_000, room: 65_536 };

pub fn search(mut out: &File) -> Result<bool, String> {
    let mut harness = Harness::new(MOST);
    harness.measuring = true;
    ENTRIES.iter().try_for_each(|entry| call_all(&mut harness, entry))?;
    let mut found_all = true;
    for (entry, taken) in ENTRIES.iter().zip(harness.most_stack) {
        let (mut low, mut high) = (LEAST / STEP, MOST / STEP);
        while low < high {
            let middle = (low + high) / 2;
            if holds(entry, middle * STEP)? {
                high = middle;
            } else {
                low = middle + 1;
            }
        }
        let enough = holds(entry, low * STEP)?;
        found_all &= enough;
        let least = if low * STEP == LEAST { " (there are no smaller ones)" } else { "" };
        let thread = if enough { format!("a thread of {} bytes", low * STEP) } else { "no thread".to_string() };
        writeln!(out, "{entry:<8} takes {taken} bytes of stack; {thread} is enough{least}")
            .map_err(|e| e.to_string())?;
    }
    Ok(found_all & stays(&mut harness, out)?)
}

/// Does a listing take as much stack for a long list as for a short one?
fn stays(harness: &mut Harness, mut out: &File) -> Result<bool, String> {
    let mut taken = vec![];
    for places in PLACES {
        harness.most_stack[LIST] = 0;
        list_widest(harness, places)?;
        taken.push(harness.most_stack[LIST]);
    }
    let stays = taken.iter().all(|bytes| *bytes <= taken[0] + LEEWAY);
    let verdict = if stays { "does not grow" } else { "GROWS" };
    writeln!(out, "list     {verdict}: {taken:?} bytes for lists of {PLACES:?} places").map_err(|e| e.to_string())?;
    Ok(stays)
}

fn holds(entry: &str, bytes: usize) -> Result<bool, String> {
    let own = std::env::current_exe().map_err(|e| e.to_string())?;
    let mut child = Command::new(own);
    child.args(["stack-trial", entry, &bytes.to_string()]).stdout(Stdio::null());
    child.status().map(|status| status.success()).map_err(|e| e.to_string())
}

pub fn trial(entry: &str, bytes: usize) -> Result<bool, String> {
    call_all(&mut Harness::new(bytes), entry).map(|()| true)
}

fn call_all(harness: &mut Harness, entry: &str) -> Result<(), String> {
    if entry == ENTRIES[LIST] {
        return PLACES.iter().try_for_each(|&places| list_widest(harness, places));
    }
    for text in deepest().iter().chain(&longest()) {
        for time in 0..TIMES {
            let mut rng = Rng::of_case(8, time);
            let text = text.as_bytes();
            match entry {
                "compile" => harness.compile(text, &mut rng).map(|_| ()),
                "run" => harness.run(&reference::compile(text).code, GIVEN, &mut rng).map(|_| ()),
                _ => harness.walk(text, GIVEN, &mut rng).map(|_| ()),
            }?;
        }
    }
    Ok(())
}

/// Lists so many places with the longest line that there is, in exact room and one byte short.
fn list_widest(harness: &mut Harness, places: usize) -> Result<(), String> {
    let code = vec![Place { kind: -1, level: u16::MAX, operand: i64::MIN }; places];
    let room = places * (LISTING / CODE);
    for time in 0..TIMES {
        let mut rng = Rng::of_case(8, time);
        harness.list(&code, room, &mut rng)?;
        harness.list(&code, room - 1, &mut rng)?;
    }
    Ok(())
}
