//! Cases from a seed, until so many calls were made or so much time has passed.
use crate::harness::Harness;
use crate::promises::Given;
use crate::sizes;
use common::generator::{self, Rng};
use common::protocol::{self, Place};
use common::reference;
use native::engine::LISTING;
use native::signal::{CALLS, PLACE};
use std::collections::BTreeMap;
use std::fs::File;
use std::io::Write;
use std::sync::atomic::Ordering;
use std::time::Instant;

const SHOWN: usize = 5;
const LONG_INPUT: usize = 60_000;

pub fn work(seed: u64, count: u64, seconds: u64, stack: usize, mut out: &File) -> Result<bool, String> {
    let mut harness = Harness::new(stack);
    harness.measuring = true;
    let started = Instant::now();
    let mut numbers = BTreeMap::new();
    let mut broken = 0;
    let mut place = 0;
    while CALLS.load(Ordering::Relaxed) < count && started.elapsed().as_secs() < seconds && broken < SHOWN {
        PLACE.store(place, Ordering::Relaxed);
        let mut rng = Rng::of_case(seed, place);
        let case = Case::new(&mut rng);
        match case.tried(&mut harness, &mut rng) {
            Ok(number) => *numbers.entry(number).or_insert(0u64) += 1,
            Err(what) => {
                broken += 1;
                writeln!(out, "case {place} of seed {seed}: {what}\n{case}").map_err(|e| e.to_string())?;
            }
        }
        place += 1;
    }
    let calls = CALLS.load(Ordering::Relaxed);
    let took = started.elapsed().as_secs();
    let line = format!("{calls} calls in {place} cases of seed {seed}, {took} s, on a stack of {stack} bytes: {broken} broken promises");
    let [compile, run, walk, list] = harness.most_stack;
    let taken = format!("most stack taken: compile {compile}, run {run}, walk {walk}, list {list} bytes");
    writeln!(out, "{line}\n{taken}\nended with {numbers:?}").map_err(|e| e.to_string())?;
    Ok(broken == 0)
}

/// Shows one case, then tries it alone.
pub fn one(seed: u64, place: u64, stack: usize, mut out: &File) -> Result<bool, String> {
    let mut rng = Rng::of_case(seed, place);
    let case = Case::new(&mut rng);
    writeln!(out, "{case}").map_err(|e| e.to_string())?;
    let number = case.tried(&mut Harness::new(stack), &mut rng)?;
    writeln!(out, "ended with {number}").map_err(|e| e.to_string())?;
    Ok(true)
}

/// What a case tries.
enum What {
    /// A text, compiled beside the Rust; if it is accepted its code is run and listed, as it is or mutated.
    Compile(Vec<u8>),
    /// A text, walked and run.
    Walk(Vec<u8>),
    /// A code list, run.
    Run(Vec<Place>),
    /// A code list, listed.
    List(Vec<Place>),
}

pub struct Case {
    what: What,
    input: Vec<u8>,
    budget: u32,
    room: usize,
}

impl Case {
    pub fn new(rng: &mut Rng) -> Case {
        let what = match rng.below(11) {
            0..=4 => What::Compile(any_text(rng)),
            5 | 6 => What::Walk(generator::text_without_procedure(rng)),
            7 => What::Walk(any_text(rng)),
            8 => What::List(generator::code_list(rng)),
            _ => What::Run(generator::code_list(rng)),
        };
        let mut input = generator::input(rng);
        if rng.once_in(200) && !input.is_empty() {
            input = input.repeat(LONG_INPUT / input.len());
        }
        let room = match rng.below(4) {
            0 => 0,
            1 => rng.below(40),
            _ => 4_096,
        };
        Case { budget: budget(&what, rng), what, input, room }
    }

    /// The number that it ended with, or what promise was broken.
    pub fn tried(&self, harness: &mut Harness, rng: &mut Rng) -> Result<u8, String> {
        let given = Given { input: &self.input, budget: self.budget, room: self.room };
        match &self.what {
            What::Compile(text) => {
                let compiled = harness.compile_beside_the_rust(text, rng)?;
                if compiled.number != 0 {
                    return Ok(compiled.number);
                }
                let code = if rng.once_in(2) { generator::mutated(compiled.code, rng) } else { compiled.code };
                listed(&code, harness, rng)?;
                let ended = harness.run(&code, given, rng)?;
                Ok(ended.map_or(24, |ended| ended.number))
            }
            What::Walk(text) => harness.walk(text, given, rng),
            What::Run(code) => {
                let ended = harness.run(code, given, rng)?;
                Ok(ended.map_or(24, |ended| ended.number))
            }
            What::List(code) => listed(code, harness, rng),
        }
    }
}

/// Lists the code in a room of any size around what it needs.
fn listed(code: &[Place], harness: &mut Harness, rng: &mut Rng) -> Result<u8, String> {
    let (_, whole) = reference::list(code, LISTING);
    harness.list(code, sizes::room(whole.len(), rng), rng)
}

fn any_text(rng: &mut Rng) -> Vec<u8> {
    let sort = generator::sort(rng);
    generator::text(sort, rng)
}

/// 0, 1, small or large. Code lists may go on for ever, and a step of theirs up to 65,535 levels.
fn budget(what: &What, rng: &mut Rng) -> u32 {
    let large = match what {
        What::Run(_) | What::List(_) => 2_000,
        What::Compile(_) => 10_000,
        What::Walk(_) => u32::MAX,
    };
    match rng.below(8) {
        0 => 0,
        1 => 1,
        2 | 3 => rng.below(200) as u32,
        _ => large,
    }
}

impl std::fmt::Display for Case {
    fn fmt(&self, f: &mut std::fmt::Formatter<'_>) -> std::fmt::Result {
        match &self.what {
            What::Compile(text) => writeln!(f, "  compiled  {}", text.escape_ascii())?,
            What::Walk(text) => writeln!(f, "  walked    {}", text.escape_ascii())?,
            What::Run(code) => writeln!(f, "  run       {}", protocol::listed(code))?,
            What::List(code) => writeln!(f, "  listed    {}", protocol::listed(code))?,
        }
        write!(f, "  input {}\n  budget {}, room {}", self.input.escape_ascii(), self.budget, self.room)
    }
}
