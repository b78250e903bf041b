//! Are the engine's answers the Rust's, up to the named differences of docs/DIFFERENCES.md?
use crate::ask::{Answers, Case, End, ListCase, Rust};
use common::protocol::{listed, Ended, Place};
use common::reference::{self, PROMPT};

const INT: i8 = 6;
const RED: i8 = 9;

pub enum Verdict {
    Same,
    /// They part as docs/DIFFERENCES.md says.
    Named(&'static str),
    Differs(String),
}

use Verdict::{Differs, Named, Same};

/// The limits that the Rust does not have.
const LIMITS: [u8; 6] = [1, 2, 7, 8, 14, 15];

pub fn judge(case: &Case, answers: &Answers) -> Verdict {
    let (number, owed) = (answers.compiled.number, reference::compile(&case.text).number);
    if number != owed {
        return Differs(format!("{number} here, {owed} by a plain reading of document 01"));
    }
    match (number, &answers.rust, &answers.ended) {
        _ if LIMITS.contains(&number) => Named("a limit"),
        (0, Rust::Code(code, end, output), Some(ended)) => {
            let run = || judge_compiled(case, code, ended, *end, output);
            first_difference(&answers.compiled.code, code).map_or_else(run, Differs)
        }
        (0, Rust::Code(..), None) => Differs("accepted and not run".to_string()),
        (0, Rust::Refused, _) => Differs("accepted here, refused by the Rust".to_string()),
        (_, Rust::Code(..), _) => Differs(format!("refused here with {number}, accepted by the Rust")),
        (_, Rust::Refused, _) => Same,
    }
}

fn judge_compiled(case: &Case, code: &[Place], ended: &Ended, end: End, output: &[u8]) -> Verdict {
    let run = || judge_run(&case.input, ended, end, output);
    not_owed(ended, reference::run(code, &case.input, case.budget, case.room)).map_or_else(run, Differs)
}

/// How a run parts from document 01's own: in number, lines, steps, output or cells.
fn not_owed(ended: &Ended, owed: Ended) -> Option<String> {
    let Ended { number, lines, steps, .. } = owed;
    let owing =
        || format!("document 01 has it end with {number} after {steps} steps and {lines} lines, or other cells");
    (*ended != owed).then(owing)
}

fn first_difference(here: &[Place], rust: &[Place]) -> Option<String> {
    if here == rust {
        return None;
    }
    let at = here.iter().zip(rust).position(|(a, b)| a != b).unwrap_or(here.len().min(rust.len()));
    let place = |code: &[Place]| code.get(at).map_or("no place".to_string(), |place| listed(&[*place]));
    Some(format!("place {at} is {} here, {} in the Rust", place(here), place(rust)))
}

/// A code list of any kind. Beyond what a compiled one shows: more than 4,096 places, and a top past the last cell, which the
/// Rust notices only when it is used.
pub fn judge_list(case: &ListCase, ended: &Ended, rust: &Rust) -> Verdict {
    let Rust::Code(_, end, output) = rust else { return Differs("the Rust's oracle refused a code list".to_string()) };
    if let Some(difference) = not_owed(ended, reference::run(&case.code, &case.input, case.budget, case.room)) {
        return Differs(difference);
    }
    if ended.number == 15 {
        return Named("a limit");
    }
    if top_past(case, ended.number) && output.starts_with(&ended.output) {
        return Named("a top past the last cell");
    }
    judge_run(&case.input, ended, *end, output)
}

/// Did a run that ended with this number end at an instruction that would have moved top past the last cell?
pub fn top_past(case: &ListCase, number: u8) -> bool {
    let ListCase { code, input, budget, room } = case;
    let refused = || code.get(reference::refused_place(code, input, *budget, *room));
    number == 17 && refused().is_some_and(|place| matches!(place.kind, INT | RED))
}

fn judge_run(input: &[u8], ended: &Ended, end: End, output: &[u8]) -> Verdict {
    let number = ended.number;
    let written = &ended.output[..];
    let same = output == written;
    let and_a_prompt = output.strip_prefix(written) == Some(PROMPT);
    let trapped = end == End::Trapped;
    match number {
        // what the Rust wrote before its time was up may not have reached its file
        _ if end == End::TimeOut && (output.starts_with(written) || written.starts_with(output)) => {
            Named("the Rust's time was up")
        }
        0 if end == End::Halted && same => Same,
        16 | 23 if output.starts_with(written) => Named("16 and 23"),
        17 if trapped && same => Same,
        17 if trapped && and_a_prompt => Named("a refused read's prompt"),
        18..=21 if trapped && same => Same,
        22 if trapped && and_a_prompt => Named("a refused read's prompt"),
        22 if output.starts_with(written) && not_ascii(input, ended.lines) => Named("an entry byte of 128 or more"),
        _ => Differs(format!("the run ended with {number} here and {end:?} in the Rust, or wrote something else")),
    }
}

/// Does the line behind those that were taken hold a byte of 128 or more?
fn not_ascii(input: &[u8], lines_taken: usize) -> bool {
    let next = input.split(|&byte| byte == b'\n').nth(lines_taken);
    next.is_some_and(|line| line.iter().any(|&byte| byte >= 128))
}
