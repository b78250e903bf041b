//! The smallest text that still shows a difference: tokens are dropped, then input lines, while the difference stays.
use crate::ask::{Asked, Case};
use crate::judge::{judge, Verdict};
use common::reference;

/// Runs of tokens up to this length are tried one by one, longer ones by halves.
const SHORT: usize = 12;
/// As many are asked at once: few, since the first that differs is enough.
const BATCH: usize = 24;

pub fn shrunk(asked: &Asked, case: Case) -> Result<Case, String> {
    let plain = first_that_differs(asked, vec![plainly_spaced(&case)])?;
    let mut case = plain.unwrap_or(case);
    loop {
        let size = case.text.len() + case.input.len();
        case = smaller(asked, case)?;
        if case.text.len() + case.input.len() == size {
            return Ok(case);
        }
    }
}

/// Tries every cut once: runs of tokens, the longest first, then pairs and input lines.
fn smaller(asked: &Asked, mut case: Case) -> Result<Case, String> {
    let mut size = reference::tokens(&case.text).len();
    while size > 0 {
        match first_that_differs(asked, without_run(&case, size))? {
            Some(smaller) => case = smaller,
            None if size > SHORT => size = SHORT.max(size / 2),
            None => size -= 1,
        }
    }
    while let Some(smaller) = first_that_differs(asked, [without_pair(&case), without_line(&case)].concat())? {
        case = smaller;
    }
    Ok(case)
}

fn first_that_differs(asked: &Asked, cases: Vec<Case>) -> Result<Option<Case>, String> {
    for some in cases.chunks(BATCH) {
        let answers = asked.ask(some)?;
        let differs = |(case, answers): &(&Case, _)| matches!(judge(case, answers), Verdict::Differs(_));
        if let Some((case, _)) = some.iter().zip(answers).find(differs) {
            return Ok(Some(case.clone()));
        }
    }
    Ok(None)
}

/// The case's tokens but those at some places, a blank between them.
fn with_tokens(case: &Case, keep: impl Fn(usize) -> bool) -> Case {
    let tokens = reference::tokens(&case.text);
    let kept = tokens.iter().enumerate().filter(|(i, _)| keep(*i));
    let words: Vec<&[u8]> = kept.map(|(_, &(start, end))| &case.text[start..end]).collect();
    Case { text: words.join(&b' '), ..case.clone() }
}

fn plainly_spaced(case: &Case) -> Case {
    with_tokens(case, |_| true)
}

/// The case without `size` tokens in a row, wherever they stand.
fn without_run(case: &Case, size: usize) -> Vec<Case> {
    let count = reference::tokens(&case.text).len();
    let step = if size > SHORT { size / 2 } else { 1 };
    let starts = (0..(count + 1).saturating_sub(size)).step_by(step);
    starts.map(|start| with_tokens(case, |i| i < start || i >= start + size)).collect()
}

/// The case without an opening token and the next closing one.
fn without_pair(case: &Case) -> Vec<Case> {
    let tokens = reference::tokens(&case.text);
    let word = |i: usize| &case.text[tokens[i].0..tokens[i].1];
    let mut cases = vec![];
    for first in 0..tokens.len() {
        let closing: &[u8] = match word(first) {
            b"(" => b")",
            b"begin" => b"end",
            _ => continue,
        };
        let seconds = (first + 1..tokens.len()).filter(|&second| word(second) == closing);
        cases.extend(seconds.map(|second| with_tokens(case, |i| i != first && i != second)));
    }
    cases
}

fn without_line(case: &Case) -> Vec<Case> {
    let lines: Vec<&[u8]> = case.input.split_inclusive(|&byte| byte == b'\n').collect();
    let cut = |i: usize| Case { input: [&lines[..i], &lines[i + 1..]].concat().concat(), ..case.clone() };
    (0..lines.len()).map(cut).collect()
}
