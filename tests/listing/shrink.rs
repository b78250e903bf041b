//! The smallest code list that still differs.
use common::protocol::Place;

/// So many lists are tried on the way at most.
const TRIALS: usize = 400;
const PLAIN: Place = Place { kind: 0, level: 0, operand: 0 };

/// `differs` says what differs on a list. Handed back are the list that was found and what differs on it.
pub fn smallest(
    mut code: Vec<Place>,
    mut why: String,
    mut differs: impl FnMut(&[Place]) -> Option<String>,
) -> (Vec<Place>, String) {
    let mut left = TRIALS;
    let mut size = code.len();
    while size > 0 && left > 0 {
        match first_that_differs(without_run(&code, size), &mut left, &mut differs) {
            Some(smaller) => (code, why) = smaller,
            None => size /= 2,
        }
    }
    while let Some(plainer) = first_that_differs(plainer(&code), &mut left, &mut differs) {
        (code, why) = plainer;
    }
    (code, why)
}

fn first_that_differs(
    lists: impl Iterator<Item = Vec<Place>>,
    left: &mut usize,
    differs: &mut impl FnMut(&[Place]) -> Option<String>,
) -> Option<(Vec<Place>, String)> {
    for code in lists {
        *left = left.checked_sub(1)?;
        if let Some(why) = differs(&code) {
            return Some((code, why));
        }
    }
    None
}

/// The list without `size` places in a row, one after the other.
fn without_run(code: &[Place], size: usize) -> impl Iterator<Item = Vec<Place>> + '_ {
    let starts = (0..code.len()).step_by(size);
    starts.map(move |start| [&code[..start], &code[(start + size).min(code.len())..]].concat())
}

/// The list with one part of one place made plain.
fn plainer(code: &[Place]) -> impl Iterator<Item = Vec<Place>> + '_ {
    let with = |i: usize, place: Place| [&code[..i], &[place], &code[i + 1..]].concat();
    let parts = move |(i, &place): (usize, &Place)| {
        let plainer = [
            Place { kind: PLAIN.kind, ..place },
            Place { level: PLAIN.level, ..place },
            Place { operand: PLAIN.operand, ..place },
        ];
        plainer.into_iter().filter(move |plainer| *plainer != place).map(move |plainer| with(i, plainer))
    };
    code.iter().enumerate().flat_map(parts)
}
