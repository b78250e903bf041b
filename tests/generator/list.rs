//! Code lists: random ones with values at the edges, and mutations of compiled code.
use super::Rng;
use crate::protocol::Place;

const EDGES: [i64; 16] =
    [0, 1, 2, 3, -1, -2, 4_093, 4_094, 4_095, 4_096, 4_097, 65_536, i64::MAX, i64::MAX - 1, i64::MIN, i64::MIN + 1];

pub fn code_list(rng: &mut Rng) -> Vec<Place> {
    let length = match rng.below(40) {
        0 => 0,
        1 => rng.between(4_090, 4_100),
        2..=9 => rng.between(1, 4),
        _ => rng.between(3, 40),
    };
    let mut code: Vec<Place> = (0..length).map(|_| place(length, rng)).collect();
    if rng.below(4) > 0 && length > 2 {
        code[0] = Place { kind: 6, level: 0, operand: rng.between(3, 12) as i64 };
    }
    code
}

fn place(length: usize, rng: &mut Rng) -> Place {
    let kind = match rng.below(24) {
        0 => rng.byte() as i8,
        1 => -1,
        2 | 3 => 9,
        4 => 10,
        5..=11 => 1,
        12..=15 => 0,
        _ => rng.between(2, 8) as i8,
    };
    Place { kind, level: level(rng), operand: operand(kind, length, rng) }
}

fn level(rng: &mut Rng) -> u16 {
    match rng.below(12) {
        0 => rng.next() as u16,
        1 => *rng.pick(&[65_535, 65_534, 4_095, 4_096, 4_097, 3]),
        2..=4 => rng.between(1, 3) as u16,
        _ => 0,
    }
}

fn operand(kind: i8, length: usize, rng: &mut Rng) -> i64 {
    if rng.once_in(8) {
        return *rng.pick(&EDGES);
    }
    match kind {
        1 => rng.below(18) as i64,
        5 | 7 | 8 => rng.below(length + 2) as i64,
        6 => rng.below(9) as i64,
        0 if rng.once_in(3) => rng.next() as i64,
        _ => rng.below(12) as i64,
    }
}

/// Compiled code with one to four places changed, dropped, doubled or swapped.
pub fn mutated(mut code: Vec<Place>, rng: &mut Rng) -> Vec<Place> {
    for _ in 0..rng.between(1, 4) {
        if code.is_empty() {
            break;
        }
        let at = rng.below(code.len());
        match rng.below(7) {
            0 => drop(code.remove(at)),
            1 => code.insert(at, code[at]),
            2 => {
                let other = rng.below(code.len());
                code.swap(at, other);
            }
            3 => code[at].level = level(rng),
            4 => code[at].kind = rng.between(0, 12) as i8 - 1,
            5 => code[at].operand = operand(code[at].kind, code.len(), rng),
            _ => code[at] = place(code.len(), rng),
        }
    }
    code
}
