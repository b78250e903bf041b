//! Code lists from a seed: compiled code, as it is or with places changed, and places of every kind and width.
use common::generator::{self, Rng, Sort, LIMITS};
use common::protocol::Place;
use native::engine::CODE;
use native::room::Room;

/// The lengths of the first lists of every run: each once with the longest lines that there are, and once at random.
const FIRST: [usize; 6] = [0, 1, CODE, CODE + 1, CODE + 2, LONGEST];
pub const LONGEST: usize = 2 * CODE;
const WIDEST: Place = Place { kind: -1, level: u16::MAX, operand: i64::MIN };
/// A number below 10 to this power is within i64.
const MOST_DIGITS: u32 = 19;
const MOST_LEVEL_DIGITS: u32 = 5;

pub struct Case {
    pub code: Vec<Place>,
    /// Is it just what the engine made of a text?
    pub compiled: bool,
}

impl Case {
    pub fn new(seed: u64, place: u64, room: &mut Room) -> Case {
        let mut rng = Rng::of_case(seed, place);
        if let Some(&length) = FIRST.get(place as usize / 2) {
            let code = if place % 2 == 0 { vec![WIDEST; length] } else { random(length, &mut rng) };
            return Case { code, compiled: false };
        }
        let text = match rng.below(20) {
            0 => Some(long_text(&mut rng)),
            1..=8 => Some(generator::text(Sort::WellFormed, &mut rng)),
            _ => None,
        };
        match text.and_then(|text| room.code(&text)) {
            Some(code) if rng.once_in(4) => Case { code: generator::mutated(code, &mut rng), compiled: false },
            Some(code) => Case { code, compiled: true },
            None if rng.once_in(4) => Case { code: generator::code_list(&mut rng), compiled: false },
            None => Case { code: random(length(&mut rng), &mut rng), compiled: false },
        }
    }
}

/// A text of so many instructions, up to the most that are accepted.
fn long_text(rng: &mut Rng) -> Vec<u8> {
    let limits: Vec<_> = LIMITS.iter().filter(|limit| limit.what.starts_with("instructions")).collect();
    (rng.pick(&limits).text)(rng.between(100, CODE)).into_bytes()
}

fn length(rng: &mut Rng) -> usize {
    match rng.below(60) {
        0 => rng.between(CODE - 6, CODE + 6),
        1 => rng.between(990, 1_010),
        2 => rng.between(90, 110),
        _ => rng.between(1, 40),
    }
}

fn random(length: usize, rng: &mut Rng) -> Vec<Place> {
    (0..length).map(|_| Place { kind: kind(rng), level: level(rng), operand: operand(rng) }).collect()
}

/// Half of them kinds that have letters of their own, or beside these.
fn kind(rng: &mut Rng) -> i8 {
    if rng.once_in(2) {
        rng.byte() as i8
    } else {
        rng.between(0, 12) as i8 - 1
    }
}

fn level(rng: &mut Rng) -> u16 {
    of_width(rng.between(1, MOST_LEVEL_DIGITS as usize) as u32, u16::MAX as u64, rng) as u16
}

fn operand(rng: &mut Rng) -> i64 {
    if rng.once_in(16) {
        return *rng.pick(&[i64::MIN, i64::MIN + 1, i64::MAX, i64::MAX - 1]);
    }
    let size = of_width(rng.between(1, MOST_DIGITS as usize) as u32, i64::MAX as u64, rng) as i64;
    if rng.once_in(2) {
        -size
    } else {
        size
    }
}

/// A number of so many digits that is not above `most`: the least, the greatest or any between.
fn of_width(digits: u32, most: u64, rng: &mut Rng) -> u64 {
    let least = if digits == 1 { 0 } else { 10_u64.pow(digits - 1) };
    let greatest = (10_u64.pow(digits) - 1).min(most);
    match rng.below(8) {
        0 => least,
        1 => greatest,
        _ => least + rng.next() % (greatest - least + 1),
    }
}
