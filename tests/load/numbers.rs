//! Numbers of every length, written twice in rooms of every size that they could need, and one more.
use crate::harness::Harness;
use crate::promises::Given;
use crate::CALL_STACK;
use common::generator::Rng;
use common::protocol::Place;
use std::fs::File;
use std::io::Write;

/// 10 to this power is the last that is within i64.
const MOST_POWER: u32 = 18;
const RANDOM: usize = 4;
const SPACES: usize = 2;
/// LIT, two writes, and JMP to place 0, which halts.
const STEPS: u32 = 4;

pub fn all(mut out: &File) -> Result<bool, String> {
    let mut harness = Harness::new(CALL_STACK);
    let mut rng = Rng::new(3);
    let mut calls = 0;
    for x in numbers(&mut rng) {
        let needed = 2 * (x.to_string().len() + SPACES);
        for room in 0..=needed + 1 {
            let given = Given { input: b"", budget: STEPS, room };
            harness.run(&twice(x), given, &mut rng).map_err(|broken| format!("{x} in a room of {room}: {broken}"))?;
            calls += 1;
        }
    }
    writeln!(out, "{calls} calls that write numbers, no broken promise").map_err(|e| e.to_string())?;
    Ok(true)
}

/// Those beside each power of ten and some between them, of either sign, and the ends of i64.
fn numbers(rng: &mut Rng) -> Vec<i64> {
    let mut all = vec![0, i64::MAX, i64::MIN, i64::MIN + 1];
    for power in (0..=MOST_POWER).map(|k| 10_i64.pow(k)) {
        let span = (9 * power as u64).min((i64::MAX - power) as u64);
        let between = (0..RANDOM).map(|_| power + (rng.next() % span) as i64);
        all.extend([power - 1, power, power + 1].into_iter().chain(between).flat_map(|x| [x, -x]));
    }
    all
}

fn twice(x: i64) -> [Place; 4] {
    [(0, x), (1, 14), (1, 14), (7, 0)].map(|(kind, operand)| Place { kind, level: 0, operand })
}
