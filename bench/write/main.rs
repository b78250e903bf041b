//! How long a run takes to write a number: the engine beside that of another commit, in one process and turn by turn.
//!   bench_write
//! A run pushes the number and writes it again and again. Printed are the least processor time of each engine for one number,
//! and the median of the rounds' ratios, which a busy moment of one round does not move.
#[path = "../clock.rs"]
mod clock;

use clock::now;
use native::engine::{loopgarret_run, Ended, CELLS, CODE};
use std::ptr::NonNull;

type Run = unsafe extern "C" fn(
    *const i8,
    usize,
    *const u16,
    usize,
    *const i64,
    usize,
    *const u8,
    usize,
    u32,
    *mut u8,
    usize,
    *mut i64,
    usize,
) -> Ended;

extern "C" {
    fn before_run(
        kinds: *const i8,
        kinds_count: usize,
        levels: *const u16,
        levels_count: usize,
        operands: *const i64,
        operands_count: usize,
        input: *const u8,
        input_count: usize,
        budget: u32,
        out: *mut u8,
        out_count: usize,
        cells: *mut i64,
        cells_count: usize,
    ) -> Ended;
}

const LIT: i8 = 0;
const OPR: i8 = 1;
const INT: i8 = 6;
const RETURN: i64 = 0;
const WRITE: i64 = 14;
const LINKS: i64 = 3;
const WRITES: usize = CODE - 3;
/// More than the bytes of the longest number and its two spaces.
const SHARE: usize = 24;
const CALLS: usize = 20;
const ROUNDS: usize = 101;
const NUMBERS: [(&str, i64); 5] = [
    ("one digit", 7),
    ("four", 9100),
    ("ten", 1_234_567_890),
    ("ten and a minus", -1_234_567_890),
    ("the least", i64::MIN),
];

fn main() {
    println!("{:<20}{:>12}{:>12}{:>9}", "number", "before ns", "engine ns", "ratio");
    for (name, x) in NUMBERS {
        let mut work = Work::of(x);
        assert_eq!(work.run(before_run), work.run(loopgarret_run), "{x} is written alike");
        let (mut before, mut engine, mut ratios) = (f64::MAX, f64::MAX, vec![]);
        for _ in 0..ROUNDS {
            let (there, here) = (work.timed(before_run), work.timed(loopgarret_run));
            before = before.min(there);
            engine = engine.min(here);
            ratios.push(there / here);
        }
        ratios.sort_by(f64::total_cmp);
        println!("{name:<20}{before:>12.2}{engine:>12.2}{:>9.2}", ratios[ROUNDS / 2]);
    }
}

/// A code list that writes one number over and over, and what a run of it is lent.
struct Work {
    kinds: Vec<i8>,
    levels: Vec<u16>,
    operands: Vec<i64>,
    out: Vec<u8>,
    cells: Vec<i64>,
}

impl Work {
    fn of(x: i64) -> Work {
        let (mut kinds, mut operands) = (vec![INT, LIT], vec![LINKS, x]);
        kinds.resize(CODE, OPR);
        operands.resize(CODE - 1, WRITE);
        operands.push(RETURN);
        Work { kinds, levels: vec![0; CODE], operands, out: vec![0; WRITES * SHARE], cells: vec![0; CELLS] }
    }

    /// What is written, by a run that ends well.
    fn run(&mut self, run: Run) -> Vec<u8> {
        self.out.fill(0);
        let ended = self.call(run);
        assert_eq!((ended.number, ended.steps as usize), (0, CODE));
        self.out[..ended.out_length].to_vec()
    }

    /// The processor time of this thread for one number, in nanoseconds.
    fn timed(&mut self, run: Run) -> f64 {
        let start = now();
        for _ in 0..CALLS {
            self.call(run);
        }
        (now() - start) * 1e9 / (CALLS * WRITES) as f64
    }

    fn call(&mut self, run: Run) -> Ended {
        let Work { kinds, levels, operands, out, cells } = self;
        unsafe {
            run(
                kinds.as_ptr(),
                kinds.len(),
                levels.as_ptr(),
                levels.len(),
                operands.as_ptr(),
                operands.len(),
                NonNull::dangling().as_ptr(),
                0,
                u32::MAX,
                out.as_mut_ptr(),
                out.len(),
                cells.as_mut_ptr(),
                cells.len(),
            )
        }
    }
}
