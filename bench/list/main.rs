//! How long it takes to list a code list: the engine beside the Rust's own format, in one process and turn by turn.
//!   bench_list SHEET
//! The Rust prints its Pcode values into a list of bytes that has the room already. Printed are the least processor
//! time of each for a full list, and the median of the rounds' ratios, which a busy moment of one round does not move;
//! then the engine's time for a byte of longer and longer lists.
#[path = "../clock.rs"]
mod clock;

use clock::now;
use common::protocol::Place;
use common::reference;
use native::engine::{loopgarret_list, Listed, CODE, LISTING};
use native::lists::Lists;
use native::rust;
use pl_0::pcode::Pcode;
use std::hint::black_box;
use std::io::Write;

const CALLS: usize = 10;
const ROUNDS: usize = 101;
const LENGTHS: [usize; 4] = [16, 256, 1_024, CODE];
/// Kinds with letters of their own.
const KINDS: usize = 11;

fn main() {
    let sheet = std::env::args().nth(1).expect("usage: bench_list SHEET");
    let mixes = mixes(&std::fs::read(sheet).expect("a sheet"));
    println!("{:<34}{:>8}{:>12}{:>12}{:>9}", "4,096 places", "bytes", "the Rust us", "engine us", "ratio");
    for (name, code) in &mixes {
        beside_the_rust(name, &mut Work::of(code));
    }
    println!("\n{:<34}{:>8}{:>8}{:>12}{:>12}", "the engine alone", "places", "bytes", "engine us", "ns a byte");
    for (name, code) in &mixes {
        LENGTHS.iter().for_each(|&length| alone(name, &mut Work::of(&code[..length])));
    }
}

/// Full lists: the places of a compiled sheet, over and over; numbers of ten digits with a minus; the longest lines.
fn mixes(sheet: &[u8]) -> [(&'static str, Vec<Place>); 3] {
    let compiled = reference::compile(sheet).code;
    assert!(!compiled.is_empty(), "the sheet is refused");
    let filled = |place: &dyn Fn(usize) -> Place| (0..CODE).map(place).collect();
    [
        ("a compiled sheet", filled(&|i| compiled[i % compiled.len()])),
        (
            "ten digits and a minus",
            filled(&|i| Place { kind: (i % KINDS) as i8, level: (i % 3) as u16, operand: -1_234_567_890 - i as i64 }),
        ),
        ("the least i64, level 65,535", filled(&|_| Place { kind: -1, level: u16::MAX, operand: i64::MIN })),
    ]
}

fn beside_the_rust(name: &str, work: &mut Work) {
    work.print();
    let length = work.list();
    assert!(work.out[..length] == work.buffer[..], "{name}: both list alike");
    let (mut there, mut here, mut ratios) = (f64::MAX, f64::MAX, vec![]);
    for _ in 0..ROUNDS {
        let (rust, engine) = (timed(CALLS, || work.print()), timed(CALLS, || work.list()));
        there = there.min(rust);
        here = here.min(engine);
        ratios.push(rust / engine);
    }
    ratios.sort_by(f64::total_cmp);
    println!("{name:<34}{length:>8}{there:>12.1}{here:>12.1}{:>9.2}", ratios[ROUNDS / 2]);
}

fn alone(name: &str, work: &mut Work) {
    let (places, length) = (work.pcodes.len(), work.list());
    let calls = CALLS * CODE / places;
    let least = (0..ROUNDS).map(|_| timed(calls, || work.list())).fold(f64::MAX, f64::min);
    println!("{name:<34}{places:>8}{length:>8}{least:>12.2}{:>12.3}", least * 1e3 / length as f64);
}

/// The processor time of this thread for one call, in microseconds.
fn timed<R>(calls: usize, mut call: impl FnMut() -> R) -> f64 {
    let start = now();
    for _ in 0..calls {
        black_box(call());
    }
    (now() - start) * 1e6 / calls as f64
}

/// A code list as the engine and as the Rust has it, and room for its lines.
struct Work {
    lists: Lists,
    pcodes: Vec<Pcode>,
    out: Vec<u8>,
    buffer: Vec<u8>,
}

impl Work {
    fn of(code: &[Place]) -> Work {
        let pcodes = code.iter().map(rust::pcode).collect();
        Work { lists: Lists::of(code), pcodes, out: vec![0; LISTING], buffer: Vec::with_capacity(LISTING) }
    }

    /// By the engine: how many bytes.
    fn list(&mut self) -> usize {
        let Work { lists: Lists { kinds, levels, operands }, out, .. } = self;
        let Listed { number, out_length } = unsafe {
            loopgarret_list(
                kinds.as_ptr(),
                kinds.len(),
                levels.as_ptr(),
                levels.len(),
                operands.as_ptr(),
                operands.len(),
                out.as_mut_ptr(),
                out.len(),
            )
        };
        assert_eq!(number, 0);
        out_length
    }

    /// By the Rust, as its `show_pcode_list` formats each line.
    fn print(&mut self) {
        self.buffer.clear();
        for (i, pcode) in black_box(&self.pcodes).iter().enumerate() {
            writeln!(self.buffer, "{:4}| {:4} {:4}   {:>}", i, pcode.f, pcode.l, pcode.a).expect("room");
        }
    }
}
