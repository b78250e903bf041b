// The proved machine beside the Rust's `interpret`, in one process: the time of each over the same code, and the ratio.
//
//   machine LONG.pl0
//
// Both run the code that the Rust's translator makes of LONG.pl0, and a short program that is called over and over. The two
// take turns, so that whatever else the computer does falls on both. Printed are the least processor time of each, and the
// median of the rounds' ratios, which a busy moment of one round does not move.
#[path = "../clock.rs"]
mod clock;

use clock::now;
use std::fs::File;
use std::os::fd::AsRawFd;
use std::ptr::NonNull;

use pl_0::parser::Parser;
use pl_0::pcode::PCodeManager;
use pl_0::translator::Translator;
use pl_0::vm::basic::VM;

#[repr(C)]
struct Ended {
    number: u8,
    out_len: usize,
    lines: usize,
    steps: u32,
}

extern "C" {
    fn loopgarret_run(
        kinds: *const i8,
        kinds_count: usize,
        levels: *const u16,
        levels_count: usize,
        operands: *const i64,
        operands_count: usize,
        input: *const u8,
        input_count: usize,
        budget: u32,
        out: *mut u8,
        out_count: usize,
        cells: *mut i64,
        cells_count: usize,
    ) -> Ended;
    fn dup(fd: i32) -> i32;
    fn dup2(from: i32, to: i32) -> i32;
}

const SHORT: &str = "program p; var x, y; begin x := 3; y := x * 4 - 1; if y > x then x := y else y := x end";
const CALLS: u32 = 5_000;
const ROUNDS: usize = 31;
const CELLS: usize = 4096;
const OUT: usize = 4096;
const STANDARD_OUTPUT: i32 = 1;

struct Code {
    manager: PCodeManager,
    kinds: Vec<i8>,
    levels: Vec<u16>,
    operands: Vec<i64>,
}

fn compiled(text: &str) -> Code {
    let mut parser = Parser::new(text);
    parser.parse();
    let manager = Translator::default().translate(&parser.take_ast_entry());
    let list = &manager.pcode_list;
    let kinds = list.iter().map(|p| p.f as i8).collect();
    let levels = list.iter().map(|p| p.l as u16).collect();
    let operands = list.iter().map(|p| p.a).collect();
    Code { manager, kinds, levels, operands }
}

fn run(code: &Code, out: &mut [u8], cells: &mut [i64]) -> Ended {
    let (kinds, levels, operands) = (&code.kinds, &code.levels, &code.operands);
    let ended = unsafe {
        loopgarret_run(
            kinds.as_ptr(),
            kinds.len(),
            levels.as_ptr(),
            levels.len(),
            operands.as_ptr(),
            operands.len(),
            NonNull::dangling().as_ptr(),
            0,
            u32::MAX,
            out.as_mut_ptr(),
            out.len(),
            cells.as_mut_ptr(),
            cells.len(),
        )
    };
    assert_eq!((ended.number, ended.lines), (0, 0));
    assert!(ended.out_len <= out.len());
    ended
}

fn seconds(calls: u32, mut work: impl FnMut()) -> f64 {
    let start = now();
    for _ in 0..calls {
        work();
    }
    now() - start
}

// The least time of each, and the median of the rounds' ratios.
struct Figures {
    rust: f64,
    proved: f64,
    ratio: f64,
    steps: u32,
}

fn timed(code: &Code, calls: u32) -> Figures {
    let (mut out, mut cells) = (vec![0u8; OUT], vec![0i64; CELLS]);
    let steps = run(code, &mut out, &mut cells).steps;
    let (mut rust, mut proved, mut ratios) = (f64::MAX, f64::MAX, vec![]);
    for _ in 0..ROUNDS {
        let theirs = seconds(calls, || VM::new(code.manager.clone()).interpret());
        let ours = seconds(calls, || drop(run(code, &mut out, &mut cells)));
        rust = rust.min(theirs);
        proved = proved.min(ours);
        ratios.push(theirs / ours);
    }
    ratios.sort_by(f64::total_cmp);
    Figures { rust, proved, ratio: ratios[ROUNDS / 2], steps }
}

fn main() {
    let path = std::env::args().nth(1).expect("usage: machine LONG.pl0");
    let text = std::fs::read_to_string(path).unwrap();
    // the Rust writes to standard output: that goes nowhere, and the figures to the one that we were given
    let null = File::options().write(true).open("/dev/null").unwrap();
    let given = unsafe { dup(STANDARD_OUTPUT) };
    unsafe { dup2(null.as_raw_fd(), STANDARD_OUTPUT) };
    let long = timed(&compiled(&text), 1);
    let short = timed(&compiled(SHORT), CALLS);
    unsafe { dup2(given, STANDARD_OUTPUT) };
    let each = |seconds: f64, count: u32| seconds / count as f64 * 1e9;
    println!(
        "long run of {} steps: the Rust {:.2} ns a step, the proved machine {:.2}; {:.2} times its speed",
        long.steps,
        each(long.rust, long.steps),
        each(long.proved, long.steps),
        long.ratio
    );
    println!(
        "calls of {} steps: the Rust {:.0} ns a call, the proved machine {:.0}; {:.2} times its speed",
        short.steps,
        each(short.rust, CALLS),
        each(short.proved, CALLS),
        short.ratio
    );
}
