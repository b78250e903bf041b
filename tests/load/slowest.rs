//! The slowest texts and the slowest steps within the limits.
use crate::harness::Harness;
use crate::CALL_STACK;
use common::generator::LIMITS;
use common::protocol::Place;
use std::fs::File;
use std::io::{Result, Write};
use std::time::Duration;

const TIMES: usize = 5;
const SHOWN: usize = 6;
const BUDGET: u32 = 200_000;
/// Fewer, since a step that goes 65,535 levels up takes long.
const STEPS: u32 = 3_000;

pub fn print(mut out: &File) -> Result<bool> {
    let mut harness = Harness::new(CALL_STACK);
    let mut timed: Vec<(Duration, String)> = vec![];
    for (what, text) in texts() {
        let text = text.as_bytes();
        let compile = shortest(|| harness.time_compile(text));
        timed.push((compile, format!("compile, {what}, {} bytes", text.len())));
        let (walk, _) = shortest(|| harness.time_walk(text, 0));
        timed.push((walk, format!("walk with no budget, {what}, {} bytes", text.len())));
    }
    timed.sort();
    for (time, what) in timed.iter().rev().take(SHOWN) {
        writeln!(out, "{:>12.1} us  {what}", time.as_secs_f64() * 1e6)?;
    }
    for (what, code, input) in step_loops() {
        let (time, steps) = shortest(|| harness.time_run(&code, &input, STEPS));
        writeln!(out, "{:>12.1} ns a step  run, {what}, {steps} steps", each(time, steps))?;
    }
    for (what, text) in [("one variable", loop_over(1)), ("512 variables", loop_over(512))] {
        let (time, steps) = shortest(|| harness.time_walk(text.as_bytes(), BUDGET));
        writeln!(out, "{:>12.1} ns a step  walk, a loop over the last of {what}, {steps} steps", each(time, steps))?;
    }
    Ok(true)
}

fn shortest<T: Ord + Default>(mut timed: impl FnMut() -> T) -> T {
    (0..TIMES).map(|_| timed()).min().unwrap_or_default()
}

fn each(time: Duration, steps: u32) -> f64 {
    time.as_secs_f64() * 1e9 / steps.max(1) as f64
}

fn texts() -> Vec<(String, String)> {
    let at_limits = LIMITS.iter().map(|limit| (format!("most {}", limit.what), (limit.text)(limit.most)));
    at_limits.chain([("one name in hundreds of rows and deep scopes".to_string(), costly_names())]).collect()
}

/// 62 nested procedures with a few equal names in each, and one of the names used as often as it fits.
fn costly_names() -> String {
    let heads: String = (0..62).map(|i| format!("procedure d{i}(); var a,b,c,x,e,f; ")).collect();
    let uses = "x:=x+x+x+x+x+x+x+x;".repeat(180);
    let bodies = " begin x:=1 end".repeat(61);
    format!("program p; var x; {heads}begin {uses}x:=1 end{bodies} begin x:=1 end")
}

/// A loop that changes the last of so many variables until the cells are used up.
fn loop_over(variables: usize) -> String {
    let names: Vec<String> = (0..variables).map(|i| format!("v{i}")).collect();
    let last = &names[variables - 1];
    format!("program p; var {}; begin while 0=0 do {last}:={last}+{last}*2-{last}/3 end", names.join(","))
}

fn place(kind: i8, level: u16, operand: i64) -> Place {
    Place { kind, level, operand }
}

/// Loops whose steps are all of one sort, as far as that can be had.
fn step_loops() -> Vec<(&'static str, Vec<Place>, Vec<u8>)> {
    let far = u16::MAX;
    let long_line = [vec![b' '; 60_000], b"1\n".to_vec()].concat();
    vec![
        ("LIT, STO, JMP", vec![place(6, 0, 4), place(0, 0, 1), place(3, 0, 3), place(7, 0, 1)], vec![]),
        (
            "LOD and STO 65,535 levels up, JMP",
            vec![place(6, 0, 4), place(2, far, 3), place(3, far, 3), place(7, 0, 1)],
            vec![],
        ),
        (
            "CAL 65,535 levels up, return, JMP",
            vec![place(6, 0, 3), place(5, far, 3), place(7, 0, 1), place(1, 0, 0)],
            vec![],
        ),
        (
            "the least i64 written until the room is full",
            vec![place(0, 0, i64::MIN), place(1, 0, 14), place(7, 0, 1)],
            vec![],
        ),
        ("a line of 60,000 blanks read", vec![place(1, 0, 16), place(7, 0, 0)], long_line),
    ]
}
