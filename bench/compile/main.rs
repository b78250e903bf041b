//! Compile times: the engine beside the Rust's Parser and Translator, in one process, the Rust's messages silenced.
//!   bench_compile SHEETS
//! The engine's time holds all that a call does: 4,096 code places filled, the working room zeroed.
use native::room::Room;
use native::rust;
use native::silence::silence;
use std::fs::File;
use std::io::Write;
use std::path::Path;
use std::time::{Duration, Instant};

/// Deep enough for the Rust, which calls itself once for each blank byte.
const DEEP_STACK: usize = 1 << 29;
/// Each is timed for so long, and the shortest time counts.
const LASTING: Duration = Duration::from_millis(400);
const MOST_BYTES: usize = 32_768;

fn main() {
    let folder = std::env::args().nth(1).expect("usage: bench_compile SHEETS");
    let out = silence();
    let work = move || print(Path::new(&folder), &out).expect("standard output");
    std::thread::Builder::new().stack_size(DEEP_STACK).spawn(work).expect("a thread").join().expect("figures");
}

fn print(folder: &Path, mut out: &File) -> std::io::Result<()> {
    let mut room = Room::new();
    writeln!(
        out,
        "{:<34}{:>8}{:>8}{:>12}{:>12}{:>9}",
        "sheet", "bytes", "number", "engine us", "the Rust us", "ratio"
    )?;
    let mut ordinary = 0.0;
    for name in ["ordinary-10k.pl0", "ordinary-30k.pl0", "costly-names.pl0"] {
        let text = std::fs::read_to_string(folder.join(name))?;
        let (number, here) = (room.compile(text.as_bytes()).number, shortest(|| room.compile(text.as_bytes())));
        let there = shortest(|| rust::emitted(&text));
        writeln!(out, "{name:<34}{:>8}{number:>8}{here:>12.1}{there:>12.1}{:>9.1}", text.len(), there / here)?;
        if name.starts_with("ordinary") {
            ordinary = here * 1e3 / text.len() as f64;
        }
    }
    writeln!(out, "\n{:<34}{:>8}{:>8}{:>12}{:>12}{:>9}", "text", "bytes", "number", "engine us", "ns a byte", "times")?;
    writeln!(out, "{:<34}{:>8}{:>8}{:>12}{ordinary:>12.2}{:>9.2}", "an ordinary sheet (30k)", "", "", "", 1.0)?;
    for (name, text) in stretched() {
        let (number, here) = (room.compile(text.as_bytes()).number, shortest(|| room.compile(text.as_bytes())));
        let each = here * 1e3 / text.len() as f64;
        writeln!(out, "{name:<34}{:>8}{number:>8}{here:>12.1}{each:>12.2}{:>9.2}", text.len(), each / ordinary)?;
    }
    Ok(())
}

/// The shortest time in microseconds.
fn shortest<R>(mut work: impl FnMut() -> R) -> f64 {
    let started = Instant::now();
    let mut best = f64::MAX;
    while started.elapsed() < LASTING {
        let one = Instant::now();
        let result = work();
        best = best.min(one.elapsed().as_secs_f64() * 1e6);
        drop(result);
    }
    best
}

/// Texts of 32,768 bytes that are all of one thing.
fn stretched() -> Vec<(&'static str, String)> {
    let filled = |front: &str, part: &str, back: &str| {
        let times = (MOST_BYTES - front.len() - back.len()) / part.len();
        let text = format!("{front}{}{back}", part.repeat(times));
        format!("{text}{}", " ".repeat(MOST_BYTES - text.len()))
    };
    let (open, close) = ("(".repeat(63), format!("{} end", ")".repeat(63)));
    vec![
        ("one expression, `+1`", filled("program p; var x; begin x:=1", "+1", " end")),
        ("one expression, long literals", filled("program p; var x; begin x:=1", "*123456789012345678", " end")),
        ("`;`", filled("program p; begin ", ";", "")),
        ("blanks", " ".repeat(MOST_BYTES)),
        ("one name", filled("program ", "n", "; begin write(1) end")),
        ("63 brackets around `+1`", filled(&format!("program p; var x; begin x:={open}1"), "+1", &close)),
        (
            "63 brackets, long literals",
            filled(&format!("program p; var x; begin x:={open}1"), "/123456789012345678", &close),
        ),
    ]
}
