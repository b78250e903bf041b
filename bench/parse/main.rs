//! The parser alone: its time per byte on ordinary sheets and on texts that are all of one thing, and the smallest stack on
//! which it reads the deepest texts.
//!   bench_parse SHEETS            the figures
//!   bench_parse deep STACK KIND   reads the deepest text of one kind on a thread with that much stack
use std::path::Path;
use std::process::Command;
use std::time::{Duration, Instant};

extern "C" {
    fn loopgarret_parse(text: *const u8, text_count: usize, tree: *mut u32, tree_count: usize) -> u8;
}

const TREE: usize = 98_400;
const MOST_BYTES: usize = 32_768;
/// Each text is read again and again for so long, and the shortest time counts.
const LASTING: Duration = Duration::from_millis(400);

fn parse(text: &[u8], tree: &mut [u32]) -> u8 {
    unsafe { loopgarret_parse(text.as_ptr(), text.len(), tree.as_mut_ptr(), tree.len()) }
}

/// The shortest time in nanoseconds for each byte.
fn each_byte(text: &str, tree: &mut [u32]) -> f64 {
    let started = Instant::now();
    let mut best = f64::MAX;
    while started.elapsed() < LASTING {
        let one = Instant::now();
        parse(text.as_bytes(), tree);
        best = best.min(one.elapsed().as_secs_f64() * 1e9);
    }
    best / text.len() as f64
}

/// Texts of 32,768 bytes that are all of one thing.
fn stretched() -> Vec<(&'static str, String)> {
    let filled = |front: &str, part: &str, back: &str| {
        let times = (MOST_BYTES - front.len() - back.len()) / part.len();
        let text = format!("{front}{}{back}", part.repeat(times));
        format!("{text}{}", " ".repeat(MOST_BYTES - text.len()))
    };
    let (open, close) = ("(".repeat(63), format!("{} end", ")".repeat(63)));
    vec![
        ("one expression, `+1`", filled("program p; var x; begin x:=1", "+1", " end")),
        ("one expression, longer names", filled("program p; var x; begin x:=1", "+abcdefg", " end")),
        ("`;`", filled("program p; begin ", ";", "")),
        ("blanks", " ".repeat(MOST_BYTES)),
        ("one name", filled("program ", "n", "; begin write(1) end")),
        ("63 brackets around a chain", filled(&format!("program p; var x; begin x:={open}1"), "+abcdefg", &close)),
    ]
}

/// The deepest texts: 64 constructs open at once, of every kind.
fn deepest(kind: &str) -> String {
    let inside = |open: &str, times: usize, middle: &str, close: &str| {
        format!("program p; var x; begin {}{middle}{} end", open.repeat(times), close.repeat(times))
    };
    match kind {
        "brackets" => format!("program p; var x; begin x:={}1{} end", "(".repeat(63), ")".repeat(63)),
        "if" => inside("if x=1 then ", 63, "x:=1", ""),
        "else" => inside("if x=1 then x:=1 else ", 63, "x:=1", ""),
        "while" => inside("while x=1 do ", 63, "x:=1", ""),
        "begin" => inside("begin ", 63, "x:=1", " end"),
        "statements, then brackets" => {
            inside("while x=1 do ", 31, &format!("x:={}1{}", "(".repeat(32), ")".repeat(32)), "")
        }
        "procedures" => {
            let (open, close) = ("procedure q(); ".repeat(63), "begin x:=1 end ".repeat(63));
            format!("program p; var x; {open}{close}begin x:=1 end")
        }
        "later procedures" => {
            let more = "; procedure q(); begin x:=1 end".repeat(62);
            format!("program p; var x; procedure q(); begin x:=1 end{more} begin x:=1 end")
        }
        other => panic!("no such kind: {other}"),
    }
}

const KINDS: [&str; 8] =
    ["brackets", "if", "else", "while", "begin", "statements, then brackets", "procedures", "later procedures"];

fn read_deep(stack: usize, kind: &str) {
    let text = deepest(kind);
    let mut tree = vec![0; TREE];
    let work = move || parse(text.as_bytes(), &mut tree);
    let number =
        std::thread::Builder::new().stack_size(stack).spawn(work).expect("a thread").join().expect("an answer");
    assert_eq!(number, 0, "{kind}");
}

/// Whether a process of its own reads the text with that much stack.
fn suffices(stack: usize, kind: &str) -> bool {
    let program = std::env::current_exe().expect("this program");
    let ended = Command::new(program).args(["deep", &stack.to_string(), kind]).output().expect("a process");
    ended.status.success()
}

fn smallest_stack(kind: &str) -> usize {
    let (mut few, mut enough) = (0, 1 << 20);
    assert!(suffices(enough, kind), "{kind}");
    while enough - few > 1024 {
        let middle = (few + enough) / 2;
        if suffices(middle, kind) {
            enough = middle;
        } else {
            few = middle;
        }
    }
    enough
}

fn main() {
    let words: Vec<String> = std::env::args().collect();
    if words.len() == 4 && words[1] == "deep" {
        return read_deep(words[2].parse().expect("bytes"), &words[3]);
    }
    let folder = words.get(1).expect("usage: bench_parse SHEETS").clone();
    let mut tree = vec![0; TREE];
    let mut ordinary = 0.0;
    println!("{:<34}{:>8}{:>8}{:>12}{:>9}", "text", "bytes", "number", "ns a byte", "times");
    for name in ["ordinary-10k.pl0", "ordinary-30k.pl0", "costly-names.pl0"] {
        let text = std::fs::read_to_string(Path::new(&folder).join(name)).expect("a sheet");
        let each = each_byte(&text, &mut tree);
        if name == "ordinary-30k.pl0" {
            ordinary = each;
        }
        println!("{name:<34}{:>8}{:>8}{each:>12.2}", text.len(), parse(text.as_bytes(), &mut tree));
    }
    for (name, text) in stretched() {
        let each = each_byte(&text, &mut tree);
        let number = parse(text.as_bytes(), &mut tree);
        println!("{name:<34}{:>8}{number:>8}{each:>12.2}{:>9.2}", text.len(), each / ordinary);
    }
    println!("\n{:<34}{:>20}", "64 constructs open at once", "smallest stack");
    for kind in KINDS {
        println!("{kind:<34}{:>14} bytes", smallest_stack(kind));
    }
}
