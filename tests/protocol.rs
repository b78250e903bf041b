//! The words of a case and of its answer, as `replay` reads and writes them, and how a program is asked a batch of cases.
//!
//! Words stand one blank apart. Bytes are hexadecimal, `-` where there are none. A code list is `KIND,LEVEL,OPERAND` joined
//! by `;`, a list of values is joined by `,` without its trailing zeros; both are `-` where nothing is left.
use std::fs::File;
use std::path::Path;
use std::process::{Child, Command, Stdio};

/// A code place: kind as numbered in the Rust's `PcodeType`, level, operand.
#[derive(Clone, Copy, Debug, PartialEq, Eq)]
pub struct Place {
    pub kind: i8,
    pub level: u16,
    pub operand: i64,
}

/// The answer to a compile case.
#[derive(Clone, Debug, PartialEq, Eq)]
pub struct Compiled {
    pub number: u8,
    pub code: Vec<Place>,
}

/// The answer to a run or walk case. `values` are the cells or the variables, without their trailing zeros.
#[derive(Clone, Debug, PartialEq, Eq)]
pub struct Ended {
    pub number: u8,
    pub lines: usize,
    pub steps: u32,
    pub output: Vec<u8>,
    pub values: Vec<i64>,
}

pub fn hex(bytes: &[u8]) -> String {
    if bytes.is_empty() {
        return "-".to_string();
    }
    const DIGITS: &[u8; 16] = b"0123456789abcdef";
    let digits = bytes.iter().flat_map(|b| [DIGITS[(b >> 4) as usize] as char, DIGITS[(b & 15) as usize] as char]);
    digits.collect()
}

pub fn unhex(word: &str) -> Option<Vec<u8>> {
    if word == "-" {
        return Some(vec![]);
    }
    let digit = |d: u8| (d as char).to_digit(16).map(|v| v as u8);
    word.as_bytes().chunks(2).map(|pair| Some(digit(pair[0])? << 4 | digit(*pair.get(1)?)?)).collect()
}

pub fn listed(code: &[Place]) -> String {
    if code.is_empty() {
        return "-".to_string();
    }
    let places: Vec<String> = code.iter().map(|p| format!("{},{},{}", p.kind, p.level, p.operand)).collect();
    places.join(";")
}

pub fn unlisted(word: &str) -> Option<Vec<Place>> {
    if word == "-" {
        return Some(vec![]);
    }
    let place = |words: &str| {
        let mut parts = words.split(',');
        let kind = parts.next()?.parse().ok()?;
        let level = parts.next()?.parse().ok()?;
        let operand = parts.next()?.parse().ok()?;
        Some(Place { kind, level, operand })
    };
    word.split(';').map(place).collect()
}

pub fn valued(values: &[i64]) -> String {
    let words: Vec<String> = trimmed(values).iter().map(i64::to_string).collect();
    if words.is_empty() {
        "-".to_string()
    } else {
        words.join(",")
    }
}

pub fn unvalued(word: &str) -> Option<Vec<i64>> {
    if word == "-" {
        return Some(vec![]);
    }
    word.split(',').map(|value| value.parse().ok()).collect()
}

/// The values up to the last that is not zero.
pub fn trimmed(values: &[i64]) -> &[i64] {
    let used = values.iter().rposition(|&value| value != 0).map_or(0, |last| last + 1);
    &values[..used]
}

pub fn compile_case(id: &str, text: &[u8]) -> String {
    format!("{id} compile {}\n", hex(text))
}

pub fn run_case(id: &str, code: &[Place], input: &[u8], budget: u32, room: usize) -> String {
    format!("{id} run {} {} {budget} {room}\n", listed(code), hex(input))
}

pub fn walk_case(id: &str, text: &[u8], input: &[u8], budget: u32, room: usize) -> String {
    format!("{id} walk {} {} {budget} {room}\n", hex(text), hex(input))
}

pub fn compile_answer(id: &str, answer: &Compiled) -> String {
    format!("{id} compile {} {} {}\n", answer.number, answer.code.len(), listed(&answer.code))
}

pub fn ended_answer(id: &str, entry: &str, answer: &Ended) -> String {
    let Ended { number, lines, steps, output, values } = answer;
    format!("{id} {entry} {number} {} {lines} {steps} {} {}\n", output.len(), hex(output), valued(values))
}

/// The answer `ID compile NUMBER LENGTH CODE` to the case `id`.
pub fn read_compiled(id: &str, line: &str) -> Option<Compiled> {
    let words: Vec<&str> = line.split(' ').collect();
    let [own, "compile", number, length, code] = words[..] else { return None };
    let answer = Compiled { number: number.parse().ok()?, code: unlisted(code)? };
    (own == id && length.parse() == Ok(answer.code.len())).then_some(answer)
}

/// The answer `ID ENTRY NUMBER OUTLEN LINES STEPS OUTPUT VALUES` to the case `id`.
pub fn read_ended(id: &str, entry: &str, line: &str) -> Option<Ended> {
    let words: Vec<&str> = line.split(' ').collect();
    let [own, own_entry, number, length, lines, steps, output, values] = words[..] else { return None };
    let answer = Ended {
        number: number.parse().ok()?,
        lines: lines.parse().ok()?,
        steps: steps.parse().ok()?,
        output: unhex(output)?,
        values: unvalued(values)?,
    };
    (own == id && own_entry == entry && length.parse() == Ok(answer.output.len())).then_some(answer)
}

/// Writes a batch of cases to the file `cases` and starts `command` with it as standard input; its answers go to `answers`.
pub fn start(command: &mut Command, batch: &str, cases: &Path, answers: &Path) -> std::io::Result<Child> {
    std::fs::write(cases, batch)?;
    command.stdin(File::open(cases)?).stdout(File::create(answers)?).stderr(Stdio::null()).spawn()
}

/// Waits for a program that `start` started and reads its answers, one to each case.
pub fn finish(mut child: Child, answers: &Path, count: usize) -> Result<Vec<String>, String> {
    let status = child.wait().map_err(|e| e.to_string())?;
    let text = std::fs::read_to_string(answers).map_err(|e| e.to_string())?;
    let lines: Vec<String> = text.lines().map(str::to_string).collect();
    if !status.success() || lines.len() != count {
        return Err(format!("{count} cases had {} answers, and the program ended with {status}", lines.len()));
    }
    Ok(lines)
}
