//! Asks the engine's `replay` and the Rust's oracle a batch of cases: one process for a batch, cases and answers in files.
use common::protocol::{self, Compiled, Ended, Place};
use std::path::{Path, PathBuf};
use std::process::{Child, Command};

#[derive(Clone)]
pub struct Case {
    pub text: Vec<u8>,
    pub input: Vec<u8>,
    pub budget: u32,
    pub room: usize,
}

pub struct ListCase {
    pub code: Vec<Place>,
    pub input: Vec<u8>,
    pub budget: u32,
    pub room: usize,
}

/// How the Rust's run ended.
#[derive(Clone, Copy, Debug, PartialEq)]
pub enum End {
    Halted,
    Trapped,
    TimeOut,
    Long,
}

/// What the Rust made of a text: nothing, or its code, the end of its run and what that wrote.
pub enum Rust {
    Refused,
    Code(Vec<Place>, End, Vec<u8>),
}

/// `ended` is there for accepted texts: the run of the engine's own code.
pub struct Answers {
    pub compiled: Compiled,
    pub ended: Option<Ended>,
    pub rust: Rust,
}

pub struct Asked {
    replay: PathBuf,
    oracle: PathBuf,
    folder: PathBuf,
}

impl Asked {
    pub fn new(replay: &Path, oracle: &Path) -> Result<Asked, String> {
        if !replay.exists() {
            return Err(format!("there is no {}", replay.display()));
        }
        Ok(Asked { replay: replay.to_path_buf(), oracle: oracle.to_path_buf(), folder: working_folder()? })
    }

    pub fn ask(&self, cases: &[Case]) -> Result<Vec<Answers>, String> {
        let texts = cases.iter().map(|case| (protocol::hex(&case.text), &case.input[..]));
        let rust = start_oracle(&self.oracle, &self.folder, texts)?;
        let compiled = self.compile(cases)?;
        let ended = self.run(cases, &compiled)?;
        let rust = finish_oracle(rust, &self.folder, cases.len())?;
        let answers = compiled.into_iter().zip(ended).zip(rust);
        Ok(answers.map(|((compiled, ended), rust)| Answers { compiled, ended, rust }).collect())
    }

    fn compile(&self, cases: &[Case]) -> Result<Vec<Compiled>, String> {
        let batch: String =
            cases.iter().enumerate().map(|(i, case)| protocol::compile_case(&id(i), &case.text)).collect();
        let lines = self.ask_replay("compile", &batch, cases.len())?;
        let read = |(i, line): (usize, &String)| protocol::read_compiled(&id(i), line).ok_or(unclear(line));
        lines.iter().enumerate().map(read).collect()
    }

    /// Runs what was accepted.
    fn run(&self, cases: &[Case], compiled: &[Compiled]) -> Result<Vec<Option<Ended>>, String> {
        let accepted: Vec<usize> = (0..cases.len()).filter(|&i| compiled[i].number == 0).collect();
        let case =
            |&i: &usize| protocol::run_case(&id(i), &compiled[i].code, &cases[i].input, cases[i].budget, cases[i].room);
        let batch: String = accepted.iter().map(case).collect();
        let lines = self.ask_replay("run", &batch, accepted.len())?;
        let mut ended: Vec<Option<Ended>> = vec![None; cases.len()];
        for (&i, line) in accepted.iter().zip(&lines) {
            let answer = protocol::read_ended(&id(i), "run", line).ok_or(unclear(line))?;
            ended[i] = Some(answer);
        }
        Ok(ended)
    }

    /// Runs code lists on both.
    pub fn ask_lists(&self, cases: &[ListCase]) -> Result<Vec<(Ended, Rust)>, String> {
        let word =
            |code: &[Place]| if code.is_empty() { "@".to_string() } else { format!("@{}", protocol::listed(code)) };
        let lists = cases.iter().map(|case| (word(&case.code), &case.input[..]));
        let rust = start_oracle(&self.oracle, &self.folder, lists)?;
        let line =
            |(i, case): (usize, &ListCase)| protocol::run_case(&id(i), &case.code, &case.input, case.budget, case.room);
        let batch: String = cases.iter().enumerate().map(line).collect();
        let lines = self.ask_replay("run", &batch, cases.len())?;
        let read = |(i, line): (usize, &String)| protocol::read_ended(&id(i), "run", line).ok_or(unclear(line));
        let ended: Vec<Ended> = lines.iter().enumerate().map(read).collect::<Result<_, _>>()?;
        Ok(ended.into_iter().zip(finish_oracle(rust, &self.folder, cases.len())?).collect())
    }

    fn ask_replay(&self, entry: &str, batch: &str, count: usize) -> Result<Vec<String>, String> {
        let (cases, answers) =
            (self.folder.join(format!("{entry}-cases")), self.folder.join(format!("{entry}-answers")));
        let child =
            protocol::start(&mut Command::new(&self.replay), batch, &cases, &answers).map_err(|e| e.to_string())?;
        protocol::finish(child, &answers, count).map_err(|e| format!("replay: {e}"))
    }
}

fn unclear(line: &str) -> String {
    format!("what does replay mean by {line}")
}

fn id(place: usize) -> String {
    format!("c{place}")
}

/// A folder for cases and answers, this process's own.
pub fn working_folder() -> Result<PathBuf, String> {
    let folder = std::env::temp_dir().join(format!("loopgarret-differential-{}", std::process::id()));
    std::fs::create_dir_all(&folder).map_err(|e| e.to_string())?;
    Ok(folder)
}

impl Drop for Asked {
    fn drop(&mut self) {
        let _ = std::fs::remove_dir_all(&self.folder);
    }
}

/// Seconds after which the Rust's run is ended: the least that it can be told.
const ORACLE_SECONDS: &str = "1";

/// A case is the oracle's word for a text or a code list, and the input.
pub fn start_oracle<'a>(
    oracle: &Path,
    folder: &Path,
    cases: impl Iterator<Item = (String, &'a [u8])>,
) -> Result<Child, String> {
    let case = |(i, (word, input)): (usize, (String, &[u8]))| format!("{} {word} {}\n", id(i), protocol::hex(input));
    let batch: String = cases.enumerate().map(case).collect();
    let path = folder.join("oracle-cases");
    let mut command = Command::new(oracle);
    // its panics are answers, and a backtrace for each would take most of the time
    command.arg(&path).env("ORACLE_SECONDS", ORACLE_SECONDS).env("RUST_BACKTRACE", "0");
    protocol::start(&mut command, &batch, &path, &folder.join("oracle-answers")).map_err(|e| e.to_string())
}

pub fn finish_oracle(child: Child, folder: &Path, count: usize) -> Result<Vec<Rust>, String> {
    let lines = protocol::finish(child, &folder.join("oracle-answers"), count)
        .map_err(|e| format!("the Rust's oracle: {e}"))?;
    lines.iter().map(|line| read_rust(line).ok_or(format!("what does the Rust's oracle mean by {line}"))).collect()
}

fn read_rust(line: &str) -> Option<Rust> {
    let words: Vec<&str> = line.split(' ').collect();
    let [_, "code", code, end, output] = words[..] else {
        return (words.get(1) == Some(&"refused")).then_some(Rust::Refused);
    };
    let end = match end {
        "halted" => End::Halted,
        "trapped" => End::Trapped,
        "timeout" => End::TimeOut,
        "long" => End::Long,
        _ => return None,
    };
    Some(Rust::Code(protocol::unlisted(code)?, end, protocol::unhex(output)?))
}
