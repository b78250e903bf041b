//! Holds the reference to stored cases and answers; walk cases are left out, since it has no walk.
//!   reference CASES ANSWERS
use common::protocol::{compile_answer, ended_answer, unhex, unlisted};
use common::reference;
use std::process::ExitCode;

fn main() -> ExitCode {
    let paths: Vec<String> = std::env::args().skip(1).collect();
    let [cases, answers] = &paths[..] else {
        eprintln!("tests/reference/check says how to call it");
        return ExitCode::from(2);
    };
    let (Ok(cases), Ok(answers)) = (std::fs::read_to_string(cases), std::fs::read_to_string(answers)) else {
        eprintln!("no such cases or answers");
        return ExitCode::from(2);
    };
    let (mut alike, mut others) = (0, 0);
    for (case, stored) in cases.lines().zip(answers.lines()) {
        let Some(answer) = answered(case) else { continue };
        if answer.trim_end() == stored {
            alike += 1;
        } else {
            others += 1;
            println!("stored  {stored}\nhere    {answer}");
        }
    }
    println!("{alike} compile and run cases answered as stored, {others} otherwise");
    if others == 0 && alike > 0 {
        ExitCode::SUCCESS
    } else {
        ExitCode::from(1)
    }
}

fn answered(case: &str) -> Option<String> {
    let words: Vec<&str> = case.split(' ').collect();
    match words[..] {
        [id, "compile", text] => Some(compile_answer(id, &reference::compile(&unhex(text)?))),
        [id, "run", code, input, budget, room] => {
            let ended = reference::run(&unlisted(code)?, &unhex(input)?, budget.parse().ok()?, room.parse().ok()?);
            Some(ended_answer(id, "run", &ended))
        }
        _ => None,
    }
}
