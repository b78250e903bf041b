//! Is the harness sharp? Each fault is put into the engine's answers and must be reported.
use crate::fault::FAULTS;
use crate::harness::Harness;
use crate::work::Case;
use crate::CALL_STACK;
use common::generator::Rng;
use native::signal::SIGNALLED;
use std::fs::File;
use std::io::Write;
use std::process::Command;

/// So many cases a fault is given to show itself.
const CASES: u64 = 400;

pub fn all(mut out: &File) -> Result<bool, String> {
    let mut harness = Harness::new(CALL_STACK);
    let mut missed = 0;
    for fault in FAULTS {
        harness.fault = Some(fault);
        let reported = (0..CASES).find_map(|place| {
            let mut rng = Rng::of_case(1, place);
            Case::new(&mut rng).tried(&mut harness, &mut rng).err()
        });
        missed += reported.is_none() as usize;
        let answer = reported.map_or("NOT REPORTED".to_string(), |what| format!("reported: {what}"));
        writeln!(out, "{:<16}{answer}", format!("{fault:?}")).map_err(|e| e.to_string())?;
    }
    let child = Command::new(std::env::current_exe().map_err(|e| e.to_string())?).arg("past-the-room").output();
    let status = child.map_err(|e| e.to_string())?.status;
    let caught = status.code() == Some(SIGNALLED);
    missed += !caught as usize;
    writeln!(out, "{:<16}{}", "PastTheRoom", if caught { "reported: a signal" } else { "NOT REPORTED" })
        .map_err(|e| e.to_string())?;
    writeln!(out, "{} faults, {missed} not reported", FAULTS.len() + 1).map_err(|e| e.to_string())?;
    Ok(missed == 0)
}

/// A write one place past the room, at an unreadable page.
pub fn past_the_room() -> Result<bool, String> {
    Harness::new(CALL_STACK).write_past_the_room();
    Err("the write went through".to_string())
}
