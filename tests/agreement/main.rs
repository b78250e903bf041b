//! Tree and code: on texts without procedures `walk` and `run` end alike, at every budget and room.
//!   agreement REPLAY SEED COUNT
use common::generator::{self, Rng};
use common::protocol::{self, Compiled, Ended};
use std::path::{Path, PathBuf};
use std::process::{Command, ExitCode};

const BATCH: u64 = 2_000;
const SHOWN: usize = 5;
/// The machine's first cells hold its links; the variables stand behind them.
const LINKS: usize = 3;

struct Case {
    text: Vec<u8>,
    input: Vec<u8>,
    budget: u32,
    room: usize,
}

#[derive(Default)]
struct Count {
    accepted: usize,
    parted: usize,
    ends: std::collections::BTreeMap<u8, usize>,
}

fn main() -> ExitCode {
    let words: Vec<String> = std::env::args().skip(1).collect();
    let [replay, seed, count] = &words[..] else {
        eprintln!("tests/agreement/run says how to call it");
        return ExitCode::from(2);
    };
    match (seed.parse(), count.parse()) {
        (Ok(seed), Ok(count)) => match compare_all(Path::new(replay), seed, count) {
            Ok(true) => ExitCode::SUCCESS,
            Ok(false) => ExitCode::from(1),
            Err(message) => {
                eprintln!("agreement: {message}");
                ExitCode::from(2)
            }
        },
        _ => {
            eprintln!("agreement: seed and count are numbers");
            ExitCode::from(2)
        }
    }
}

fn compare_all(replay: &Path, seed: u64, count: u64) -> Result<bool, String> {
    let folder = std::env::temp_dir().join(format!("loopgarret-agreement-{}", std::process::id()));
    std::fs::create_dir_all(&folder).map_err(|e| e.to_string())?;
    let mut total = Count::default();
    let mut done = Ok(());
    for from in (0..count).step_by(BATCH as usize) {
        let cases: Vec<Case> = (from..count.min(from + BATCH)).map(|place| case(seed, place)).collect();
        done = done.and_then(|()| compare(replay, &folder, &cases, &mut total));
    }
    let _ = std::fs::remove_dir_all(&folder);
    done?;
    let Count { accepted, parted, ends } = total;
    println!("{count} texts from seed {seed}: {accepted} accepted and run, ended {ends:?}; {parted} times walk and run parted");
    Ok(parted == 0)
}

fn case(seed: u64, place: u64) -> Case {
    let mut rng = Rng::of_case(seed, place);
    let text = generator::text_without_procedure(&mut rng);
    let input = generator::input(&mut rng);
    let budget = match rng.below(4) {
        0 => rng.below(12) as u32,
        1 => rng.below(300) as u32,
        2 => u32::MAX,
        _ => 40_000,
    };
    let room = if rng.once_in(3) { rng.below(80) } else { 4_096 };
    Case { text, input, budget, room }
}

fn compare(replay: &Path, folder: &PathBuf, cases: &[Case], total: &mut Count) -> Result<(), String> {
    let id = |i: usize| format!("c{i}");
    let compile: String =
        cases.iter().enumerate().map(|(i, case)| protocol::compile_case(&id(i), &case.text)).collect();
    let lines = ask(replay, folder, &compile, cases.len())?;
    let compiled: Option<Vec<Compiled>> =
        lines.iter().enumerate().map(|(i, line)| protocol::read_compiled(&id(i), line)).collect();
    let compiled = compiled.ok_or("replay answered a compile case in other words")?;
    let both = |(i, case): (usize, &Case)| {
        let Case { text, input, budget, room } = case;
        let run = protocol::run_case(&id(i), &compiled[i].code, input, *budget, *room);
        run + &protocol::walk_case(&id(i), text, input, *budget, *room)
    };
    let lines = ask(replay, folder, &cases.iter().enumerate().map(both).collect::<String>(), 2 * cases.len())?;
    for (i, case) in cases.iter().enumerate() {
        let run =
            protocol::read_ended(&id(i), "run", &lines[2 * i]).ok_or("replay answered a run case in other words")?;
        let walk = protocol::read_ended(&id(i), "walk", &lines[2 * i + 1])
            .ok_or("replay answered a walk case in other words")?;
        let agree =
            if compiled[i].number == 0 { alike(&compiled[i], &run, &walk) } else { refused_alike(&compiled[i], &walk) };
        total.accepted += (compiled[i].number == 0) as usize;
        *total.ends.entry(walk.number).or_default() += 1;
        if !agree {
            total.parted += 1;
            if total.parted <= SHOWN {
                show(case, &run, &walk);
            }
        }
    }
    Ok(())
}

fn ask(replay: &Path, folder: &Path, batch: &str, count: usize) -> Result<Vec<String>, String> {
    let answers = folder.join("answers");
    let child = protocol::start(&mut Command::new(replay), batch, &folder.join("cases"), &answers)
        .map_err(|e| e.to_string())?;
    protocol::finish(child, &answers, count).map_err(|e| format!("replay: {e}"))
}

/// Number, output, lines, steps, and walk's place i with the machine's cell 3 + i; no variable beyond them.
fn alike(compiled: &Compiled, run: &Ended, walk: &Ended) -> bool {
    // a text without procedures starts JMP 0 1, INT 0 (3 + its variables)
    let Some(variables) = compiled.code.get(1).and_then(|place| (place.operand as usize).checked_sub(LINKS)) else {
        return false;
    };
    let cells = run.values.iter().skip(LINKS).take(variables).copied().collect::<Vec<i64>>();
    let counts = (walk.number, walk.lines, walk.steps, &walk.output) == (run.number, run.lines, run.steps, &run.output);
    counts && walk.values == protocol::trimmed(&cells)
}

fn refused_alike(compiled: &Compiled, walk: &Ended) -> bool {
    let empty = walk.output.is_empty() && walk.values.is_empty();
    walk.number == compiled.number && (walk.lines, walk.steps) == (0, 0) && empty
}

fn show(case: &Case, run: &Ended, walk: &Ended) {
    println!("walk and run part on  {}", case.text.escape_ascii());
    println!("  input               {}", case.input.escape_ascii());
    println!("  budget, room        {}, {}", case.budget, case.room);
    for (entry, ended) in [("run ", run), ("walk", walk)] {
        let Ended { number, lines, steps, output, values } = ended;
        let values = &values[..values.len().min(24)];
        println!(
            "  {entry}                {number}, {lines} lines, {steps} steps, {}, {values:?}",
            output.escape_ascii()
        );
    }
}
