//! Generates, asks, judges and reports.
use crate::ask::{Answers, Asked, Case, Rust};
use crate::judge::{judge, Verdict};
use crate::rates::Rates;
use crate::shrink::shrunk;
use common::generator::{self, Rng, Sort};
use common::protocol::{self, Ended};

const BATCH: u64 = 2_000;
const SHOWN: usize = 5;

pub fn compare(asked: &Asked, seed: u64, count: u64, show_rates: bool) -> Result<bool, String> {
    let mut rates = Rates::default();
    let mut differing = 0;
    let mut from = 0;
    while from < count {
        let places: Vec<u64> = (from..count.min(from + BATCH)).collect();
        let (sorts, cases): (Vec<Sort>, Vec<Case>) = places.iter().map(|&place| case(seed, place)).unzip();
        let answers = asked.ask(&cases)?;
        for (i, answers) in answers.iter().enumerate() {
            let verdict = judge(&cases[i], answers);
            rates.add(sorts[i], answers, &verdict);
            if let Verdict::Differs(why) = verdict {
                differing += 1;
                if differing <= SHOWN {
                    println!("text {} of seed {seed}, {:?}: {why}", places[i], sorts[i]);
                    show(asked, cases[i].clone())?;
                }
            }
        }
        from += BATCH;
    }
    if show_rates {
        rates.print();
    }
    println!("{count} texts from seed {seed}: {}; {differing} differences", rates.summary());
    Ok(differing == 0)
}

fn case(seed: u64, place: u64) -> (Sort, Case) {
    let mut rng = Rng::of_case(seed, place);
    let sort = generator::sort(&mut rng);
    let text = generator::text(sort, &mut rng);
    let input = generator::input(&mut rng);
    let budget = if rng.once_in(10) { rng.below(400) as u32 } else { 30_000 };
    let room = if rng.once_in(10) { rng.below(200) } else { 4_096 };
    (sort, Case { text, input, budget, room })
}

fn show(asked: &Asked, case: Case) -> Result<(), String> {
    let case = shrunk(asked, case)?;
    let answers = asked.ask(std::slice::from_ref(&case))?;
    let Some(Answers { compiled, ended, rust }) = answers.first() else { return Ok(()) };
    println!("  smallest text  {}", case.text.escape_ascii());
    println!("  input          {}", case.input.escape_ascii());
    println!("  budget, room   {}, {}", case.budget, case.room);
    println!("  engine         {} {}", compiled.number, protocol::listed(&compiled.code));
    if let Some(Ended { number, output, steps, .. }) = ended {
        println!("                 ran {steps} steps, ended with {number}, wrote {}", output.escape_ascii());
    }
    match rust {
        Rust::Refused => println!("  the Rust       refused"),
        Rust::Code(code, end, output) => {
            println!("  the Rust       0 {}", protocol::listed(code));
            println!("                 {end:?}, wrote {}", output.escape_ascii());
        }
    }
    Ok(())
}
