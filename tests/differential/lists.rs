//! Code lists, run by the engine and by the Rust: random ones and mutations of compiled code.
use crate::ask::{Asked, ListCase};
use crate::judge::{judge_list, top_past, Verdict};
use common::generator::{self, Rng, Sort};
use common::protocol::listed;
use common::reference;
use std::collections::BTreeMap;

const BATCH: u64 = 2_000;
const SHOWN: usize = 5;
const BUDGET: u32 = 20_000;
/// Steps that go many levels up take long; lists with such are given fewer.
const FAR: u16 = 100;
const FAR_BUDGET: u32 = 50;

pub fn compare(asked: &Asked, seed: u64, count: u64) -> Result<bool, String> {
    let (mut ends, mut named, mut differing): (BTreeMap<u8, usize>, usize, usize) = Default::default();
    for from in (0..count).step_by(BATCH as usize) {
        let cases: Vec<ListCase> = (from..count.min(from + BATCH)).map(|place| case(seed, place)).collect();
        for (case, (ended, rust)) in cases.iter().zip(asked.ask_lists(&cases)?) {
            *ends.entry(ended.number).or_default() += 1;
            match judge_list(case, &ended, &rust) {
                Verdict::Same => {}
                Verdict::Named(_) => named += 1,
                Verdict::Differs(why) => {
                    differing += 1;
                    if differing <= SHOWN {
                        println!("{why}\n  code   {}", listed(&case.code));
                        println!("  input  {}\n  wrote  {}", case.input.escape_ascii(), ended.output.escape_ascii());
                    }
                }
            }
        }
    }
    println!("{count} code lists from seed {seed}: ended {ends:?}; {named} named differences; {differing} differences");
    Ok(differing == 0)
}

/// The Rust has no budget, no bound on its output, and goes on with a top past the last cell: a list that does not end by
/// itself is replaced by the next, and so are most of those that end at such a top.
fn case(seed: u64, place: u64) -> ListCase {
    let mut rng = Rng::of_case(seed, place);
    loop {
        let code = if rng.once_in(2) { generator::code_list(&mut rng) } else { from_text(&mut rng) };
        let far = code.iter().any(|place| place.level > FAR);
        let budget = if far { FAR_BUDGET } else { BUDGET };
        let case = ListCase { code, input: generator::input(&mut rng), budget, room: 4_096 };
        let number = reference::run(&case.code, &case.input, case.budget, case.room).number;
        let ends = number != 16 && number != 23 && (!top_past(&case, number) || rng.once_in(40));
        if ends {
            return case;
        }
    }
}

fn from_text(rng: &mut Rng) -> Vec<common::protocol::Place> {
    let text = generator::text(Sort::WellFormed, rng);
    generator::mutated(reference::compile(&text).code, rng)
}
