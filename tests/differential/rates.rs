//! What the generated texts come to: how many are accepted and halt, which kinds, operators and refusals they reach.
use crate::ask::{Answers, End, Rust};
use crate::judge::Verdict;
use common::generator::{Sort, SORTS};
use std::collections::BTreeMap;

#[derive(Default)]
struct Row {
    texts: usize,
    accepted: usize,
    halted: usize,
}

#[derive(Default)]
pub struct Rates {
    rows: BTreeMap<usize, Row>,
    compile_numbers: BTreeMap<u8, usize>,
    run_numbers: BTreeMap<u8, usize>,
    kinds: BTreeMap<i8, usize>,
    operators: BTreeMap<i64, usize>,
    named: BTreeMap<&'static str, usize>,
    steps: u64,
}

impl Rates {
    pub fn add(&mut self, sort: Sort, answers: &Answers, verdict: &Verdict) {
        let place = SORTS.iter().position(|one| *one == sort).unwrap_or(0);
        let row = self.rows.entry(place).or_default();
        row.texts += 1;
        if let Rust::Code(code, end, _) = &answers.rust {
            row.accepted += 1;
            row.halted += (*end == End::Halted) as usize;
            for place in code {
                *self.kinds.entry(place.kind).or_default() += 1;
                if place.kind == 1 {
                    *self.operators.entry(place.operand).or_default() += 1;
                }
            }
        }
        *self.compile_numbers.entry(answers.compiled.number).or_default() += 1;
        if let Some(ended) = &answers.ended {
            *self.run_numbers.entry(ended.number).or_default() += 1;
            self.steps += ended.steps as u64;
        }
        if let Verdict::Named(why) = verdict {
            *self.named.entry(why).or_default() += 1;
        }
    }

    pub fn summary(&self) -> String {
        let sum = |part: fn(&Row) -> usize| self.rows.values().map(part).sum::<usize>();
        let (accepted, halted) = (sum(|row| row.accepted), sum(|row| row.halted));
        let named: usize = self.named.values().sum();
        format!(
            "{accepted} accepted by the Rust, {halted} of them halted, {} steps; {named} named differences",
            self.steps
        )
    }

    pub fn print(&self) {
        println!("{:<16}{:>10}{:>10}{:>10}", "sort", "texts", "accepted", "halted");
        for (place, row) in &self.rows {
            println!("{:<16}{:>10}{:>10}{:>10}", format!("{:?}", SORTS[*place]), row.texts, row.accepted, row.halted);
        }
        println!("compile's numbers   {:?}", self.compile_numbers);
        println!("run's numbers       {:?}", self.run_numbers);
        println!("instruction kinds   {:?}", self.kinds);
        println!("OPR numbers         {:?}", self.operators);
        println!("named differences   {:?}", self.named);
    }
}
