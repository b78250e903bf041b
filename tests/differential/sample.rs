//! Accepted texts with the Rust's code, as compile cases and answers for a stored replay.
use crate::ask::{finish_oracle, start_oracle, working_folder, Rust};
use common::generator::{self, Rng, Sort};
use common::protocol::{compile_answer, compile_case, hex, Compiled};
use common::reference;
use std::collections::BTreeSet;
use std::path::Path;

/// What a sample must cover: kinds LIT to JPC, the operators that are emitted, and every statement by its first word.
const KINDS: std::ops::RangeInclusive<i8> = 0..=8;
const OPERATORS: [i64; 16] = [0, 1, 2, 3, 4, 5, 6, 8, 9, 10, 11, 12, 13, 14, 15, 16];
const WORDS: [&str; 9] = ["const", "var", "procedure", "if", "else", "while", "call", "read", "write"];
/// Long texts would swell the stored files.
const LONGEST: usize = 600;
const BATCH: u64 = 500;

pub fn sample(oracle: &Path, seed: u64, count: u64, folder: &Path) -> Result<bool, String> {
    let (mut cases, mut answers, mut codes, mut words) = (String::new(), String::new(), vec![], BTreeSet::new());
    let mut from = 0;
    let mut taken = 0;
    while taken < count {
        let texts: Vec<Vec<u8>> = (from..from + BATCH).filter_map(|place| short_text(seed, place)).collect();
        from += BATCH;
        for (text, rust) in texts.iter().zip(ask(oracle, &texts)?) {
            let Rust::Code(code, ..) = rust else { continue };
            if taken < count {
                let id = format!("rust{taken}");
                cases += &compile_case(&id, text);
                answers += &compile_answer(&id, &Compiled { number: 0, code: code.clone() });
                words.extend(reference::tokens(text).into_iter().map(|(start, end)| text[start..end].to_vec()));
                codes.extend(code);
                taken += 1;
            }
        }
    }
    let kinds = KINDS.filter(|kind| !codes.iter().any(|place| place.kind == *kind)).count();
    let operators = OPERATORS
        .iter()
        .filter(|number| !codes.iter().any(|place| place.kind == 1 && place.operand == **number))
        .count();
    let missing_words = WORDS.iter().filter(|word| !words.contains(&word.as_bytes().to_vec())).count();
    std::fs::write(folder.join("cases"), cases).map_err(|e| e.to_string())?;
    std::fs::write(folder.join("answers"), answers).map_err(|e| e.to_string())?;
    println!(
        "{taken} texts and the Rust's code, {} instructions; {} kinds, operators or words missing",
        codes.len(),
        kinds + operators + missing_words
    );
    Ok(kinds + operators + missing_words == 0)
}

fn short_text(seed: u64, place: u64) -> Option<Vec<u8>> {
    let mut rng = Rng::of_case(seed, place);
    let sort =
        *rng.pick(&[Sort::WellFormed, Sort::WellFormed, Sort::QuietAbsorbed, Sort::Slips, Sort::Quiet, Sort::Near]);
    let text = generator::text(sort, &mut rng);
    (text.len() <= LONGEST && text.is_ascii()).then_some(text)
}

fn ask(oracle: &Path, texts: &[Vec<u8>]) -> Result<Vec<Rust>, String> {
    let folder = working_folder()?;
    let child = start_oracle(oracle, &folder, texts.iter().map(|text| (hex(text), &b""[..])))?;
    let answers = finish_oracle(child, &folder, texts.len());
    let _ = std::fs::remove_dir_all(&folder);
    answers
}
