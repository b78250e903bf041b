//! Programs, token by token. The writer keeps the table of names as the translator will have it at that point, so that a
//! name is used only where it means something, unless it is told to slip; and it knows which statement places it left
//! empty, so that it can leave off the `end` that a quiet body does not read.
mod block;
mod expression;
mod statement;

use super::token::NAMES;
use super::Rng;

const DEEPEST: usize = 5;

#[derive(Clone, Copy, PartialEq)]
enum Kind {
    Constant,
    Variable,
    Procedure,
}

#[derive(Clone)]
struct Row {
    name: String,
    kind: Kind,
    level: usize,
    arguments: usize,
    scope: Vec<String>,
    /// A procedure whose block is still being written.
    open: bool,
}

/// How the writer breaks the rules: once in so many chances, never where it is nothing.
#[derive(Clone, Copy, Default)]
struct Faults {
    /// A name or a number of arguments is taken at random.
    slip: Option<usize>,
    /// A statement place stays empty.
    empty: Option<usize>,
    /// A branch after `else` or a block's procedure fails quietly.
    absorbed: Option<usize>,
}

struct Writer<'a> {
    rng: &'a mut Rng,
    faults: Faults,
    tokens: Vec<String>,
    rows: Vec<Row>,
    scope: Vec<String>,
    statements_left: usize,
    procedures_left: usize,
    /// Counters of the loops that are open: nothing else is assigned to them.
    counters: Vec<String>,
}

pub fn well_formed(rng: &mut Rng) -> Vec<String> {
    let procedures = rng.below(5);
    written(rng, procedures, Faults::default())
}

pub fn without_procedure(rng: &mut Rng) -> Vec<String> {
    let absorbed = if rng.once_in(6) { Some(2) } else { None };
    written(rng, 0, Faults { absorbed, ..Faults::default() })
}

pub fn with_slips(rng: &mut Rng) -> Vec<String> {
    let procedures = rng.below(6);
    let slip = Some(rng.between(8, 60));
    written(rng, procedures, Faults { slip, ..Faults::default() })
}

pub fn quiet_absorbed(rng: &mut Rng) -> Vec<String> {
    let procedures = rng.below(3);
    written(rng, procedures, Faults { absorbed: Some(2), ..Faults::default() })
}

pub fn quiet(rng: &mut Rng) -> Vec<String> {
    let procedures = rng.below(4);
    let empty = Some(rng.between(3, 20));
    written(rng, procedures, Faults { empty, absorbed: Some(6), slip: None })
}

/// A program to spoil.
pub fn any(rng: &mut Rng) -> Vec<String> {
    match rng.below(8) {
        0 => with_slips(rng),
        1 => quiet(rng),
        2 => quiet_absorbed(rng),
        _ => well_formed(rng),
    }
}

fn written(rng: &mut Rng, procedures_left: usize, faults: Faults) -> Vec<String> {
    let statements_left = rng.between(1, 24);
    let (tokens, rows, scope, counters) = (vec![], vec![], vec!["#".to_string()], vec![]);
    let mut writer = Writer { rng, faults, tokens, rows, scope, statements_left, procedures_left, counters };
    writer.put("program");
    let name = writer.rng.pick(&NAMES).to_string();
    writer.put(&name);
    writer.put(";");
    writer.block(false);
    writer.tokens
}

impl Writer<'_> {
    fn put(&mut self, token: &str) {
        self.tokens.push(token.to_string());
    }

    fn put_all(&mut self, tokens: &[&str]) {
        tokens.iter().for_each(|token| self.put(token));
    }

    fn chance(&mut self, fault: Option<usize>) -> bool {
        fault.is_some_and(|times| self.rng.once_in(times))
    }

    fn slips(&mut self) -> bool {
        self.chance(self.faults.slip)
    }

    fn level(&self) -> usize {
        self.scope.len() - 1
    }

    fn add_row(&mut self, name: &str, kind: Kind, arguments: usize) {
        let (level, scope) = (self.level(), self.scope.clone());
        self.rows.push(Row { name: name.to_string(), kind, level, arguments, scope, open: kind == Kind::Procedure });
    }

    /// Writes a name that is new in this scope.
    fn declare(&mut self, names: &[&str], kind: Kind, arguments: usize) -> String {
        let taken =
            |rows: &[Row], scope: &[String], name: &str| rows.iter().any(|row| row.name == name && row.scope == scope);
        let mut name = self.rng.pick(names).to_string();
        if !self.slips() {
            while taken(&self.rows, &self.scope, &name) {
                name = format!("{}{}", self.rng.pick(&NAMES), self.rng.below(100));
            }
        }
        self.add_row(&name, kind, arguments);
        self.put(&name);
        name
    }

    /// The newest row of that name whose scope's names are all in the current scope.
    fn find(&self, name: &str) -> Option<&Row> {
        let visible = |row: &Row| row.scope.iter().all(|scope| self.scope.contains(scope));
        self.rows.iter().rev().find(|row| row.name == name && visible(row))
    }

    /// The rows that a name of one of these kinds may stand for here.
    fn usable(&self, kinds: &[Kind]) -> Vec<Row> {
        let mut names: Vec<&str> = self.rows.iter().map(|row| row.name.as_str()).collect();
        names.sort();
        names.dedup();
        let found = names.iter().filter_map(|name| self.find(name));
        let fits = |row: &&Row| kinds.contains(&row.kind) && (row.kind == Kind::Constant || row.level <= self.level());
        found.filter(fits).cloned().collect()
    }

    fn variable_to_change(&mut self) -> Option<String> {
        if self.slips() {
            return Some(self.rng.pick(&NAMES).to_string());
        }
        let mut rows = self.usable(&[Kind::Variable]);
        rows.retain(|row| !self.counters.contains(&row.name));
        if rows.is_empty() {
            None
        } else {
            Some(self.rng.pick(&rows).name.clone())
        }
    }
}
