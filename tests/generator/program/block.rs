//! Blocks, procedures and bodies.
use super::{Kind, Writer};
use crate::generator::token::{self, NAMES};

const PROCEDURE_NAMES: [&str; 4] = ["q", "r", "p", "sum"];

impl Writer<'_> {
    /// Returns whether the block yields a node; `quiet` makes its body fail quietly.
    pub(super) fn block(&mut self, quiet: bool) -> bool {
        if self.rng.once_in(3) {
            self.put("const");
            for i in 0..self.rng.between(1, 3) {
                self.comma(i);
                self.declare(&NAMES, Kind::Constant, 0);
                self.put(":=");
                let value = token::literal(self.rng);
                self.put(&value);
            }
            self.put(";");
        }
        if !self.rng.once_in(8) {
            self.put("var");
            for i in 0..self.rng.between(1, 4) {
                self.comma(i);
                self.declare(&NAMES, Kind::Variable, 0);
            }
            self.put(";");
        }
        if self.procedures_left > 0 && !self.rng.once_in(4) {
            let before = self.rows.len();
            let quiet = self.chance(self.faults.absorbed);
            if !self.procedure(quiet) {
                self.rows.truncate(before);
            }
        }
        if quiet {
            self.quiet_body(0)
        } else {
            self.body(0)
        }
    }

    pub(super) fn comma(&mut self, members_before: usize) {
        if members_before > 0 {
            self.put(",");
        }
    }

    fn procedure(&mut self, quiet: bool) -> bool {
        self.procedures_left = self.procedures_left.saturating_sub(1);
        let arguments = self.rng.below(4);
        self.put("procedure");
        let own = self.rows.len();
        let name = self.declare(&PROCEDURE_NAMES, Kind::Procedure, arguments);
        self.scope.push(name);
        self.put("(");
        for i in 0..arguments {
            self.comma(i);
            let argument = self.rng.pick(&NAMES).to_string();
            self.add_row(&argument, Kind::Variable, 0);
            self.put(&argument);
        }
        self.put_all(&[")", ";"]);
        let counters = std::mem::take(&mut self.counters);
        let mut yields = self.block(quiet);
        self.counters = counters;
        self.scope.pop();
        self.rows[own].open = false;
        if !quiet && self.procedures_left > 0 && self.rng.once_in(2) {
            self.put(";");
            yields &= self.procedure(false);
        }
        yields
    }

    /// `begin` .. `end`; a body with an empty place is closed or not.
    pub(super) fn body(&mut self, depth: usize) -> bool {
        self.put("begin");
        let mut yields = self.statement(depth, true);
        while self.statements_left > 0 && !self.rng.once_in(4) {
            self.put(";");
            yields &= self.statement(depth, true);
        }
        if self.level() == 0 && depth == 0 && self.rng.once_in(2) {
            self.write_variables();
        }
        if yields || self.rng.once_in(2) {
            self.put("end");
        }
        yields
    }

    /// Shows what the program left in its variables.
    fn write_variables(&mut self) {
        let names: Vec<String> = self.usable(&[Kind::Variable]).into_iter().map(|row| row.name).collect();
        if let Some((first, others)) = names.split_first() {
            self.put_all(&[";", "write", "(", first]);
            others.iter().for_each(|name| self.put_all(&[",", name]));
            self.put(")");
        }
    }

    /// A body with an empty member, and so without its `end`.
    pub(super) fn quiet_body(&mut self, depth: usize) -> bool {
        self.put("begin");
        let members = self.rng.between(1, 3);
        let quiet = self.rng.below(members);
        for i in 0..members {
            if i > 0 {
                self.put(";");
            }
            if i == quiet {
                self.quiet_statement(depth + 1);
            } else {
                self.statement(depth + 1, true);
            }
        }
        false
    }
}
