//! Statements.
use super::{Kind, Row, Writer, DEEPEST};
use crate::generator::token::NAMES;

impl Writer<'_> {
    /// Returns whether the statement yields a node.
    pub(super) fn statement(&mut self, depth: usize, in_list: bool) -> bool {
        self.statements_left = self.statements_left.saturating_sub(1);
        if self.chance(self.faults.empty) {
            return false;
        }
        if depth >= DEEPEST || self.statements_left == 0 {
            return self.simple_statement();
        }
        match self.rng.below(20) {
            0..=2 => self.if_statement(depth + 1),
            3 | 4 => self.counted_loop(depth + 1, in_list),
            5 if self.rng.once_in(6) => self.while_statement(depth + 1),
            6 => self.body(depth + 1),
            _ => self.simple_statement(),
        }
    }

    fn simple_statement(&mut self) -> bool {
        match self.rng.below(12) {
            0..=4 => self.assign(),
            5..=7 => self.call(),
            8 if self.rng.once_in(2) => self.read(),
            _ => self.write(),
        }
        true
    }

    /// A statement that yields nothing.
    pub(super) fn quiet_statement(&mut self, depth: usize) {
        let shape = if depth < DEEPEST { self.rng.below(6) } else { 0 };
        match shape {
            1 => {
                self.quiet_body(depth);
            }
            2 => {
                self.put("if");
                self.condition();
                self.put("then");
                self.quiet_statement(depth + 1);
                if self.rng.once_in(2) {
                    self.put("else");
                    self.statement(depth + 1, false);
                }
            }
            3 => {
                self.put("while");
                self.condition();
                self.put("do");
                self.quiet_statement(depth + 1);
            }
            _ => {}
        }
    }

    fn if_statement(&mut self, depth: usize) -> bool {
        self.put("if");
        self.condition();
        self.put("then");
        let yields = self.statement(depth, false);
        if self.chance(self.faults.absorbed) {
            self.put("else");
            self.quiet_statement(depth);
        } else if self.rng.once_in(2) {
            self.put("else");
            self.statement(depth, false);
        }
        yields
    }

    fn while_statement(&mut self, depth: usize) -> bool {
        self.put("while");
        self.condition();
        self.put("do");
        self.statement(depth, false)
    }

    /// A loop that ends: a counter from 0, one more with each lap.
    fn counted_loop(&mut self, depth: usize, in_list: bool) -> bool {
        let Some(counter) = self.variable_to_change() else { return self.simple_statement() };
        let laps = self.rng.below(6).to_string();
        if !in_list {
            self.put("begin");
        }
        self.put_all(&[&counter, ":=", "0", ";", "while", &counter]);
        let sign = *self.rng.pick(&["<", "<=", "<>"]);
        self.put_all(&[sign, &laps, "do", "begin", &counter, ":=", &counter, "+", "1"]);
        self.counters.push(counter);
        let mut yields = true;
        for _ in 0..self.rng.below(3) {
            self.put(";");
            yields &= self.statement(depth, true);
        }
        self.counters.pop();
        if yields || self.rng.once_in(2) {
            self.put("end");
        }
        if !in_list && (yields || self.rng.once_in(2)) {
            self.put("end");
        }
        yields
    }

    fn assign(&mut self) {
        let Some(name) = self.variable_to_change() else { return self.write() };
        self.put_all(&[&name, ":="]);
        self.exp(0);
    }

    fn read(&mut self) {
        let Some(first) = self.variable_to_change() else { return self.write() };
        self.put_all(&["read", "(", &first]);
        while self.rng.once_in(3) {
            let Some(name) = self.variable_to_change() else { break };
            self.put_all(&[",", &name]);
        }
        self.put(")");
    }

    fn write(&mut self) {
        self.put_all(&["write", "("]);
        self.exp(0);
        while self.rng.once_in(3) {
            self.put(",");
            self.exp(0);
        }
        self.put(")");
    }

    fn call(&mut self) {
        if self.slips() {
            let name = self.rng.pick(&NAMES).to_string();
            let arguments = self.rng.below(3);
            return self.call_of(&name, arguments);
        }
        let mut rows = self.usable(&[Kind::Procedure]);
        if !self.rng.once_in(6) {
            // a procedure that is still open calls itself, or halts the program
            rows.retain(|row| !row.open);
        }
        if rows.is_empty() {
            return self.assign();
        }
        let Row { name, arguments, open, .. } = self.rng.pick(&rows).clone();
        if !open {
            let slip = if self.slips() { 1 } else { 0 };
            return self.call_of(&name, arguments + slip);
        }
        let guards = self.usable(&[Kind::Variable]);
        if !guards.is_empty() && !self.rng.once_in(8) {
            let guard = self.rng.pick(&guards).name.clone();
            self.put_all(&["if", &guard, ">", "1", "then", "begin", &guard, ":=", "0", ";"]);
            self.call_of(&name, arguments);
            self.put("end");
        } else {
            self.call_of(&name, arguments);
        }
    }

    fn call_of(&mut self, name: &str, arguments: usize) {
        self.put_all(&["call", name, "("]);
        for i in 0..arguments {
            self.comma(i);
            self.exp(0);
        }
        self.put(")");
    }
}
