//! Conditions and expressions.
use super::{Kind, Writer, DEEPEST};
use crate::generator::token::{self, COMPARISONS, NAMES};

impl Writer<'_> {
    pub(super) fn condition(&mut self) {
        if self.rng.once_in(5) {
            self.put("odd");
            return self.exp(0);
        }
        self.exp(0);
        let sign = *self.rng.pick(&COMPARISONS);
        self.put(sign);
        self.exp(0);
    }

    pub(super) fn exp(&mut self, depth: usize) {
        if self.rng.once_in(8) {
            let sign = *self.rng.pick(&["+", "-", "-"]);
            self.put(sign);
        }
        self.term(depth);
        while self.rng.once_in(3) {
            let sign = *self.rng.pick(&["+", "-"]);
            self.put(sign);
            self.term(depth);
        }
    }

    fn term(&mut self, depth: usize) {
        self.factor(depth);
        while self.rng.once_in(5) {
            if self.rng.once_in(2) {
                self.put("*");
                self.factor(depth);
            } else {
                self.put("/");
                self.divisor(depth);
            }
        }
    }

    /// Seldom anything that may be zero.
    fn divisor(&mut self, depth: usize) {
        if self.rng.once_in(12) {
            return self.factor(depth);
        }
        let divisor = self.rng.between(1, 9).to_string();
        self.put(&divisor);
    }

    fn factor(&mut self, depth: usize) {
        match self.rng.below(10) {
            0 if depth < DEEPEST => {
                self.put("(");
                self.exp(depth + 1);
                self.put(")");
            }
            1..=5 => self.name_in_exp(),
            _ => {
                let value = token::literal(self.rng);
                self.put(&value);
            }
        }
    }

    fn name_in_exp(&mut self) {
        if self.slips() {
            let name = *self.rng.pick(&NAMES);
            return self.put(name);
        }
        let rows = self.usable(&[Kind::Constant, Kind::Variable]);
        let word = if rows.is_empty() { token::literal(self.rng) } else { self.rng.pick(&rows).name.clone() };
        self.put(&word);
    }
}
