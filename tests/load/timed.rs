//! Timed calls, in exact room.
use crate::harness::{Harness, MOST_OUTPUT};
use crate::sizes::exactly;
use common::protocol::Place;
use native::engine::{CELLS, CODE, DRAFT, TABLE, TREE, VARIABLES};
use native::lists::Lists;
use std::time::{Duration, Instant};

impl Harness {
    pub fn time_compile(&mut self, text: &[u8]) -> Duration {
        self.text.lend_values(text, exactly(text.len()));
        self.kinds.lend(exactly(CODE));
        self.levels.lend(exactly(CODE));
        self.operands.lend(exactly(CODE));
        self.lend_working();
        let started = Instant::now();
        self.call_compile();
        started.elapsed()
    }

    /// Also how many steps were made.
    pub fn time_walk(&mut self, text: &[u8], budget: u32) -> (Duration, u32) {
        self.text.lend_values(text, exactly(text.len()));
        self.input.lend(exactly(0));
        self.output.lend(exactly(MOST_OUTPUT));
        self.variables.lend(exactly(VARIABLES));
        self.lend_working();
        let started = Instant::now();
        let ended = self.call_walk(budget);
        (started.elapsed(), ended.steps)
    }

    /// Also how many steps were made.
    pub fn time_run(&mut self, code: &[Place], input: &[u8], budget: u32) -> (Duration, u32) {
        let Lists { kinds, levels, operands } = Lists::of(code);
        self.kinds.lend_values(&kinds, exactly(code.len()));
        self.levels.lend_values(&levels, exactly(code.len()));
        self.operands.lend_values(&operands, exactly(code.len()));
        self.input.lend_values(input, exactly(input.len()));
        self.output.lend(exactly(MOST_OUTPUT));
        self.cells.lend(exactly(CELLS));
        let started = Instant::now();
        let ended = self.call_run(budget);
        (started.elapsed(), ended.steps)
    }

    fn lend_working(&mut self) {
        self.working.tree.lend(exactly(TREE));
        self.working.table.lend(exactly(TABLE));
        self.working.draft.lend(exactly(DRAFT));
    }
}
