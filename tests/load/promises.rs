//! One call at a time in room of any size, and every promise about it checked.
use crate::harness::Harness;
use crate::sizes::{plan, short, sizes};
use common::generator::Rng;
use common::protocol::{self, Ended, Place};
use common::reference;
use native::engine::{self, CELLS, CODE, DRAFT, PROCEDURE_IN_TREE, ROOM_TOO_SMALL, TABLE, TREE, VARIABLES};
use native::lists::Lists;
use native::rust;

fn expect(kept: bool, what: &str) -> Result<(), String> {
    if kept {
        Ok(())
    } else {
        Err(what.to_string())
    }
}

fn expect_same<A: PartialEq + std::fmt::Debug>(here: A, owed: A) -> Result<(), String> {
    if here == owed {
        Ok(())
    } else {
        Err(format!("answered {here:?}, owed {owed:?}"))
    }
}

/// What a run and a walk are given besides their code or text.
#[derive(Clone, Copy)]
pub struct Given<'a> {
    pub input: &'a [u8],
    pub budget: u32,
    /// Bytes of output that are lent.
    pub room: usize,
}

/// The machine's first cells; the variables stand behind them.
const LINKS: usize = 3;

impl Harness {
    /// Compiles with the room at random. Hands back number and code, as owed.
    pub fn compile(&mut self, text: &[u8], rng: &mut Rng) -> Result<protocol::Compiled, String> {
        const ASKED: [usize; 6] = [CODE, CODE, CODE, TREE, TABLE, DRAFT];
        let lent = sizes(ASKED, rng);
        self.text.lend_values(text, plan(text.len(), rng));
        self.kinds.lend(plan(lent[0], rng));
        self.levels.lend(plan(lent[1], rng));
        self.operands.lend(plan(lent[2], rng));
        self.working.lend([lent[3], lent[4], lent[5]], rng);
        let mut answer = self.call_compile();
        let owed = reference::compile(text);
        self.spoil_compile(&mut answer, short(lent, ASKED));
        if short(lent, ASKED) {
            expect_same(answer, engine::Compiled { number: ROOM_TOO_SMALL, length: 0 })?;
            let untouched =
                self.kinds.untouched_past(0) && self.levels.untouched_past(0) && self.operands.untouched_past(0);
            expect(untouched && self.working.untouched(), "24, and something changed")?;
        } else {
            expect_same(answer, engine::Compiled { number: owed.number, length: owed.code.len() })?;
            self.check_code(&owed.code)?;
            expect(self.working.is_zero(), "working room is not zero, or touched past its size")?;
        }
        expect(self.text.holds(text), "the lent text changed")?;
        Ok(owed)
    }

    /// The code, and NIL 0 0 beyond it.
    fn check_code(&self, code: &[Place]) -> Result<(), String> {
        let nil = Place { kind: -1, level: 0, operand: 0 };
        let filled: Vec<Place> = (0..CODE).map(|i| code.get(i).copied().unwrap_or(nil)).collect();
        let held = self.code_holds(&Lists::of(&filled));
        expect(held, "the code places hold something else, or were touched past their size")
    }

    /// Compiles with the room at random and asks the Rust too, where it has no limit of its own.
    pub fn compile_beside_the_rust(&mut self, text: &[u8], rng: &mut Rng) -> Result<protocol::Compiled, String> {
        let owed = self.compile(text, rng)?;
        let Ok(ascii) = std::str::from_utf8(text) else { return Ok(owed) };
        if !rust::AT_HAND || matches!(owed.number, 1 | 2 | 7 | 8 | 14 | 15) {
            return Ok(owed);
        }
        let rust = rust::compiled(ascii);
        expect(rust.is_some() == (owed.number == 0), "the Rust accepts the one and refuses the other")?;
        expect(rust.is_none_or(|code| code == owed.code), "the Rust's code is another")?;
        Ok(owed)
    }

    /// Runs a code list with the room at random, and holds all of it to the reference. Hands back what is owed, unless the
    /// cells were too few.
    pub fn run(&mut self, code: &[Place], given: Given, rng: &mut Rng) -> Result<Option<Ended>, String> {
        let Given { input, budget, room } = given;
        let [cells] = sizes([CELLS], rng);
        let lists = Lists::of(code);
        self.lend_code(&lists, rng);
        self.input.lend_values(input, plan(input.len(), rng));
        self.output.lend(plan(room, rng));
        self.cells.lend(plan(cells, rng));
        let mut answer = self.call_run(budget);
        let owed = if cells < CELLS { None } else { Some(reference::run(code, input, budget, room)) };
        self.check_ended(&mut answer, owed.as_ref())?;
        match &owed {
            Some(owed) => expect(self.cells.holds(&padded(&owed.values, CELLS)), "the cells hold something else")?,
            None => expect(self.cells.untouched_past(0), "24, and a cell changed")?,
        }
        expect(self.code_holds(&lists), "the lent code changed")?;
        expect(self.input.holds(input), "the lent input changed")?;
        Ok(owed)
    }

    /// Lists a code list in a room of so many bytes. Hands back the number that is owed.
    pub fn list(&mut self, code: &[Place], room: usize, rng: &mut Rng) -> Result<u8, String> {
        let lists = Lists::of(code);
        self.lend_code(&lists, rng);
        self.listing.lend(plan(room, rng));
        let mut answer = self.call_list();
        self.spoil_listed(&mut answer);
        let (number, owed) = reference::list(code, room);
        expect_same(answer, engine::Listed { number, out_length: owed.len() })?;
        let held = self.listing.holds(&owed);
        expect(held, "the listing holds something else, or was touched past what was written")?;
        expect(self.code_holds(&lists), "the listed code changed")?;
        Ok(number)
    }

    /// The list is as long as the shortest of the three.
    fn lend_code(&mut self, lists: &Lists, rng: &mut Rng) {
        let mut more = [0; 3].map(|none| if rng.once_in(6) { rng.below(40) } else { none });
        more[rng.below(3)] = 0;
        let counts = more.map(|more| lists.kinds.len() + more);
        self.kinds.lend_values(&lists.kinds, plan(counts[0], rng));
        self.levels.lend_values(&lists.levels, plan(counts[1], rng));
        self.operands.lend_values(&lists.operands, plan(counts[2], rng));
    }

    fn code_holds(&self, lists: &Lists) -> bool {
        let Lists { kinds, levels, operands } = lists;
        self.kinds.holds(kinds) && self.levels.holds(levels) && self.operands.holds(operands)
    }

    /// Compiles, runs and walks the same text, input, budget and room: the walk ends as the run does.
    pub fn walk(&mut self, text: &[u8], given: Given, rng: &mut Rng) -> Result<u8, String> {
        const ASKED: [usize; 4] = [VARIABLES, TREE, TABLE, DRAFT];
        let compiled = self.compile(text, rng)?;
        let mut owed = Ended { number: compiled.number, lines: 0, steps: 0, output: vec![], values: vec![] };
        if compiled.number == 0 && reference::holds_procedure(text) {
            owed.number = PROCEDURE_IN_TREE;
        } else if compiled.number == 0 {
            let Some(ran) = self.run(&compiled.code, given, rng)? else { return Ok(ROOM_TOO_SMALL) };
            // such code starts JMP 0 1, INT 0 (3 + its variables)
            let behind = compiled.code[1].operand as usize;
            let cells = padded(&ran.values, CELLS);
            owed = Ended { values: cells[LINKS..behind].to_vec(), ..ran };
        }
        let Given { input, budget, room } = given;
        let lent = sizes(ASKED, rng);
        self.text.lend_values(text, plan(text.len(), rng));
        self.input.lend_values(input, plan(input.len(), rng));
        self.output.lend(plan(room, rng));
        self.variables.lend(plan(lent[0], rng));
        self.working.lend([lent[1], lent[2], lent[3]], rng);
        let mut answer = self.call_walk(budget);
        let owed = if short(lent, ASKED) { None } else { Some(owed) };
        self.check_ended(&mut answer, owed.as_ref())?;
        match &owed {
            Some(owed) => {
                expect(
                    self.variables.holds(&padded(&owed.values, VARIABLES)),
                    "walk's variables are not the machine's",
                )?;
                expect(self.working.is_zero(), "working room is not zero, or touched past its size")?;
            }
            None => expect(self.variables.untouched_past(0) && self.working.untouched(), "24, and something changed")?,
        }
        expect(self.text.holds(text) && self.input.holds(input), "the lent text or input changed")?;
        Ok(owed.map_or(ROOM_TOO_SMALL, |owed| owed.number))
    }

    /// Number, counts and output; nothing owed means 24.
    fn check_ended(&mut self, answer: &mut engine::Ended, owed: Option<&Ended>) -> Result<(), String> {
        self.spoil_ended(answer, owed.is_none());
        let none = engine::Ended { number: ROOM_TOO_SMALL, ..engine::Ended::default() };
        let counts = owed.map_or(none, |owed| {
            let Ended { number, lines, steps, ref output, .. } = *owed;
            engine::Ended { number, out_length: output.len(), lines, steps }
        });
        expect_same(*answer, counts)?;
        let written = owed.map_or(&[][..], |owed| &owed.output);
        expect(self.output.holds(written), "the output holds something else, or was touched past what was written")
    }
}

fn padded(values: &[i64], length: usize) -> Vec<i64> {
    let mut all = values.to_vec();
    all.resize(length, 0);
    all
}
