//! All the lists that can be lent, and the bare calls of the engine on them.
use crate::fault::Fault;
use crate::sizes::{plan, FAR_MORE};
use common::generator::Rng;
use native::caller::Caller;
use native::engine::{self, CELLS, CODE, DRAFT, LISTING, TABLE, TREE, VARIABLES};
use native::lent::Lent;
use native::signal::CALLS;
use std::rc::Rc;
use std::sync::atomic::Ordering;

const MOST_TEXT: usize = 40_000;
const MOST_INPUT: usize = 70_000;
pub const MOST_OUTPUT: usize = 70_000;

pub struct Harness {
    caller: Caller,
    /// The most stack that a call of this entry took: compile, run, walk, list.
    pub most_stack: [usize; 4],
    /// Is the stack measured?
    pub measuring: bool,
    pub fault: Option<Fault>,
    pub text: Lent<u8>,
    pub kinds: Lent<i8>,
    pub levels: Lent<u16>,
    pub operands: Lent<i64>,
    pub working: Working,
    pub input: Lent<u8>,
    pub output: Lent<u8>,
    pub cells: Lent<i64>,
    pub variables: Lent<i64>,
    pub listing: Lent<u8>,
}

/// The working room: zero on return.
pub struct Working {
    pub tree: Lent<u32>,
    pub table: Lent<u32>,
    pub draft: Lent<u32>,
    zeros: Vec<u32>,
}

impl Working {
    pub fn lend(&mut self, counts: [usize; 3], rng: &mut Rng) {
        for (list, count) in [&mut self.tree, &mut self.table, &mut self.draft].into_iter().zip(counts) {
            list.lend(plan(count, rng));
        }
    }

    pub fn is_zero(&self) -> bool {
        let zero = |list: &Lent<u32>, size: usize| list.holds(&self.zeros[..size]);
        zero(&self.tree, TREE) && zero(&self.table, TABLE) && zero(&self.draft, DRAFT)
    }

    pub fn untouched(&self) -> bool {
        [&self.tree, &self.table, &self.draft].iter().all(|list| list.untouched_past(0))
    }
}

impl Harness {
    pub fn new(stack: usize) -> Harness {
        let mut rng = Rng::new(24);
        let noise: Rc<Vec<u8>> = Rc::new((0..1 << 18).flat_map(|_| rng.next().to_le_bytes()).collect());
        let working = Working {
            tree: Lent::with_room(TREE + FAR_MORE, &noise),
            table: Lent::with_room(TABLE + FAR_MORE, &noise),
            draft: Lent::with_room(DRAFT + FAR_MORE, &noise),
            zeros: vec![0; TREE],
        };
        Harness {
            caller: Caller::with_stack(stack),
            most_stack: [0; 4],
            measuring: false,
            fault: None,
            text: Lent::with_room(MOST_TEXT, &noise),
            kinds: Lent::with_room(CODE + FAR_MORE, &noise),
            levels: Lent::with_room(CODE + FAR_MORE, &noise),
            operands: Lent::with_room(CODE + FAR_MORE, &noise),
            working,
            input: Lent::with_room(MOST_INPUT, &noise),
            output: Lent::with_room(MOST_OUTPUT, &noise),
            cells: Lent::with_room(CELLS + FAR_MORE, &noise),
            variables: Lent::with_room(VARIABLES + FAR_MORE, &noise),
            listing: Lent::with_room(LISTING + FAR_MORE, &noise),
        }
    }

    fn call<R>(&mut self, entry: usize, job: impl FnOnce() -> R) -> R {
        CALLS.fetch_add(1, Ordering::Relaxed);
        if !self.measuring {
            return self.caller.call(job);
        }
        let (answer, stack) = self.caller.measured(job);
        self.most_stack[entry] = self.most_stack[entry].max(stack);
        answer
    }

    pub fn call_compile(&mut self) -> engine::Compiled {
        let Harness { text, kinds, levels, operands, working: Working { tree, table, draft, .. }, .. } = self;
        let (text, kinds, levels, operands) = (lent(text), lent(kinds), lent(levels), lent(operands));
        let (tree, table, draft) = (lent(tree), lent(table), lent(draft));
        self.call(0, move || unsafe {
            engine::loopgarret_compile(
                text.0, text.1, kinds.0, kinds.1, levels.0, levels.1, operands.0, operands.1, tree.0, tree.1, table.0,
                table.1, draft.0, draft.1,
            )
        })
    }

    pub fn call_run(&mut self, budget: u32) -> engine::Ended {
        let Harness { kinds, levels, operands, input, output, cells, .. } = self;
        let (kinds, levels, operands) = (lent(kinds), lent(levels), lent(operands));
        let (input, output, cells) = (lent(input), lent(output), lent(cells));
        self.call(1, move || unsafe {
            engine::loopgarret_run(
                kinds.0, kinds.1, levels.0, levels.1, operands.0, operands.1, input.0, input.1, budget, output.0,
                output.1, cells.0, cells.1,
            )
        })
    }

    pub fn call_walk(&mut self, budget: u32) -> engine::Ended {
        let Harness { text, input, output, variables, working: Working { tree, table, draft, .. }, .. } = self;
        let (text, input, output, variables) = (lent(text), lent(input), lent(output), lent(variables));
        let (tree, table, draft) = (lent(tree), lent(table), lent(draft));
        self.call(2, move || unsafe {
            engine::loopgarret_walk(
                text.0,
                text.1,
                input.0,
                input.1,
                budget,
                output.0,
                output.1,
                variables.0,
                variables.1,
                tree.0,
                tree.1,
                table.0,
                table.1,
                draft.0,
                draft.1,
            )
        })
    }

    pub fn call_list(&mut self) -> engine::Listed {
        let Harness { kinds, levels, operands, listing, .. } = self;
        let (kinds, levels, operands, listing) = (lent(kinds), lent(levels), lent(operands), lent(listing));
        self.call(3, move || unsafe {
            engine::loopgarret_list(kinds.0, kinds.1, levels.0, levels.1, operands.0, operands.1, listing.0, listing.1)
        })
    }
}

struct Part<T>(*mut T, usize);
unsafe impl<T> Send for Part<T> {}

fn lent<T: Copy + PartialEq>(list: &Lent<T>) -> Part<T> {
    Part(list.pointer(), list.count())
}
