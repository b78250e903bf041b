//! One code list, listed by the engine in rooms of many sizes. Each room ends at an unreadable page and is noise before
//! the call; so are the places that a list has past the end of the shortest.
use crate::cases::LONGEST;
use crate::owed::{parted, Owed, AMPLE};
use common::generator::Rng;
use common::protocol::Place;
use native::engine::{loopgarret_list, Listed, CODE};
use native::lent::{Lent, Plan, Side};
use native::lists::Lists;
use native::signal::CALLS;
use std::rc::Rc;
use std::sync::atomic::Ordering;

const NOISE: usize = 1 << 20;
/// So many places more may a list have than the shortest: few, or so many that they are too many themselves.
const FEW: usize = 40;
const MANY: usize = CODE + 1;

pub struct Trial {
    kinds: Lent<i8>,
    levels: Lent<u16>,
    operands: Lent<i64>,
    output: Lent<u8>,
}

/// What was tried of a list that is as it should be.
pub struct Tally {
    pub lines: usize,
    pub rooms: usize,
}

impl Trial {
    pub fn new() -> Trial {
        let mut rng = Rng::new(23);
        let noise = Rc::new((0..NOISE).map(|_| rng.byte()).collect());
        Trial {
            kinds: Lent::with_room(LONGEST + MANY, &noise),
            levels: Lent::with_room(LONGEST + MANY, &noise),
            operands: Lent::with_room(LONGEST + MANY, &noise),
            output: Lent::with_room(AMPLE, &noise),
        }
    }

    /// What was tried, or what differs.
    pub fn tried(&mut self, code: &[Place], rng: &mut Rng) -> Result<Tally, String> {
        let owed = Owed::of(code)?;
        let lists = Lists::of(code);
        self.lend_code(&lists, rng);
        let rooms = owed.rooms(rng);
        for &room in &rooms {
            self.output.lend(at_end(room, rng));
            let answer = self.call();
            self.check(answer, owed.in_room(room)).map_err(|what| format!("in a room of {room} bytes {what}"))?;
        }
        let Lists { kinds, levels, operands } = &lists;
        if !(self.kinds.holds(kinds) && self.levels.holds(levels) && self.operands.holds(operands)) {
            return Err("the listed code changed".to_string());
        }
        Ok(Tally { lines: owed.lines(), rooms: rooms.len() })
    }

    fn lend_code(&mut self, lists: &Lists, rng: &mut Rng) {
        let mut more = [0; 3].map(|none| match rng.below(8) {
            0 => rng.below(FEW),
            1 => MANY,
            _ => none,
        });
        more[rng.below(3)] = 0;
        let counts = more.map(|more| lists.kinds.len() + more);
        self.kinds.lend_values(&lists.kinds, at_end(counts[0], rng));
        self.levels.lend_values(&lists.levels, at_end(counts[1], rng));
        self.operands.lend_values(&lists.operands, at_end(counts[2], rng));
    }

    fn call(&mut self) -> Listed {
        CALLS.fetch_add(1, Ordering::Relaxed);
        let Trial { kinds, levels, operands, output } = self;
        unsafe {
            loopgarret_list(
                kinds.pointer(),
                kinds.count(),
                levels.pointer(),
                levels.count(),
                operands.pointer(),
                operands.count(),
                output.pointer(),
                output.count(),
            )
        }
    }

    fn check(&self, answer: Listed, (number, bytes): (u8, &[u8])) -> Result<(), String> {
        let written = &self.output.values()[..answer.out_length.min(self.output.count())];
        let told = Listed { number, out_length: bytes.len() };
        let parted = parted(written, bytes).map_or(String::new(), |parted| format!("; {parted}"));
        if answer != told {
            return Err(format!("it answers {answer:?} and not {told:?}{parted}"));
        }
        if !parted.is_empty() {
            return Err(format!("it answers {answer:?} as owed{parted}"));
        }
        if !self.output.untouched_past(bytes.len()) {
            return Err(format!("it answers {answer:?} as owed; it touched what is past these bytes"));
        }
        Ok(())
    }
}

fn at_end(count: usize, rng: &mut Rng) -> Plan {
    Plan { count, side: Side::End, null: rng.once_in(2), noise_from: rng.next() as usize % NOISE & !7 }
}
