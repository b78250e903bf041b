//! A code list as the engine takes it: each part of its places in a list of its own.
use common::protocol::Place;

pub struct Lists {
    pub kinds: Vec<i8>,
    pub levels: Vec<u16>,
    pub operands: Vec<i64>,
}

impl Lists {
    pub fn of(code: &[Place]) -> Lists {
        Lists {
            kinds: code.iter().map(|place| place.kind).collect(),
            levels: code.iter().map(|place| place.level).collect(),
            operands: code.iter().map(|place| place.operand).collect(),
        }
    }
}
