//! All that compile is lent, and the code that it leaves there.
use crate::engine::{loopgarret_compile, Compiled, CODE, DRAFT, TABLE, TREE};
use common::protocol::Place;

pub struct Room {
    kinds: Vec<i8>,
    levels: Vec<u16>,
    operands: Vec<i64>,
    tree: Vec<u32>,
    table: Vec<u32>,
    draft: Vec<u32>,
}

impl Room {
    pub fn new() -> Room {
        let (kinds, levels, operands) = (vec![0; CODE], vec![0; CODE], vec![0; CODE]);
        Room { kinds, levels, operands, tree: vec![0; TREE], table: vec![0; TABLE], draft: vec![0; DRAFT] }
    }

    pub fn compile(&mut self, text: &[u8]) -> Compiled {
        let Room { kinds, levels, operands, tree, table, draft } = self;
        unsafe {
            loopgarret_compile(
                text.as_ptr(),
                text.len(),
                kinds.as_mut_ptr(),
                kinds.len(),
                levels.as_mut_ptr(),
                levels.len(),
                operands.as_mut_ptr(),
                operands.len(),
                tree.as_mut_ptr(),
                tree.len(),
                table.as_mut_ptr(),
                table.len(),
                draft.as_mut_ptr(),
                draft.len(),
            )
        }
    }

    /// The code of a text; nothing where it is refused.
    pub fn code(&mut self, text: &[u8]) -> Option<Vec<Place>> {
        let Compiled { number, length } = self.compile(text);
        let place = |i: usize| Place { kind: self.kinds[i], level: self.levels[i], operand: self.operands[i] };
        (number == 0).then(|| (0..length).map(place).collect())
    }
}
