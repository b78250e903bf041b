//! Faults that the harness puts into the engine's answers to show that it would notice them.
use crate::harness::Harness;
use crate::sizes::exactly;
use native::engine::{self, CELLS, CODE, OUTPUT_FULL, TREE, VARIABLES};

#[derive(Clone, Copy, Debug, PartialEq)]
pub enum Fault {
    /// A byte of an operand, of working room, of the lent text, of the output, a cell or a variable changed.
    Operand,
    WorkingRoom,
    LentText,
    Output,
    Cell,
    Variable,
    /// A write past the places that the entry fills, past the written output, or beside the list.
    PastCode,
    PastWritten,
    Beside,
    /// Something changed although the room was too small.
    After24,
    WrongNumber,
    LengthTooMany,
    LineTooMany,
    StepTooMany,
    /// A byte of a listing changed, past it or of the listed code; its number wrong, its length too many.
    Listing,
    PastListing,
    ListedCode,
    ListingNumber,
    ListingTooLong,
}

pub const FAULTS: [Fault; 19] = [
    Fault::Operand,
    Fault::WorkingRoom,
    Fault::LentText,
    Fault::Output,
    Fault::Cell,
    Fault::Variable,
    Fault::PastCode,
    Fault::PastWritten,
    Fault::Beside,
    Fault::After24,
    Fault::WrongNumber,
    Fault::LengthTooMany,
    Fault::LineTooMany,
    Fault::StepTooMany,
    Fault::Listing,
    Fault::PastListing,
    Fault::ListedCode,
    Fault::ListingNumber,
    Fault::ListingTooLong,
];

impl Harness {
    /// `refused` says that the room was too small.
    pub fn spoil_compile(&mut self, answer: &mut engine::Compiled, refused: bool) {
        match self.fault {
            Some(Fault::After24) if refused => self.working.table.spoil(0),
            Some(Fault::Operand) if !refused => self.operands.spoil(CODE - 1),
            Some(Fault::WorkingRoom) if !refused => self.working.tree.spoil(TREE - 1),
            Some(Fault::PastCode) if !refused => self.kinds.spoil(CODE),
            Some(Fault::Beside) if !refused => self.levels.spoil_outside(),
            Some(Fault::LentText) => self.text.spoil(0),
            Some(Fault::WrongNumber) => answer.number ^= 1,
            Some(Fault::LengthTooMany) => answer.length += 1,
            _ => {}
        }
    }

    pub fn spoil_ended(&mut self, answer: &mut engine::Ended, refused: bool) {
        match self.fault {
            Some(Fault::After24) if refused => self.cells.spoil(0),
            Some(Fault::Output) if answer.out_length > 0 => self.output.spoil(answer.out_length - 1),
            Some(Fault::PastWritten) => self.output.spoil(answer.out_length),
            Some(Fault::Cell) if !refused => self.cells.spoil(CELLS - 1),
            Some(Fault::Variable) if !refused => self.variables.spoil(VARIABLES - 1),
            Some(Fault::StepTooMany) => answer.steps += 1,
            Some(Fault::LineTooMany) => answer.lines += 1,
            _ => {}
        }
    }

    pub fn spoil_listed(&mut self, answer: &mut engine::Listed) {
        let written = answer.out_length;
        match self.fault {
            Some(Fault::Listing) if written > 0 => self.listing.spoil(written - 1),
            Some(Fault::PastListing) => self.listing.spoil(written),
            Some(Fault::ListedCode) => self.levels.spoil(0),
            Some(Fault::ListingNumber) => answer.number ^= OUTPUT_FULL,
            Some(Fault::ListingTooLong) => answer.out_length += 1,
            _ => {}
        }
    }

    /// Writes one place past the room that a call was lent, at the end of its pages. Ends by a signal.
    pub fn write_past_the_room(&mut self) {
        self.output.lend(exactly(64));
        self.output.write_past();
    }
}
