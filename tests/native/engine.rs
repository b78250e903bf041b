//! The engine's interface, as include/loopgarret.h has it.

pub const CODE: usize = 4_096;
pub const CELLS: usize = 4_096;
pub const VARIABLES: usize = 512;
pub const TREE: usize = 98_400;
pub const TABLE: usize = 6_144;
pub const DRAFT: usize = 16_384;
/// Bytes of the longest listing: 4,096 lines of 39.
pub const LISTING: usize = 159_744;
pub const TOO_MANY_INSTRUCTIONS: u8 = 15;
pub const OUTPUT_FULL: u8 = 23;
pub const ROOM_TOO_SMALL: u8 = 24;
pub const PROCEDURE_IN_TREE: u8 = 25;

#[repr(C)]
#[derive(Clone, Copy, Debug, Default, PartialEq)]
pub struct Compiled {
    pub number: u8,
    pub length: usize,
}

#[repr(C)]
#[derive(Clone, Copy, Debug, Default, PartialEq)]
pub struct Ended {
    pub number: u8,
    pub out_length: usize,
    pub lines: usize,
    pub steps: u32,
}

#[repr(C)]
#[derive(Clone, Copy, Debug, Default, PartialEq)]
pub struct Listed {
    pub number: u8,
    pub out_length: usize,
}

extern "C" {
    pub fn loopgarret_compile(
        text: *const u8,
        text_count: usize,
        kinds: *mut i8,
        kinds_count: usize,
        levels: *mut u16,
        levels_count: usize,
        operands: *mut i64,
        operands_count: usize,
        tree: *mut u32,
        tree_count: usize,
        table: *mut u32,
        table_count: usize,
        draft: *mut u32,
        draft_count: usize,
    ) -> Compiled;

    pub fn loopgarret_run(
        kinds: *const i8,
        kinds_count: usize,
        levels: *const u16,
        levels_count: usize,
        operands: *const i64,
        operands_count: usize,
        input: *const u8,
        input_count: usize,
        budget: u32,
        out: *mut u8,
        out_count: usize,
        cells: *mut i64,
        cells_count: usize,
    ) -> Ended;

    pub fn loopgarret_walk(
        text: *const u8,
        text_count: usize,
        input: *const u8,
        input_count: usize,
        budget: u32,
        out: *mut u8,
        out_count: usize,
        vars: *mut i64,
        vars_count: usize,
        tree: *mut u32,
        tree_count: usize,
        table: *mut u32,
        table_count: usize,
        draft: *mut u32,
        draft_count: usize,
    ) -> Ended;

    pub fn loopgarret_list(
        kinds: *const i8,
        kinds_count: usize,
        levels: *const u16,
        levels_count: usize,
        operands: *const i64,
        operands_count: usize,
        out: *mut u8,
        out_count: usize,
    ) -> Listed;
}
