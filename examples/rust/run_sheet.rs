//! Compiles a sheet and runs it, with the engine's static library:  run_sheet SHEET < ENTRIES
//! It writes what the sheet writes, and ends with the number of the refusal, or 0. Built and started by
//!   examples/run rust examples/sheets/trimmed_mean.pl0 < examples/sheets/trimmed_mean.entries
use std::io::{Read, Write};
use std::process::exit;

const BUDGET: u32 = 10_000_000;
const OUTPUT: usize = 65_536;
const CODE: usize = 4_096;
const CELLS: usize = 4_096;
const TREE: usize = 98_400;
const TABLE: usize = 6_144;
const DRAFT: usize = 16_384;

#[repr(C)]
struct Compiled {
    number: u8,
    length: usize,
}

#[repr(C)]
#[allow(dead_code)] // lines and steps are not asked for here
struct Ended {
    number: u8,
    out_length: usize,
    lines: usize,
    steps: u32,
}

// include/loopgarret.h says of each what is lent and what holds afterwards. A list is its pointer and its count.
extern "C" {
    fn loopgarret_compile(
        text: *const u8,
        text_count: usize,
        kinds: *mut i8,
        kinds_count: usize,
        levels: *mut u16,
        levels_count: usize,
        operands: *mut i64,
        operands_count: usize,
        tree: *mut u32,
        tree_count: usize,
        table: *mut u32,
        table_count: usize,
        draft: *mut u32,
        draft_count: usize,
    ) -> Compiled;
    fn loopgarret_run(
        kinds: *const i8,
        kinds_count: usize,
        levels: *const u16,
        levels_count: usize,
        operands: *const i64,
        operands_count: usize,
        input: *const u8,
        input_count: usize,
        budget: u32,
        out: *mut u8,
        out_count: usize,
        cells: *mut i64,
        cells_count: usize,
    ) -> Ended;
}

fn refused(sheet: &str, number: u8) -> ! {
    eprintln!("{sheet}: refused with {number}");
    exit(number.into());
}

fn main() {
    let sheet = std::env::args().nth(1).unwrap_or_else(|| {
        eprintln!("usage: run_sheet SHEET < ENTRIES");
        exit(255)
    });
    let text = std::fs::read(&sheet).unwrap_or_else(|error| {
        eprintln!("{sheet}: {error}");
        exit(255)
    });
    let (mut kinds, mut levels, mut operands) = (vec![0i8; CODE], vec![0u16; CODE], vec![0i64; CODE]);
    let (mut tree, mut table, mut draft) = (vec![0u32; TREE], vec![0u32; TABLE], vec![0u32; DRAFT]);
    // safe: each pointer goes with the count of its own list, and no two lists overlap
    let code = unsafe {
        loopgarret_compile(
            text.as_ptr(),
            text.len(),
            kinds.as_mut_ptr(),
            CODE,
            levels.as_mut_ptr(),
            CODE,
            operands.as_mut_ptr(),
            CODE,
            tree.as_mut_ptr(),
            TREE,
            table.as_mut_ptr(),
            TABLE,
            draft.as_mut_ptr(),
            DRAFT,
        )
    };
    if code.number != 0 {
        refused(&sheet, code.number);
    }
    let mut entries = vec![];
    std::io::stdin().read_to_end(&mut entries).unwrap();
    let (mut out, mut cells) = (vec![0u8; OUTPUT], vec![0i64; CELLS]);
    // safe: as above
    let end = unsafe {
        loopgarret_run(
            kinds.as_ptr(),
            code.length,
            levels.as_ptr(),
            code.length,
            operands.as_ptr(),
            code.length,
            entries.as_ptr(),
            entries.len(),
            BUDGET,
            out.as_mut_ptr(),
            OUTPUT,
            cells.as_mut_ptr(),
            CELLS,
        )
    };
    std::io::stdout().write_all(&out[..end.out_length]).unwrap();
    if end.number != 0 {
        refused(&sheet, end.number);
    }
}
