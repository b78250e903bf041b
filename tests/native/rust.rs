//! The Rust that was ported, asked in this process: its panics are caught.
use crate::captured::captured;
use crate::silence::answered;
use common::protocol::Place;
use pl_0::parser::Parser;
use pl_0::pcode::{PCodeManager, Pcode, PcodeType};
use pl_0::translator::Translator;
use pl_0::SEP;

pub const AT_HAND: bool = true;

/// What the Rust's Parser and Translator make of a text; nothing where they panic.
pub fn emitted(text: &str) -> Option<PCodeManager> {
    answered(|| {
        let mut parser = Parser::new(text);
        parser.parse();
        let entry = parser.take_ast_entry();
        Translator::default().translate(&entry)
    })
}

/// The code that the Rust emits; nothing where it refuses the text.
pub fn compiled(text: &str) -> Option<Vec<Place>> {
    let place = |p: &Pcode| Place { kind: p.f as i8, level: p.l as u16, operand: p.a };
    emitted(text).map(|code| code.pcode_list.iter().map(place).collect())
}

/// The lines that the Rust prints for a code list, without the heading before them and the rules around them.
pub fn listing(code: &[Place]) -> Option<Vec<u8>> {
    let code = PCodeManager { pcode_list: code.iter().map(pcode).collect() };
    let printed = captured(|| code.show_pcode_list()).expect("what the Rust prints");
    let rule = format!("{}\n", SEP.as_str());
    let lines = printed.strip_prefix(format!("\nPCode List:\n{rule}").as_bytes()).expect("its heading");
    Some(lines.strip_suffix(format!("{rule}\n").as_bytes()).expect("its last rule").to_vec())
}

/// A code place as the Rust has it.
pub fn pcode(place: &Place) -> Pcode {
    let f = match place.kind {
        0 => PcodeType::LIT,
        1 => PcodeType::OPR,
        2 => PcodeType::LOD,
        3 => PcodeType::STO,
        4 => PcodeType::STA,
        5 => PcodeType::CAL,
        6 => PcodeType::INT,
        7 => PcodeType::JMP,
        8 => PcodeType::JPC,
        9 => PcodeType::RED,
        10 => PcodeType::WRT,
        _ => PcodeType::NIL,
    };
    Pcode { f, l: place.level as usize, a: place.operand }
}
