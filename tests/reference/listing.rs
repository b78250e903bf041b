//! The listing of a code list: a line to a place, whole lines for as long as they fit.
use super::MOST_CODE;
use crate::protocol::Place;

const LETTERS: [&str; 11] = ["LIT", "OPR", "LOD", "STO", "STA", "CAL", "INT", "JMP", "JPC", "RED", "WRT"];

/// The number that it ends with, and what is written in a room of so many bytes.
pub fn list(code: &[Place], room: usize) -> (u8, Vec<u8>) {
    let mut output = vec![];
    if code.len() > MOST_CODE {
        return (15, output);
    }
    for (index, place) in code.iter().enumerate() {
        let line = line(index, place);
        if output.len() + line.len() > room {
            return (23, output);
        }
        output.extend(line.bytes());
    }
    (0, output)
}

fn line(index: usize, place: &Place) -> String {
    let letters = usize::try_from(place.kind).ok().and_then(|kind| LETTERS.get(kind)).unwrap_or(&"NIL");
    format!("{index:4}| {letters} {:4}   {}\n", place.level, place.operand)
}
