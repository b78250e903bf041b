//! What is owed for a code list: the Rust's own lines, and as many of them as fit into a room.
use common::generator::Rng;
use common::protocol::Place;
use common::reference;
use native::engine::{CODE, LISTING, OUTPUT_FULL, TOO_MANY_INSTRUCTIONS};
use native::rust;

/// More room than the longest listing.
pub const AMPLE: usize = LISTING + 64;
/// So many rooms are anything at all, and so many lines have rooms around their ends.
const ANY: usize = 4;
const ENDS: usize = 4;

pub struct Owed {
    bytes: Vec<u8>,
    /// Where each line ends.
    ends: Vec<usize>,
    too_long: bool,
}

impl Owed {
    /// By the Rust where it is at hand, and by the plain reading, which must be the same.
    pub fn of(code: &[Place]) -> Result<Owed, String> {
        let too_long = code.len() > CODE;
        let (_, bytes) = reference::list(code, LISTING);
        let rust = if too_long { None } else { rust::listing(code) };
        if let Some(parted) = rust.and_then(|rust| parted(&bytes, &rust)) {
            return Err(format!("the plain reading and the Rust part: {parted}"));
        }
        let ends = (1..=bytes.len()).filter(|&end| bytes[end - 1] == b'\n').collect();
        Ok(Owed { bytes, ends, too_long })
    }

    pub fn lines(&self) -> usize {
        self.ends.len()
    }

    /// The number and what is written, in a room of so many bytes.
    pub fn in_room(&self, room: usize) -> (u8, &[u8]) {
        if self.too_long {
            return (TOO_MANY_INSTRUCTIONS, &[]);
        }
        let fitting = self.ends.partition_point(|&end| end <= room);
        let number = if fitting == self.ends.len() { 0 } else { OUTPUT_FULL };
        let length = if fitting == 0 { 0 } else { self.ends[fitting - 1] };
        (number, &self.bytes[..length])
    }

    /// Ample and none, any between, and those around the ends of all lines or of some.
    pub fn rooms(&self, rng: &mut Rng) -> Vec<usize> {
        let whole = if self.too_long { LISTING } else { self.bytes.len() };
        let mut rooms = vec![AMPLE, 0];
        rooms.extend((0..ANY).map(|_| rng.below(whole + 1)));
        let mut ends = self.ends.clone();
        if ends.len() > ENDS {
            ends = (0..ENDS).map(|_| *rng.pick(&self.ends)).collect();
        }
        ends.push(whole);
        rooms.extend(ends.iter().flat_map(|&end| [end.saturating_sub(1), end, end + 1]));
        rooms
    }
}

/// The first line in which two listings part, if they do.
pub fn parted(here: &[u8], owed: &[u8]) -> Option<String> {
    let mut lines = [here, owed].map(|bytes| bytes.split_inclusive(|&byte| byte == b'\n'));
    for place in 0.. {
        let [here, owed] = lines.each_mut().map(|lines| lines.next());
        if here != owed {
            let [here, owed] = [here, owed].map(|line| line.unwrap_or_default().escape_ascii());
            return Some(format!("line {place} is \"{here}\" and not \"{owed}\""));
        }
        if here.is_none() {
            break;
        }
    }
    None
}
