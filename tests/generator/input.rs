//! Input bytes: entry lines of every sort.
use super::Rng;

pub fn input(rng: &mut Rng) -> Vec<u8> {
    let mut bytes = vec![];
    for _ in 0..rng.below(9) {
        bytes.extend(line(rng));
        bytes.push(b'\n');
    }
    if rng.once_in(3) {
        bytes.pop();
    }
    if rng.once_in(24) {
        let at = rng.below(bytes.len() + 1);
        bytes.insert(at, rng.byte());
    }
    bytes
}

fn line(rng: &mut Rng) -> Vec<u8> {
    let mut line: Vec<u8> = vec![];
    let blanks = |rng: &mut Rng| -> Vec<u8> { (0..rng.below(3)).map(|_| *rng.pick(&[9, 11, 12, 13, 32])).collect() };
    if rng.once_in(3) {
        line.extend(blanks(rng));
    }
    line.extend(entry(rng));
    if rng.once_in(4) {
        line.extend(blanks(rng));
        line.extend(*rng.pick(&[&b" x"[..], b" 7", b"", b"\r", b" \xc3\xa9", b" _"]));
    }
    line
}

fn entry(rng: &mut Rng) -> Vec<u8> {
    match rng.below(40) {
        0 => vec![],
        1 => (0..rng.below(5)).map(|_| rng.byte()).filter(|&byte| byte != b'\n').collect(),
        2 => rng.pick(&["-", "+", "--1", "+-1", "1-", "0x10", "5.", "x"]).as_bytes().to_vec(),
        3 => rng.pick(&["9223372036854775808", "-9223372036854775809", "99999999999999999999"]).as_bytes().to_vec(),
        4 => rng.pick(&["9223372036854775807", "-9223372036854775808", "+9223372036854775807"]).as_bytes().to_vec(),
        5 => {
            rng.pick(&["-0", "+0", "000000000000000000000000000012", "-0000000000000000000000001"]).as_bytes().to_vec()
        }
        6 => (rng.next() as i64).to_string().into_bytes(),
        7..=10 => format!("+{}", rng.below(1000)).into_bytes(),
        11..=16 => format!("-{}", rng.below(1000)).into_bytes(),
        _ => rng.below(12_000).to_string().into_bytes(),
    }
}
