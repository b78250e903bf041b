//! How lists are lent: at which end of their pages, and how many places, around the size that is asked for.
use common::generator::Rng;
use native::lent::{Plan, Side};

/// So much more than is asked for may be lent.
pub const FAR_MORE: usize = 700;

pub fn plan(count: usize, rng: &mut Rng) -> Plan {
    let side = if rng.once_in(2) { Side::Start } else { Side::End };
    Plan { count, side, null: rng.once_in(2), noise_from: rng.next() as usize % (1 << 20) & !7 }
}

pub fn exactly(count: usize) -> Plan {
    Plan { count, side: Side::End, null: false, noise_from: 0 }
}

/// A size around the one that is asked for: exact, one more or far more.
fn enough(asked: usize, rng: &mut Rng) -> usize {
    match rng.below(4) {
        0 => asked + 1,
        1 => asked + rng.below(FAR_MORE),
        _ => asked,
    }
}

/// One short, none, or anything below.
fn too_few(asked: usize, rng: &mut Rng) -> usize {
    match rng.below(3) {
        0 => 0,
        1 => rng.below(asked),
        _ => asked - 1,
    }
}

/// Room for so many bytes, one more or far more; or too little, where a writer stops before the end.
pub fn room(needed: usize, rng: &mut Rng) -> usize {
    if rng.once_in(2) || needed == 0 {
        enough(needed, rng)
    } else {
        too_few(needed, rng)
    }
}

/// Sizes for lists of which each must have so many places; once in a while one of them has too few.
pub fn sizes<const N: usize>(asked: [usize; N], rng: &mut Rng) -> [usize; N] {
    let mut sizes = asked.map(|asked| enough(asked, rng));
    if rng.once_in(12) {
        let short = rng.below(N);
        sizes[short] = too_few(asked[short], rng);
    }
    sizes
}

pub fn short<const N: usize>(sizes: [usize; N], asked: [usize; N]) -> bool {
    sizes.iter().zip(asked).any(|(size, asked)| *size < asked)
}
