//! Cases from a seed: texts of every sort, input bytes, and code lists. Nothing here asks a compiler; what the texts come to
//! is measured by tests/differential with `--rates`.
mod input;
mod limits;
mod list;
mod program;
mod rng;
mod spoil;
mod token;

pub use input::input;
pub use limits::{deepest, longest, LIMITS};
pub use list::{code_list, mutated};
pub use rng::Rng;
pub use token::spelt;

/// What a text is like.
#[derive(Clone, Copy, Debug, PartialEq, Eq)]
pub enum Sort {
    /// Keeps every rule: nested and equal names, every statement and operator.
    WellFormed,
    /// Keeps the grammar; names may be missing, doubled or of the wrong kind.
    Slips,
    /// A statement place is empty where the failure is absorbed.
    QuietAbsorbed,
    /// Statement places are empty anywhere.
    Quiet,
    /// One token of a well formed text dropped, doubled, swapped or replaced.
    Near,
    /// Bytes of a well formed text changed, or the text cut.
    Damaged,
    /// Tokens in any order.
    Soup,
    /// Bytes in any order.
    Raw,
    /// At a limit of document 01, from one side or the other.
    Limit,
}

pub const SORTS: [Sort; 9] = [
    Sort::WellFormed,
    Sort::Slips,
    Sort::QuietAbsorbed,
    Sort::Quiet,
    Sort::Near,
    Sort::Damaged,
    Sort::Soup,
    Sort::Raw,
    Sort::Limit,
];

/// How many of a hundred texts are of each sort, in the order of `SORTS`.
const SHARES: [usize; 9] = [38, 12, 11, 9, 11, 8, 5, 4, 2];

pub fn sort(rng: &mut Rng) -> Sort {
    let mut left = rng.below(SHARES.iter().sum());
    for (sort, share) in SORTS.iter().zip(SHARES) {
        if left < share {
            return *sort;
        }
        left -= share;
    }
    Sort::WellFormed
}

pub fn text(sort: Sort, rng: &mut Rng) -> Vec<u8> {
    match sort {
        Sort::WellFormed => spelt(&program::well_formed(rng), rng),
        Sort::Slips => spelt(&program::with_slips(rng), rng),
        Sort::QuietAbsorbed => spelt(&program::quiet_absorbed(rng), rng),
        Sort::Quiet => spelt(&program::quiet(rng), rng),
        Sort::Near => {
            let mut tokens = program::any(rng);
            spoil::one_token(&mut tokens, rng);
            spelt(&tokens, rng)
        }
        Sort::Damaged => {
            let tokens = program::any(rng);
            spoil::bytes(spelt(&tokens, rng), rng)
        }
        Sort::Soup => spelt(&spoil::soup(rng), rng),
        Sort::Raw => spoil::raw(rng),
        Sort::Limit => limits::text(rng),
    }
}

/// A text without a procedure, well formed but for one in eight.
pub fn text_without_procedure(rng: &mut Rng) -> Vec<u8> {
    let mut tokens = program::without_procedure(rng);
    if rng.once_in(8) {
        spoil::one_token(&mut tokens, rng);
    }
    spelt(&tokens, rng)
}
