//! The kinds of inputs, and the mix of them. The i-th input of a seed depends on (seed, i) alone.

pub mod by_hand;
mod damaged;
pub mod exhaustive;
mod limits;
mod place;
mod pointers;
mod random;
mod stores;
mod structured;
mod top;

use crate::input::Input;
use crate::rng::Rng;

/// An input, and what it takes to make it again.
#[derive(Clone)]
pub struct Made {
    pub kind: &'static str,
    pub index: u64,
    pub input: Input,
}

type Maker = fn(&mut Rng) -> Input;

/// Name, share of the mix in 10,000, maker. Limits are a hundred times as slow as the others: their share is small.
const KINDS: [(&str, usize, Maker); 7] = [
    ("random", 1_500, random::random),
    ("structured", 3_490, structured::structured),
    ("stores", 2_200, stores::stores),
    ("pointers", 1_300, pointers::pointers),
    ("top", 500, top::top),
    ("damaged", 960, damaged::damaged),
    ("limits", 50, limits::limits),
];

pub fn names() -> Vec<&'static str> {
    KINDS.iter().map(|(name, ..)| *name).collect()
}

/// The input of that index, of one kind or of the mix.
pub fn made(seed: u64, index: u64, kind: Option<&str>) -> Made {
    let mut rng = Rng::of(seed, index);
    let (name, _, maker) = match kind {
        Some(kind) => KINDS.iter().find(|(name, ..)| *name == kind).expect("the command line has been looked at"),
        None => of_share(rng.below(10_000)),
    };
    Made { kind: name, index, input: maker(&mut rng) }
}

fn of_share(mut ticket: usize) -> &'static (&'static str, usize, Maker) {
    for kind in &KINDS {
        if ticket < kind.1 {
            return kind;
        }
        ticket -= kind.1;
    }
    &KINDS[0]
}

/// The first `count` inputs of a seed.
pub fn inputs<'a>(seed: u64, count: u64, kind: Option<&'a str>) -> impl Iterator<Item = Made> + 'a {
    (0..count).map(move |index| made(seed, index, kind))
}
