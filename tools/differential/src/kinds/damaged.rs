//! Good inputs with a few bytes flipped, taken out or put in, or moved to another load address.

use super::{pointers, stores, structured, top};
use crate::input::Input;
use crate::rng::Rng;

/// A good input, damaged in one to four places.
pub fn damaged(rng: &mut Rng) -> Input {
    let mut input = match rng.below(8) {
        0..=2 => structured::structured(rng),
        3..=5 => stores::stores(rng),
        6 => pointers::pointers(rng),
        _ => top::top(rng),
    };
    for _ in 0..rng.between(1, 4) {
        damage(rng, &mut input);
    }
    input
}

fn damage(rng: &mut Rng, input: &mut Input) {
    let length = input.image.len();
    let place = rng.below(length.max(1));
    let random = rng.byte();
    match rng.below(8) {
        0 | 1 if length > 0 => input.image[place] ^= 1 << rng.below(8),
        2 if length > 0 => input.image[place] = random,
        3 if length > 0 => {
            input.image.remove(place);
        }
        4 => input.image.insert(place, random),
        5 => input.image.truncate(length.saturating_sub(rng.between(1, 4))),
        6 => input.load = input.load.wrapping_add(rng.one_of(&[1, 2, 0xFFFF, 0xFFFE, 0x0100])),
        _ => {
            let step = rng.one_of(&[1, 2, 0xFFFF]);
            for entry in &mut input.entries {
                *entry = entry.wrapping_add(step);
            }
        }
    }
}
