//! Random bytes of random length, at any load address.

use super::place;
use crate::input::Input;
use crate::rng::Rng;

/// Any bytes; now and then thousands of them, or bytes from a few values only, so that walks get further than the first undefined opcode.
pub fn random(rng: &mut Rng) -> Input {
    let length = match rng.below(400) {
        0 => rng.between(300, 6_000),
        1..=40 => rng.between(100, 300),
        41..=200 => rng.between(8, 100),
        _ => rng.between(0, 12),
    };
    let image = if rng.chance(50) { rng.bytes(length) } else { of_few(rng, length) };
    let load = place::load_for(rng, length);
    let entries = place::entries(rng, load, length, &[]);
    Input { load, entries, image }
}

/// Bytes from a handful of values, half of them defined opcodes that go on.
fn of_few(rng: &mut Rng, length: usize) -> Vec<u8> {
    let mut values = rng.bytes(4);
    values.extend([0xEA, 0x60, 0xC0, 0xA9, 0x85, 0xD0, 0xAD, 0xBD]);
    (0..length).map(|_| rng.one_of(&values)).collect()
}
