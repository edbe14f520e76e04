//! Short images that end at 0xFFFF or just before, with instructions that hang over the end.

use super::place;
use crate::input::Input;
use crate::rng::Rng;

/// What stands last; cut at the end of memory or one byte away from it.
const LAST_ONES: [&[u8]; 16] = [
    &[0xEA],
    &[0x60],
    &[0x40],
    &[0x00],
    &[0x02],
    &[0xA9, 0x01],
    &[0x85, 0xFB],
    &[0x91, 0xFB],
    &[0x81, 0xFB],
    &[0xD0, 0x02],
    &[0x10, 0x80],
    &[0x4C, 0x00, 0xFF],
    &[0x20, 0xFE, 0xFF],
    &[0x6C, 0xFF, 0xFF],
    &[0xBD, 0x80, 0xFF],
    &[0x8D, 0xFF, 0xFF],
];

/// A few whole instructions, then one that ends at the top of memory or does not fit.
pub fn top(rng: &mut Rng) -> Input {
    let mut image = front(rng);
    let front_length = image.len();
    image.extend(rng.one_of(&LAST_ONES));
    let missing = rng.one_of(&[0, 0, 0, 1, 2]).min(image.len() - 1);
    image.truncate(image.len() - missing);
    let short_of_top = rng.one_of(&[0, 0, 0, 0, 1, 2]);
    let load = (0x10000 - image.len() - short_of_top) as u16;
    let starts = [load, load.wrapping_add(front_length as u16), 0xFFFF, 0xFFFE];
    let entries = place::entries(rng, load, image.len(), &starts);
    Input { load, entries, image }
}

fn front(rng: &mut Rng) -> Vec<u8> {
    let mut bytes = Vec::new();
    for _ in 0..rng.between(0, 5) {
        let forward = rng.between(0, 12) as u8;
        match rng.below(8) {
            0 => bytes.extend([0xA9, 0xC1, 0x85, 0xFB, 0x85, 0xFC]),
            1 => bytes.extend([0x91, 0xFB]),
            // Forward, often past 0xFFFF, where the target wraps to the bottom of memory.
            2 => bytes.extend([0xD0, forward]),
            3 => bytes.extend([0xF0, 0x80 + forward]),
            4 => bytes.extend([0xBD, 0xF0, 0xFF]),
            5 => bytes.extend([0x9D, 0xF0 + forward, 0xFF]),
            6 => bytes.extend([0xAD, 0xFF, 0xFF]),
            _ => bytes.push(0xEA),
        }
    }
    bytes
}
