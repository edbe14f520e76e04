//! Accesses through zero-page pointers whose bytes are known, unknown, set twice, set where no walk comes, or set in the tracker's eyes alone.

use super::place;
use crate::input::Input;
use crate::rng::Rng;

const LOADS: [u8; 3] = [0xA9, 0xA2, 0xA0];
const STORES: [u8; 3] = [0x85, 0x86, 0x84];
const THROUGH_Y: [u8; 8] = [0x11, 0x31, 0x51, 0x71, 0x91, 0xB1, 0xD1, 0xF1];
const THROUGH_X: [u8; 8] = [0x01, 0x21, 0x41, 0x61, 0x81, 0xA1, 0xC1, 0xE1];

/// A row of loads, stores to two or three zero-page bytes, and accesses through them, with jumps over some of it.
pub fn pointers(rng: &mut Rng) -> Input {
    // Laid out twice with the same choices: the first time only its length is wanted, to place it.
    let choices = rng.fork();
    let length = laid_out(choices.clone(), 0).0.len();
    let load = place::load_for(rng, length);
    let (image, starts) = laid_out(choices, load);
    let entries = place::entries(rng, load, length, &starts);
    Input { load, entries, image }
}

fn laid_out(mut choices: Rng, load: u16) -> (Vec<u8>, Vec<u16>) {
    let rng = &mut choices;
    let pointer = rng.one_of(&[0xFB, 0xFB, 0xFB, 0x10, 0xFE, 0xFF, 0x00]);
    let count = rng.between(2, 16);
    let mut image = Vec::new();
    let mut starts = Vec::new();
    for _ in 0..count {
        starts.push(load.wrapping_add(image.len() as u16));
        let piece = piece(rng, pointer, load, image.len());
        image.extend(piece);
    }
    starts.push(load.wrapping_add(image.len() as u16));
    image.push(rng.one_of(&[0x60, 0x60, 0x60, 0x40, 0x00, 0xEA]));
    (image, starts)
}

fn piece(rng: &mut Rng, pointer: u8, load: u16, offset: usize) -> Vec<u8> {
    let register = rng.below(3);
    let byte = pointer.wrapping_add(rng.one_of(&[0, 0, 1, 1, 2, 0xFF]));
    let value = rng.one_of(&[0x00, 0xC1, 0xC1, 0x85, 0xA9, pointer]);
    match rng.below(16) {
        0..=2 => vec![LOADS[register], value],
        3..=5 => vec![STORES[register], byte],
        // Both bytes at once: else most rows would leave one of them unknown.
        6 | 7 => vec![LOADS[register], value, STORES[register], pointer, STORES[register], pointer.wrapping_add(1)],
        8..=10 => vec![rng.one_of(&THROUGH_Y), byte],
        11 => vec![rng.one_of(&THROUGH_X), byte],
        12 => over(rng, pointer, load, offset),
        13 => vec![rng.one_of(&[0xD0, 0xF0]), rng.one_of(&[0x00, 0x02, 0x04, 0xFC])],
        14 => vec![0x2C, rng.one_of(&[0xA9, 0xA2, 0x85, 0x86]), value],
        _ if rng.chance(50) => cut_pair(rng, load, offset),
        _ => vec![0xEA],
    }
}

/// A jump over the first byte of a pair, right before an access whose opcode is its pointer's address or the next one: the tracker must stop in the pair.
fn cut_pair(rng: &mut Rng, load: u16, offset: usize) -> Vec<u8> {
    let opcode = rng.one_of(&THROUGH_Y);
    let other = rng.one_of(&[0, 1]);
    let [low, high] = load.wrapping_add((offset + 8) as u16).to_le_bytes();
    vec![0xA9, 0xC1, 0x85, opcode - other, 0x4C, low, high, 0x85, opcode, opcode - rng.one_of(&[0, 1])]
}

/// A jump over bytes that set the pointer: the linear tracker sees them, the walk does not.
fn over(rng: &mut Rng, pointer: u8, load: u16, offset: usize) -> Vec<u8> {
    let register = rng.below(3);
    let hidden = [LOADS[register], 0xC0, STORES[register], pointer, STORES[register], pointer.wrapping_add(1)];
    let target = load.wrapping_add((offset + 3 + hidden.len()) as u16);
    let mut bytes = vec![0x4C];
    bytes.extend(target.to_le_bytes());
    bytes.extend(hidden);
    bytes
}
