//! Where an image lies, where its entries are and what its operands name: shared by the kinds.

use crate::rng::Rng;

/// A load address for so many bytes: both ends of memory are as frequent as the middle, since that is where addresses could wrap.
pub fn load_for(rng: &mut Rng, length: usize) -> u16 {
    let room = 0x10000usize.saturating_sub(length);
    match rng.below(20) {
        0..=5 => 0xC000,
        6..=8 => 0,
        9 => rng.between(1, 3) as u16,
        10..=12 => room.min(0xFFFF) as u16,
        13 => room.saturating_sub(rng.between(1, 3)).min(0xFFFF) as u16,
        14 => room.saturating_sub(rng.between(1, 300)).min(0xFFFF) as u16,
        15 => (room + rng.between(1, 5)).min(0xFFFF) as u16,
        16 => 0x0801,
        _ => rng.word(),
    }
}

/// Entries: mostly at the given starts, now and then inside an instruction, outside, repeated, or none at all.
pub fn entries(rng: &mut Rng, load: u16, length: usize, starts: &[u16]) -> Vec<u16> {
    let count = match rng.below(40) {
        0 => 0,
        1..=22 => 1,
        23..=35 => rng.between(2, 4),
        _ => rng.between(5, 12),
    };
    let mut list = Vec::new();
    for _ in 0..count {
        let entry = match rng.below(40) {
            0 => outside(rng, load, length),
            1..=3 => inside(rng, load, length),
            4..=6 if !list.is_empty() => rng.one_of(&list),
            _ if starts.is_empty() => inside(rng, load, length),
            7..=23 => starts[0],
            _ => rng.one_of(starts),
        };
        list.push(entry);
    }
    list
}

pub fn inside(rng: &mut Rng, load: u16, length: usize) -> u16 {
    load.wrapping_add(rng.below(length.max(1)) as u16)
}

fn outside(rng: &mut Rng, load: u16, length: usize) -> u16 {
    let past = load.wrapping_add(length as u16);
    let below = load.wrapping_sub(1);
    let far = rng.word();
    rng.one_of(&[past, below, far, 0, 0xFFFF])
}

/// An address for an operand to name: the image's ends, a page from them, the end of memory, and anything else.
pub fn named(rng: &mut Rng, load: u16, length: usize) -> u16 {
    let past = load.wrapping_add(length as u16);
    match rng.below(20) {
        0..=7 => inside(rng, load, length),
        8 => load,
        9 => load.wrapping_sub(1),
        10 => load.wrapping_sub(rng.between(2, 256) as u16),
        11 => load.wrapping_sub(rng.between(254, 257) as u16),
        12 => past.wrapping_sub(1),
        13 => past,
        14 => past.wrapping_sub(rng.between(254, 258) as u16),
        15 => 0xFF00u16.wrapping_add(rng.between(0, 3) as u16),
        16 => 0xFFFF - rng.between(0, 255) as u16,
        17 => rng.between(0, 0x3FF) as u16,
        _ => rng.word(),
    }
}

/// Where a jump or a call goes: mostly to an instruction, now and then into one, to the ROM or out of the image.
pub fn aim(rng: &mut Rng, load: u16, length: usize, starts: &[u16]) -> u16 {
    match rng.below(20) {
        0 => inside(rng, load, length),
        1 => rng.one_of(&[0xFFE1, 0xFFE4, 0xFFE1, 0xFFE4, 0xFFE2, 0xFFE3, 0xFFD2, 0xFFE0, 0xFFE5]),
        2 => outside(rng, load, length),
        _ => rng.one_of(starts),
    }
}

/// The offset byte of a branch whose next address and target are these; any byte where the target is too far away.
pub fn offset(rng: &mut Rng, next: u16, target: u16) -> u8 {
    let distance = target.wrapping_sub(next) as i16;
    i8::try_from(distance).map_or_else(|_| rng.byte(), |near| near as u8)
}
