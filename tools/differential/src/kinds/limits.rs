//! Inputs at the limits: instructions, pending addresses, the image's size, the entries' number.

use super::{place, structured};
use crate::input::Input;
use crate::rng::Rng;

/// One of the limits below; the slow ones are rare.
pub fn limits(rng: &mut Rng) -> Input {
    match rng.below(100) {
        0..=17 => long_run(rng),
        18..=24 => store_at_budget(rng),
        25..=32 => long_run_of_others(rng),
        33..=39 => sprawl(rng),
        40..=54 => joint_budget(rng),
        55..=66 => pending_calls(rng),
        67..=76 => pending_branches(rng),
        77..=88 => full_memory(rng),
        89..=91 => too_long(rng),
        92..=94 => full_to_the_top(rng),
        95 | 96 => job_many_entries(rng),
        97 | 98 => many_sites(rng),
        _ => more_entries_than_weight(rng),
    }
}

/// What stands after a row: mostly a stop, so that the number of instructions decides.
fn ending(rng: &mut Rng) -> Vec<u8> {
    match rng.below(10) {
        0 => vec![0x4C, 0xE4, 0xFF],
        1 => vec![0x40, 0xEA],
        2 => vec![0x91, 0xFB, 0x60],
        3 => vec![0x02],
        4 => vec![],
        _ => vec![0x60],
    }
}

/// So many that a row of them and its end come to 4,094 to 4,099 instructions.
fn about_budget(rng: &mut Rng) -> usize {
    rng.between(4_094, 4_098)
}

/// NOPs and an end, walked from the first, from both ends or from somewhere inside.
fn long_run(rng: &mut Rng) -> Input {
    let mut image = vec![0xEA; about_budget(rng)];
    image.extend(ending(rng));
    let load = place::load_for(rng, image.len());
    let entries = place::entries(rng, load, image.len(), &[load, load.wrapping_add(1)]);
    Input { load, entries, image }
}

/// The same with longer instructions, a refused site among them, or stores.
fn long_run_of_others(rng: &mut Rng) -> Input {
    let row: &[u8] = rng.one_of(&[&[0xA9, 0x01], &[0xAD, 0x00, 0xC0], &[0x91, 0xFB], &[0x8D, 0x20, 0xD0], &[0x9D, 0x80, 0xFF], &[0xA1, 0xFF], &[0xE6, 0xFC]]);
    let mut image = row.repeat(about_budget(rng) - 4);
    image.splice(0..0, [0xA9, 0xC1, 0x85, 0xFB, 0x85, 0xFC, 0xEA]);
    image.extend(ending(rng));
    let load = place::load_for(rng, image.len());
    let entries = place::entries(rng, load, image.len(), &[load]);
    Input { load, entries, image }
}

/// A store to the pointer's byte just before, at and just after the 4,097th address, which is met and not decoded.
fn store_at_budget(rng: &mut Rng) -> Input {
    let mut image = vec![0xA9, 0xC1, 0x85, 0xFB, 0x85, 0xFC, 0x91, 0xFB];
    image.extend(vec![0xEA; rng.between(4_088, 4_093)]);
    image.extend([0xA9, rng.one_of(&[0xC1, 0xC2]), rng.one_of(&[0x85, 0x85, 0x84]), rng.one_of(&[0xFB, 0xFC]), 0x60]);
    let load = place::load_for(rng, image.len());
    Input { load, entries: vec![load], image }
}

/// Thousands of instructions with branches, calls and jumps all over: which address is the 4,097th depends on the order of the whole walk.
fn sprawl(rng: &mut Rng) -> Input {
    let count = rng.between(4_000, 9_000);
    let refused = rng.one_of(&[0, 0, 1]);
    structured::of_size(rng, count, refused)
}

/// Routines that are each below the limit and together are not: the joint walk ends in `budget`, no entry's own does.
fn joint_budget(rng: &mut Rng) -> Input {
    let routines = rng.between(2, 5);
    let mut image = Vec::new();
    let mut offsets = Vec::new();
    for _ in 0..routines {
        offsets.push(image.len());
        let length = 4_097 / routines + rng.below(6) - 2 + rng.one_of(&[0, 0, 200]);
        image.extend(vec![0xEA; length]);
        image.extend(rng.one_of(&[&[0x60][..], &[0x60], &[0x60], &[0x91, 0xFB, 0x60], &[0x02], &[0x00]]));
    }
    let load = if rng.chance(50) { 0x1000 } else { place::load_for(rng, image.len()) };
    let mut entries: Vec<u16> = offsets.iter().map(|offset| load.wrapping_add(*offset as u16)).collect();
    if rng.chance(40) {
        entries.reverse();
    }
    if rng.chance(20) {
        entries.push(entries[0]);
    }
    Input { load, entries, image }
}

/// Thousands of JSR in a row: to addresses further on, to the row's own start, or to one place; each is put by until the row ends.
fn pending_calls(rng: &mut Rng) -> Input {
    let count = rng.one_of(&[1_000, 2_047, 2_048, 4_094, 4_095, 4_096, 4_097]);
    let load: u16 = rng.one_of(&[0, 0x1000, 0xC000]);
    let field = load.wrapping_add((3 * count + 1) as u16);
    let way = rng.below(4);
    let mut image = Vec::new();
    for number in 0..count {
        let target = match way {
            0 => field.wrapping_add(number as u16),
            1 => load,
            2 => field,
            _ => load.wrapping_add(3 * rng.below(count) as u16),
        };
        image.push(0x20);
        image.extend(target.to_le_bytes());
    }
    let stop = rng.one_of(&[0x60, 0x60, 0xEA]);
    image.push(0x60);
    image.extend(vec![stop; count]);
    image.push(0x60);
    Input { load, entries: vec![load], image }
}

/// The same with branches, forward and back; their targets are put by too.
fn pending_branches(rng: &mut Rng) -> Input {
    let count = rng.one_of(&[2_048, 4_093, 4_094, 4_095, 4_096, 4_097]);
    let offset = rng.one_of(&[0x00, 0xFE, 0x02, 0x7E, 0x80, 0x01]);
    let mut image = [0xD0, offset].repeat(count);
    image.extend(vec![0x60; rng.one_of(&[1, 1, 130])]);
    let load = place::load_for(rng, image.len());
    let entries = place::entries(rng, load, image.len(), &[load]);
    Input { load, entries, image }
}

/// All of memory, with instructions at its top: the byte after 0xFFFF is the one at 0.
fn full_memory(rng: &mut Rng) -> Input {
    let mut image = vec![rng.one_of(&[0x60, 0xEA, 0x02]); 0x10000];
    let bottom: &[u8] = rng.one_of(&[
        &[0xFB, 0xA9, 0xC1, 0x85, 0xFB, 0x85, 0xFC, 0x91, 0xFB, 0x60],
        &[0xFC, 0xA2, 0xC1, 0x86, 0xFB, 0x86, 0xFC, 0xB1, 0xFB, 0x60],
        &[0xC1, 0x84, 0xFB, 0x84, 0xFC, 0x91, 0xFB, 0x60],
        // One of the pointer's bytes is set by the store at 0xFFFF alone, whose operand is the first byte here.
        &[0xFB, 0xA9, 0xC1, 0x85, 0xFC, 0xA2, 0xC1, 0xA0, 0xC1, 0x91, 0xFB, 0x60],
        &[0xC9, 0xC5, 0xA9, 0xC1, 0x85, 0xFB, 0x85, 0xFC, 0x91, 0xFB, 0xE6, 0xFC, 0xCA, 0x60],
        &[0xC5, 0xA9, 0xC1, 0x85, 0xFB, 0x85, 0xFC, 0x91, 0xFB, 0xC6, 0xFC, 0x60],
    ]);
    image[..bottom.len()].copy_from_slice(bottom);
    let summit: &[u8] = rng.one_of(&[
        &[0x85],
        &[0xA9],
        &[0xA2],
        &[0xA0],
        &[0x84],
        &[0x86],
        &[0xA5, 0xFC],
        &[0xA5, 0xFC, 0xC9],
        &[0xA5],
        &[0xE6],
        &[0xC6],
        &[0xEA],
        &[0x60],
        &[0xA0, 0xC1, 0x84],
        &[0xA9, 0xC2, 0x85],
        &[0xD0, 0x00, 0x60],
        &[0x4C, 0x01, 0x00],
        &[0x20, 0x01, 0x00],
        &[0xBD, 0xFF],
    ]);
    let at = image.len() - summit.len();
    image[at..].copy_from_slice(summit);
    let mut entries: Vec<u16> = vec![at as u16, 1, rng.one_of(&[0, 1, 2, 3, 0xFFFF, 0xFFFE])];
    if rng.chance(30) {
        entries.truncate(rng.between(1, 2));
    }
    Input { load: 0, entries, image }
}

/// More bytes than memory, or one too many for the load address.
fn too_long(rng: &mut Rng) -> Input {
    let (load, length) = rng.one_of(&[(0, 0x10001), (1, 0x10000), (0, 66_000), (0xFFFF, 2), (0xC000, 0x4001), (2, 0xFFFF)]);
    let entries = place::entries(rng, load, length, &[load]);
    Input { load, entries, image: vec![0x60; length] }
}

/// As long as the load address allows: the last byte is at 0xFFFF.
fn full_to_the_top(rng: &mut Rng) -> Input {
    let load: u16 = rng.one_of(&[0, 1, 2, 0x0801, 0x8000, 0xE000]);
    let length = 0x10000 - load as usize;
    let mut image = vec![rng.one_of(&[0x60, 0x02]); length];
    for _ in 0..rng.between(1, 40) {
        let place = rng.below(length);
        image[place] = rng.byte();
    }
    for (place, byte) in [0xAD, 0xFF, 0xFF, 0xBD, 0x80, 0xFF, 0x60].iter().enumerate() {
        image[place] = *byte;
    }
    let entries = place::entries(rng, load, length, &[load, load.wrapping_add(3), 0xFFFF]);
    Input { load, entries, image }
}

/// As many entries as a job may have, one more, one fewer; many of them repeats.
fn job_many_entries(rng: &mut Rng) -> Input {
    let count = rng.between(1_023, 1_025);
    let image = [0xA9, 0x00, 0x91, 0xFB, 0x60, 0x02, 0x00, 0xD0, 0xF7, 0x60].repeat(rng.between(1, 30));
    let load = place::load_for(rng, image.len());
    let spread = rng.one_of(&[1, 3, image.len(), image.len() + 2]);
    let entries = (0..count).map(|_| load.wrapping_add(rng.below(spread) as u16)).collect();
    Input { load, entries, image }
}

/// Hundreds or thousands of records: refused sites of all sorts one after another.
fn many_sites(rng: &mut Rng) -> Input {
    let count = rng.one_of(&[200, 600, 1_500]);
    let mut image = vec![0xA9, 0xC1, 0x85, 0xFB, 0x85, 0xFC];
    for _ in 0..count {
        image.extend(rng.one_of(&[
            &[0x91, 0xFB][..],
            &[0xB1, 0xFC],
            &[0xA1, 0xFB],
            &[0xF0, 0x01, 0xEA],
            &[0xD0, 0x01, 0x02],
            &[0xD0, 0x01, 0x00],
            &[0x11, 0xFF],
        ]));
    }
    image.push(0x60);
    let load = place::load_for(rng, image.len());
    let entries = place::entries(rng, load, image.len(), &[load]);
    Input { load, entries, image }
}

/// More entries than a weight can count: it stops at 65,535. The image is tiny, since each entry is walked by itself.
fn more_entries_than_weight(rng: &mut Rng) -> Input {
    let count = rng.one_of(&[65_534, 65_535, 65_536, 66_000]);
    let image: &[u8] = rng.one_of(&[&[0x00], &[0x60], &[0x91, 0xFB], &[0xEA, 0x02], &[0xD0, 0x00, 0x00]]);
    let mut entries = vec![0xC000; count];
    if rng.chance(50) {
        entries[rng.below(count)] = 0xC001;
    }
    Input { load: 0xC000, entries, image: image.to_vec() }
}
