//! Whole instructions, one after another, whose branches, jumps, calls and tables go where such things go.

use super::place;
use crate::input::Input;
use crate::original::{class, length, Class};
use crate::rng::Rng;

/// A routine of whole instructions with its tables behind it; few or many refused sites.
pub fn structured(rng: &mut Rng) -> Input {
    let count = if rng.chance(5) { rng.between(40, 200) } else { rng.between(1, 24) };
    let refused = rng.one_of(&[0, 0, 0, 0, 2, 5, 20, 60]);
    of_size(rng, count, refused)
}

/// The same with so many instructions, `refused` in a hundred of which are refused sites.
pub fn of_size(rng: &mut Rng, count: usize, refused: usize) -> Input {
    let opcodes = opcodes(rng, count, refused);
    let offsets = offsets(&opcodes);
    let code_length = offsets[opcodes.len()];
    let table_length = if rng.chance(10) { rng.between(200, 600) } else { rng.between(0, 24) };
    let total = code_length + table_length;
    let load = place::load_for(rng, total);
    let starts: Vec<u16> = offsets[..opcodes.len()].iter().map(|offset| load.wrapping_add(*offset as u16)).collect();

    let mut image = Vec::new();
    for (number, opcode) in opcodes.iter().enumerate() {
        image.push(*opcode);
        image.extend(operand(rng, *opcode, number, load, total, &starts));
    }
    image.extend(rng.bytes(table_length));
    // Now and then the last bytes are missing, so that an operand or the next address is past the end.
    if rng.chance(5) {
        image.truncate(image.len().saturating_sub(rng.between(1, 3)));
    }
    let entries = place::entries(rng, load, image.len(), &starts);
    Input { load, entries, image }
}

/// Opcodes: refused sites, and others that go on, branch, call, jump or stop; mostly a stop or a jump at the end.
fn opcodes(rng: &mut Rng, count: usize, refused: usize) -> Vec<u8> {
    let mut list: Vec<u8> = (0..count).map(|_| if rng.chance(refused) { refused_one(rng) } else { good_one(rng) }).collect();
    if rng.chance(90) {
        list.push(rng.one_of(&[0x60, 0x60, 0x60, 0x40, 0x4C]));
    }
    list
}

fn is_refused(opcode: u8) -> bool {
    matches!(class(opcode), Class::Undefined | Class::Brk | Class::JumpIndirect | Class::IndirectX | Class::IndirectY)
}

fn refused_one(rng: &mut Rng) -> u8 {
    // The five causes are equally frequent, though most refused opcodes are undefined ones.
    let wanted = rng.one_of(&[Class::Undefined, Class::Brk, Class::JumpIndirect, Class::IndirectX, Class::IndirectY]);
    first(rng, |opcode| class(opcode) == wanted)
}

fn good_one(rng: &mut Rng) -> u8 {
    match rng.below(20) {
        0..=3 => first(rng, |opcode| class(opcode) == Class::Branch),
        4 | 5 => first(rng, |opcode| class(opcode) == Class::Indexed),
        6 | 7 => first(rng, |opcode| class(opcode) == Class::Absolute),
        8 => 0x20,
        9 if rng.chance(40) => rng.one_of(&[0x4C, 0x60, 0x40]),
        _ => first(rng, |opcode| !is_refused(opcode) && class(opcode) != Class::Stop),
    }
}

/// Some opcode that passes: all of them come up.
fn first(rng: &mut Rng, passes: impl Fn(u8) -> bool) -> u8 {
    let mut opcode = rng.byte();
    while !passes(opcode) {
        opcode = rng.byte();
    }
    opcode
}

/// Each instruction's offset, and the end. An undefined opcode takes its own byte.
fn offsets(opcodes: &[u8]) -> Vec<usize> {
    let mut list = vec![0];
    for opcode in opcodes {
        list.push(list[list.len() - 1] + length(*opcode).max(1) as usize);
    }
    list
}

fn operand(rng: &mut Rng, opcode: u8, number: usize, load: u16, total: usize, starts: &[u16]) -> Vec<u8> {
    match class(opcode) {
        Class::Branch => {
            let near = (number + rng.below(25)).saturating_sub(12).min(starts.len() - 1);
            let target = if rng.chance(6) { rng.word() } else { starts[near] };
            vec![place::offset(rng, starts[number].wrapping_add(2), target)]
        }
        Class::Call | Class::Jump => place::aim(rng, load, total, starts).to_le_bytes().to_vec(),
        Class::Absolute | Class::Indexed | Class::JumpIndirect => place::named(rng, load, total).to_le_bytes().to_vec(),
        _ => rng.bytes(length(opcode).max(1) as usize - 1),
    }
}
