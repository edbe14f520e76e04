//! Every image of one byte and of two, at the ends of memory and in its middle, with entries before, in and behind it.

use super::Made;
use crate::input::Input;

/// All of them, one after another.
pub fn exhaustive() -> impl Iterator<Item = Made> {
    let inputs = empties().into_iter().chain(one_byte()).chain(two_bytes());
    inputs.enumerate().map(|(index, input)| Made { kind: "exhaustive", index: index as u64, input })
}

/// No image, no entries, neither.
fn empties() -> Vec<Input> {
    let mut list = Vec::new();
    for load in [0, 1, 0xC000, 0xFFFF] {
        list.push(Input::new(load, &[], &[]));
        list.push(Input::new(load, &[load], &[]));
        list.push(Input::new(load, &[load, load.wrapping_add(1)], &[]));
    }
    list
}

pub fn one_byte() -> impl Iterator<Item = Input> {
    let all = [0u16, 1, 0xC000, 0xFFFF].into_iter().flat_map(|load| (0..=0xFF).map(move |byte: u8| (load, byte)));
    all.flat_map(|(load, byte)| entry_lists(load, 1).into_iter().map(move |entries| Input::new(load, &entries, &[byte])))
}

/// Two bytes at 0xFFFF end past it, whatever the entries are: there one list is enough; at 0xFFFE they just fit.
fn two_bytes() -> impl Iterator<Item = Input> {
    let all = [0u16, 1, 0xC000, 0xFFFE, 0xFFFF].into_iter().flat_map(|load| (0..=0xFFFF).map(move |word: u16| (load, word)));
    all.flat_map(|(load, word)| {
        let lists = if load == 0xFFFF { vec![vec![load]] } else { entry_lists(load, 2) };
        lists.into_iter().map(move |entries| Input::new(load, &entries, &word.to_le_bytes()))
    })
}

/// None, the first byte, the one below, the one above, the first one past the end, and pairs in both orders.
fn entry_lists(load: u16, length: u16) -> Vec<Vec<u16>> {
    let (below, above, past) = (load.wrapping_sub(1), load.wrapping_add(1), load.wrapping_add(length));
    let mut lists = vec![vec![], vec![load], vec![below], vec![above], vec![load, above], vec![above, load]];
    if past != above {
        lists.push(vec![past]);
    }
    lists
}

/// Every opcode with a few tails, at C000, entered there: enough of the short images for a short list.
pub fn samples() -> impl Iterator<Item = Input> {
    let tails: [&[u8]; 10] =
        [&[0x60], &[0xEA], &[0x00], &[0xFB], &[0xFF], &[0x60, 0x60], &[0x00, 0xC0], &[0x00, 0xC0, 0x60], &[0xFB, 0x60, 0x60], &[0xFF, 0xFF, 0x60]];
    let all = (0..=0xFF).flat_map(move |opcode: u8| tails.map(|tail| [&[opcode], tail].concat()));
    all.map(|image| Input::new(0xC000, &[0xC000], &image))
}
