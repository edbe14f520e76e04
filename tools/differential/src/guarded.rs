//! The guarded span. The original has none: this is written from the text of 01, "The guarded span", and from nothing else.

use crate::original::{self, Class};

/// The smallest range that covers what has been named so far.
struct Range {
    low: u16,
    high: u16,
}

impl Range {
    fn cover(&mut self, first: u16, last: u16) {
        self.low = self.low.min(first);
        self.high = self.high.max(last);
    }
}

/// "Same walk, same refusals": so it is given where the plain span is, and over the same instructions.
pub fn guarded_span(image: &[u8], load: u16, entries: &[u16]) -> Option<(u16, u16)> {
    original::reachable_span(image, load, entries)?;
    let mut range = Range { low: entries[0], high: entries[0] };
    for entry in entries {
        range.cover(*entry, *entry);
    }
    // Where the plain span is given the diagnosis meets no refused site, and meets what the span's walk does.
    for start in original::met(image, load, entries) {
        cover_instruction(&mut range, image, load, start);
    }
    Some((range.low, range.high))
}

fn cover_instruction(range: &mut Range, image: &[u8], load: u16, start: u16) {
    let last = load + (image.len() - 1) as u16;
    let at = |address: u16| image[(address - load) as usize];
    let opcode = at(start);
    range.cover(start, start + (original::length(opcode) - 1));
    let class = original::class(opcode);
    if !matches!(class, Class::Absolute | Class::Call | Class::Jump | Class::Indexed) {
        return;
    }
    let base = u16::from_le_bytes([at(start + 1), at(start + 2)]);
    // "base to base + 255, stopped at 0xFFFF; the part of that run inside the image is covered", base inside or not.
    let end = if class == Class::Indexed { base.saturating_add(255) } else { base };
    let (first, final_one) = (base.max(load), end.min(last));
    if first <= final_one {
        range.cover(first, final_one);
    }
}
