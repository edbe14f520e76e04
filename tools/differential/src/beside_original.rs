// From here on: the harness's own lines, put after the unchanged original by build.rs, so that they may call what is private there.

/// An opcode's class, as the original decodes it.
#[derive(Clone, Copy, PartialEq, Eq, Debug)]
pub(crate) enum Class {
    Plain,
    IndirectX,
    IndirectY,
    Absolute,
    Indexed,
    Branch,
    Call,
    Jump,
    Stop,
    Brk,
    JumpIndirect,
    Undefined,
}

pub(crate) fn class(opcode: u8) -> Class {
    match decode(opcode) {
        (Mode::Illegal, _) => Class::Undefined,
        (Mode::Ind, _) => Class::JumpIndirect,
        (_, Flow::Refuse) => Class::Brk,
        (_, Flow::Branch) => Class::Branch,
        (_, Flow::Call) => Class::Call,
        (_, Flow::Jump) => Class::Jump,
        (_, Flow::Stop) => Class::Stop,
        (Mode::Izx, _) => Class::IndirectX,
        (Mode::Izy, _) => Class::IndirectY,
        (Mode::Abs, _) => Class::Absolute,
        (Mode::AbX | Mode::AbY, _) => Class::Indexed,
        _ => Class::Plain,
    }
}

/// An instruction's length; 0 where the opcode is undefined.
pub(crate) fn length(opcode: u8) -> u16 {
    decode(opcode).0.len()
}

/// The addresses that the diagnosis's walk meets. The image must not be empty nor end past 0xFFFF.
pub(crate) fn met(body: &[u8], load: u16, entries: &[u16]) -> BTreeSet<u16> {
    let last = load + (body.len() - 1) as u16;
    let mut seen = BTreeSet::new();
    walk_recording(body, load, last, entries, &mut seen, &mut Vec::new());
    seen
}

/// The walk of the stores: what tells a refusal 4 from a refusal 5.
pub(crate) fn store_walk(body: &[u8], load: u16, entries: &[u16]) -> Option<BTreeSet<u16>> {
    reachable_instructions(body, load, entries)
}

/// Whether the walk knows that zero-page byte.
pub(crate) fn resolved(body: &[u8], load: u16, met: &BTreeSet<u16>, byte: u8) -> bool {
    zp_resolved_by_walk(body, load, met, byte)
}
