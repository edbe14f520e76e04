//! Holds the Rust crate against the original, which is included unchanged, on deterministic inputs: every call that both have, every field of every answer.
//! One source makes both sides' answers, with the `use` line alone changed, so that it also shows that names and types agree.

#[allow(dead_code)]
#[path = "../../docs/src/crates/core/src/image_reach.rs"]
mod original;

use image_reach::Refusal;
use std::collections::BTreeMap;
use std::process::exit;

/// What a module answers to an input, with nothing left of its own types.
#[derive(PartialEq, Debug)]
struct Answers {
    end: Option<u16>,
    span: Option<(u16, u16)>,
    diagnosis: Option<Diagnosis>,
    stores: Option<Vec<(u16, u16)>>,
    registers: [Option<u8>; 3],
    zero_page: BTreeMap<u8, u8>,
}

#[derive(PartialEq, Debug)]
struct Diagnosis {
    low: u16,
    high: u16,
    instructions: usize,
    refusals: Vec<Refused>,
}

#[derive(PartialEq, Debug)]
struct Refused {
    addr: u16,
    opcode: u8,
    cause: u8,
    slug: &'static str,
    zp: Option<u8>,
    flags: (bool, bool),
    from_entries: u16,
}

macro_rules! answers_of {
    ($name:ident, $($module:ident)::+) => {
        fn $name(input: &Input) -> Answers {
            use $($module)::+::{diagnose, reachable_end, reachable_span, track_immediates, write_extent, ImmState, ReachDiag, ReachRefusal, RefusalCause};
            let (body, load, entries) = (&input.body[..], input.load, &input.entries[..]);
            let state: ImmState = track_immediates(body);
            Answers {
                end: reachable_end(body, load, entries),
                span: reachable_span(body, load, entries),
                diagnosis: diagnose(body, load, entries).map(|ReachDiag { refusals, low, high, instructions }| Diagnosis {
                    low,
                    high,
                    instructions,
                    refusals: refusals
                        .into_iter()
                        .map(|ReachRefusal { addr, opcode, cause, zp, zp_linear, zp_from_walk, from_entries }| Refused {
                            addr,
                            opcode,
                            cause: cause as u8,
                            slug: RefusalCause::slug(cause),
                            zp,
                            flags: (zp_linear, zp_from_walk),
                            from_entries,
                        })
                        .collect(),
                }),
                stores: write_extent(body, load, entries),
                registers: [state.a, state.x, state.y],
                zero_page: state.zp.into_iter().collect(),
            }
        }
    };
}

answers_of!(by_original, crate::original);
answers_of!(by_port, image_reach);

/// What the original does not have: the numbers, the count, and the guarded span. They have to fit what it has.
fn numbers_fit(input: &Input, a: &Answers) -> bool {
    let (body, load, entries) = (&input.body[..], input.load, &input.entries[..]);
    let first = if body.is_empty() {
        Some(Refusal::ImageEmpty)
    } else if entries.is_empty() {
        Some(Refusal::NoEntries)
    } else if load as usize + body.len() > 0x10000 {
        Some(Refusal::PastTop)
    } else {
        None
    };
    let refused = first.unwrap_or(Refusal::Refused);
    let span = image_reach::reachable_span_numbered(body, load, entries);
    let guarded = image_reach::guarded_span_numbered(body, load, entries);
    let span_fits = match (a.span, span, guarded) {
        (Some((low, high)), Ok(s), Ok(g)) => {
            let met = a.diagnosis.as_ref().map(|d| d.instructions);
            (s.low, s.high) == (low, high)
                && met == Some(s.count as usize)
                && g.count == s.count
                && g.low <= low
                && high <= g.high
                && image_reach::guarded_span(body, load, entries) == Some((g.low, g.high))
        }
        (None, Err(s), Err(g)) => s == refused && g == refused && image_reach::guarded_span(body, load, entries).is_none(),
        _ => false,
    };
    let end_fits = image_reach::reachable_end_numbered(body, load, entries) == a.span.map(|s| s.1).ok_or(refused);
    let diagnosis_fits = image_reach::diagnose_numbered(body, load, entries).err() == first;
    let stores_fit = match image_reach::write_extent_numbered(body, load, entries) {
        Ok(spans) => Some(spans) == a.stores,
        Err(n) => a.stores.is_none() && (Some(n) == first || first.is_none() && matches!(n, Refusal::Refused | Refusal::Unbounded)),
    };
    span_fits && end_fits && diagnosis_fits && stores_fit
}

// ── inputs ──

#[derive(Debug)]
struct Input {
    body: Vec<u8>,
    load: u16,
    entries: Vec<u16>,
}

/// Numbers that are the same in every run (splitmix64).
struct Dice(u64);

impl Dice {
    fn roll(&mut self) -> u64 {
        self.0 = self.0.wrapping_add(0x9E37_79B9_7F4A_7C15);
        let a = (self.0 ^ self.0 >> 30).wrapping_mul(0xBF58_476D_1CE4_E5B9);
        let b = (a ^ a >> 27).wrapping_mul(0x94D0_49BB_1331_11EB);
        b ^ b >> 31
    }

    fn below(&mut self, n: usize) -> usize {
        (self.roll() % n as u64) as usize
    }

    fn byte(&mut self) -> u8 {
        self.roll() as u8
    }

    fn one_of<T: Copy>(&mut self, list: &[T]) -> T {
        list[self.below(list.len())]
    }
}

/// An address for an operand: inside the image as a rule, else near it, at an edge, at one of the two ROM calls, or anywhere.
fn operand(dice: &mut Dice, load: u16, length: usize) -> u16 {
    match dice.below(10) {
        0..=5 => load.wrapping_add(dice.below(length + 1) as u16),
        6 => load.wrapping_sub(dice.below(300) as u16),
        7 => dice.one_of(&[0xFFE1, 0xFFE4, 0xFFFF, 0xFFF0, 0]),
        _ => dice.roll() as u16,
    }
}

const IMPLIED: [u8; 8] = [0xEA, 0xCA, 0xE8, 0x18, 0xAA, 0x0A, 0x48, 0xC8];
const IMMEDIATE: [u8; 6] = [0xA9, 0xA2, 0xA0, 0xC9, 0xA9, 0xE0];
const ZERO_PAGE: [u8; 8] = [0x85, 0x86, 0x84, 0xE6, 0xC6, 0xA5, 0xB5, 0x96];
const BRANCHES: [u8; 8] = [0x10, 0x30, 0x50, 0x70, 0x90, 0xB0, 0xD0, 0xF0];
const ABSOLUTE: [u8; 10] = [0xAD, 0xBD, 0xB9, 0x8D, 0x9D, 0x99, 0xEE, 0x1E, 0x2C, 0xBE];
const REFUSED: [u8; 7] = [0x00, 0x6C, 0x02, 0x91, 0xB1, 0x81, 0xA1];

/// Instructions as a program has them, with a refused one every `rare` or so; and where each starts. Calls, jumps and branches go to starts as a rule.
fn code(dice: &mut Dice, load: u16, count: usize, rare: usize) -> (Vec<u8>, Vec<usize>) {
    let (mut body, mut starts) = (Vec::new(), Vec::new());
    // a few zero-page bytes, so that pointers are met again
    let z = dice.byte();
    for _ in 0..count {
        starts.push(body.len());
        let page = if dice.below(8) == 0 { dice.byte() } else { z.wrapping_add(dice.below(3) as u8) };
        let word = operand(dice, load, 3 * count).to_le_bytes();
        if dice.below(rare) == 0 {
            body.extend([dice.one_of(&REFUSED), page]);
            continue;
        }
        match dice.below(16) {
            0..=1 => body.push(dice.one_of(&IMPLIED)),
            2..=4 => body.extend([dice.one_of(&IMMEDIATE), if dice.below(2) == 0 { 0xC0 + dice.below(4) as u8 } else { dice.byte() }]),
            5..=7 => body.extend([dice.one_of(&ZERO_PAGE), page]),
            8..=9 => body.extend([dice.one_of(&BRANCHES), dice.byte()]),
            10..=12 => body.extend([dice.one_of(&ABSOLUTE), word[0], word[1]]),
            13 => body.extend([0x20, word[0], word[1]]),
            14 => body.extend([dice.one_of(&[0x4C, 0x20, 0x20]), word[0], word[1]]),
            _ => body.push(dice.one_of(&[0x60, 0x40, 0xEA])),
        }
    }
    if dice.below(8) != 0 {
        starts.push(body.len());
        body.push(dice.one_of(&[0x60, 0x60, 0x40]));
    }
    // one in `wild` goes where it goes
    let wild = dice.one_of(&[4, 30, 1_000_000]);
    for &at in &starts {
        let to = dice.one_of(&starts);
        if dice.below(wild) == 0 {
            continue;
        }
        if body[at] & 0x1F == 0x10 {
            let near = to.clamp((at + 2).saturating_sub(128), at + 2 + 127);
            let to = starts.iter().copied().find(|s| *s >= near && *s <= at + 2 + 127).unwrap_or(at);
            body[at + 1] = (to as i64 - (at as i64 + 2)) as u8;
        } else if body[at] == 0x20 || body[at] == 0x4C {
            let target = if dice.below(12) == 0 { dice.one_of(&[0xFFE1, 0xFFE4]) } else { load.wrapping_add(to as u16) };
            body[at + 1..at + 3].copy_from_slice(&target.to_le_bytes());
        }
    }
    (body, starts)
}

/// Entries: inside as a rule, one to five of them.
fn entries(dice: &mut Dice, load: u16, length: usize) -> Vec<u16> {
    let wild = dice.below(8) == 0;
    (0..1 + dice.below(5))
        .map(|_| if wild { operand(dice, load, length) } else { load.wrapping_add(dice.below(length.max(1)) as u16) })
        .collect()
}

/// A load address: anywhere that the image fits, or such that it ends at or next to the top, or at 0.
fn load_for(dice: &mut Dice, length: usize) -> u16 {
    let top = 0x10000 - length.min(0xFFFF);
    match dice.below(8) {
        0 => 0,
        1 => top as u16,
        2 => (top + 1).min(0xFFFF) as u16,
        3 => top.saturating_sub(1) as u16,
        _ => dice.below(top.min(0xFFFF) + 1) as u16,
    }
}

fn random(dice: &mut Dice) -> Input {
    let length = dice.below(160);
    let load = load_for(dice, length);
    Input { body: (0..length).map(|_| dice.byte()).collect(), load, entries: entries(dice, load, length) }
}

fn structured(dice: &mut Dice) -> Input {
    let count = 1 + dice.below(120);
    let length = 3 * count + 1;
    let load = load_for(dice, length);
    let rare = dice.one_of(&[6, 40, 1_000_000, 1_000_000]);
    let (mut body, starts) = code(dice, load, count, rare);
    if dice.below(2) == 0 {
        // tables after the code
        body.resize_with(length, || dice.byte());
    }
    let entries = if dice.below(8) == 0 {
        entries(dice, load, body.len())
    } else {
        (0..1 + dice.below(4)).map(|_| load.wrapping_add(dice.one_of(&starts) as u16)).collect()
    };
    Input { body, load, entries }
}

/// A store through a pointer that a loop walks up or down, and what bounds it: CMP, X and DEX, or nothing. One byte may be damaged.
fn store_loop(dice: &mut Dice) -> Input {
    let load = dice.one_of(&[0xC000, 0x0801, 0, 0xFF00]);
    let z: u8 = dice.one_of(&[0xFB, 0x20, 0xFE, 0xFF]);
    let high = z.wrapping_add(1);
    let mut body = vec![0xA9, dice.byte(), 0x85, z, 0xA9, dice.one_of(&[0xC1, 0x04, 0xFE, 0x00]), 0x85, high];
    if dice.below(2) == 0 {
        body.extend([0xA2, dice.below(5) as u8]);
    }
    body.extend([0x91, z]);
    body.extend([dice.one_of(&[0xE6, 0xC6, 0xA5]), high]);
    if dice.below(4) == 0 {
        body.extend([dice.one_of(&[0xE6, 0xC6]), high]);
    }
    for _ in 0..dice.below(3) {
        body.extend([0xA5, high, 0xC9, dice.one_of(&[0xC5, 0xC5, 0x00, 0xFF])]);
    }
    if dice.below(2) == 0 {
        body.push(0xCA);
    }
    body.extend([0xD0, 0x80 + dice.below(0x80) as u8, 0x60]);
    if dice.below(4) == 0 {
        let at = dice.below(body.len());
        body[at] = dice.byte();
    }
    Input { body, load, entries: vec![load] }
}

/// Long images: as many instructions as the limit, one less, one more, with one or two entries.
fn long(dice: &mut Dice) -> Input {
    let count = 4090 + dice.below(12);
    let mut body = vec![0xEA; count];
    for _ in 0..dice.below(3) {
        let at = dice.below(count);
        body[at] = dice.one_of(&[0x60, 0xCA, 0xD0, 0x20, 0x91, 0x00]);
    }
    body.push(0x60);
    let load = dice.one_of(&[0xC000, 0x1000, 0, (0x10000 - body.len()) as u16]);
    let second = load + dice.below(count) as u16;
    Input { body, load, entries: if dice.below(2) == 0 { vec![load] } else { vec![second, load] } }
}

/// Many records: more refusals or stores than a list is lent at first.
fn many(dice: &mut Dice) -> Input {
    let load = 0x2000;
    let mut body = Vec::new();
    let n = dice.one_of(&[62, 63, 64, 65, 200, 1500]);
    let kind = dice.below(4);
    for _ in 0..n {
        match kind {
            0 => body.extend([0x91, dice.byte()]),
            1 => body.extend([0x8D, dice.byte(), dice.byte()]),
            2 => body.extend([dice.one_of(&[0x9D, 0xEE, 0x1E]), dice.byte(), dice.byte()]),
            _ => body.extend([dice.one_of(&[0x81, 0xB1, 0xA1]), dice.byte()]),
        }
    }
    body.push(dice.one_of(&[0x60, 0x00]));
    let mut entries = vec![load];
    for _ in 0..dice.below(3) {
        entries.push(load + dice.below(body.len()) as u16);
    }
    Input { body, load, entries }
}

/// Every address an entry, or most of them; a refusal at nearly each.
fn crowded(dice: &mut Dice) -> Input {
    let length = 30 + dice.below(200);
    let load = load_for(dice, length);
    let body = (0..length).map(|_| dice.one_of(&[0x02, 0x00, 0x91, 0xEA, 0x60, 0xFF])).collect();
    let entries = (0..length + dice.below(40)).map(|i| load.wrapping_add(i as u16)).collect();
    Input { body, load, entries }
}

/// 01's bench, and the edges of memory and of the lists' lengths.
fn chosen() -> Vec<Input> {
    let at_c000 = |body: &[u8]| Input { body: body.to_vec(), load: 0xC000, entries: vec![0xC000] };
    let store_to = |limit: u8| {
        at_c000(&[
            0xA9, 0x00, 0x85, 0xFB, 0xA9, 0xC1, 0x85, 0xFC, 0x91, 0xFB, 0xE6, 0xFC, 0xA5, 0xFC, 0xC9, limit, 0xD0, 0xF6, 0x60,
        ])
    };
    let run = |n: usize| {
        let mut body = vec![0xEA; n];
        body.push(0x60);
        body
    };
    let whole = |first: &[u8]| {
        let mut body = first.to_vec();
        body.resize(0x10000, 0xEA);
        body
    };
    let mut stores = Vec::new();
    for i in 0..4095u16 {
        stores.extend([0x8D, i as u8, (i >> 8) as u8]);
    }
    stores.push(0x60);
    vec![
        Input { body: vec![], load: 0xC000, entries: vec![] },
        Input { body: vec![], load: 0xC000, entries: vec![0xC000] },
        Input { body: vec![0x60], load: 0xC000, entries: vec![] },
        Input { body: vec![0x60, 0x60], load: 0xFFFF, entries: vec![0xFFFF] },
        at_c000(&[0x60]),
        at_c000(&[0xEA]),
        at_c000(&[0x20, 0x00, 0x10]),
        at_c000(&[0x4C, 0x00, 0x10]),
        at_c000(&[0x4C, 0xE4, 0xFF]),
        at_c000(&[0xBD, 0x04, 0xC0, 0x60, 0x11, 0x22, 0x33]),
        at_c000(&[0xBD, 0x07, 0xC0, 0x60, 0x11, 0x22, 0x33]),
        Input { body: vec![0x11, 0x22, 0xBD, 0xFF, 0xBF, 0x60], load: 0xC000, entries: vec![0xC002] },
        at_c000(&[0xD0, 0xFE, 0x60]),
        at_c000(&[0xD0, 0x7F, 0x60]),
        Input { body: vec![0x10, 0x80, 0x60], load: 0, entries: vec![0] },
        at_c000(&[0x91, 0xFF, 0x60]),
        at_c000(&[0x91, 0xFB]),
        at_c000(&[0x9D, 0xF0, 0xFF, 0x60]),
        at_c000(&[0x85, 0xFB, 0x2C, 0xA9, 0x01, 0x85, 0x10]),
        at_c000(&[0xA9, 0x00, 0x85, 0xFB, 0xA9, 0xC1, 0x85, 0xFC, 0x91, 0xFB, 0x60]),
        at_c000(&run(4095)),
        at_c000(&run(4096)),
        Input { body: [run(2499), run(2499)].concat(), load: 0x1000, entries: vec![0x1000, 0x19C4] },
        Input { body: vec![0x60], load: 0xC000, entries: vec![0, 0] },
        store_to(0xC5),
        store_to(0xC1),
        // a call that runs off the end: its target is walked all the same
        Input { body: vec![0x00, 0x20, 0x00, 0xC0], load: 0xC000, entries: vec![0xC001] },
        // all of memory; one byte more; one byte at each end
        Input { body: whole(&[0x4C, 0xFF, 0xFF]), load: 0, entries: vec![0] },
        Input { body: whole(&[0xA9, 0xFF, 0x85, 0xFF, 0x4C, 0xFD, 0xFF]), load: 0, entries: vec![0, 0xFFFE, 0xFFFF] },
        Input { body: whole(&[0x60]), load: 1, entries: vec![1] },
        Input { body: vec![0x60; 0x10001], load: 0, entries: vec![0] },
        Input { body: vec![0x60], load: 0xFFFF, entries: vec![0xFFFF] },
        Input { body: vec![0x60], load: 0, entries: vec![0] },
        Input { body: vec![0xBD, 0xF0, 0xFF, 0x60], load: 0xFFFC, entries: vec![0xFFFC] },
        // as many stores as there can be; as many entries as a weight can count, and more
        Input { body: stores, load: 0x1000, entries: vec![0x1000] },
        Input { body: vec![0x00], load: 0xC000, entries: vec![0xC000; 65_535] },
        Input { body: vec![0x00], load: 0xC000, entries: vec![0xC000; 70_000] },
        Input { body: vec![0x60], load: 0xC000, entries: (0..=0xFFFF).collect() },
    ]
}

fn main() {
    let dice = &mut Dice(6502);
    let mut inputs = chosen();
    for (make, times) in [
        (random as fn(&mut Dice) -> Input, 12_000),
        (structured, 20_000),
        (store_loop, 8_000),
        (long, 200),
        (many, 300),
        (crowded, 500),
    ] {
        inputs.extend((0..times).map(|_| make(dice)));
    }
    let mut differ = 0;
    let (mut spans, mut diagnoses, mut refusals, mut stores) = (0, 0, 0, 0);
    for input in &inputs {
        let (theirs, ours) = (by_original(input), by_port(input));
        if theirs != ours || !numbers_fit(input, &theirs) {
            differ += 1;
            if differ <= 3 {
                println!("{input:02X?}\n  original {theirs:02X?}\n  port     {ours:02X?}");
            }
        }
        spans += theirs.span.is_some() as usize;
        diagnoses += theirs.diagnosis.is_some() as usize;
        refusals += theirs.diagnosis.map_or(0, |d| d.refusals.len());
        stores += theirs.stores.map_or(0, |s| s.len());
    }
    println!("{spans} spans, {diagnoses} diagnoses with {refusals} refusals, {stores} store spans");
    println!("{} inputs, {differ} differ", inputs.len());
    exit((differ != 0) as i32);
}
