//! The part of a 6502 image that calls can reach, as the proved library has it, under the names and types of YABCompiler's module `image_reach`.
//!
//! The calls that the original has answer as the original does: a caller changes its `use` line and nothing else. Beside them stand [`guarded_span`], and for each
//! call a `.._numbered` one that tells which refusal it is.
//!
//! No call panics, whatever the image, load address and entries are. Each takes up to 40 KB of stack.

use std::collections::HashMap;

/// The functions of `libimage_reach.a`, as `crates/image_reach/src/lib.rt` exports them: a slice is a pointer and a length.
mod ffi {
    #[link(name = "image_reach", kind = "static")]
    extern "C" {
        pub fn image_reach_span(
            image: *const u8,
            length: usize,
            load: u16,
            entries: *const u16,
            entry_count: usize,
            low: &mut u16,
            high: &mut u16,
            count: &mut u32,
        ) -> u32;
        pub fn image_reach_guarded_span(
            image: *const u8,
            length: usize,
            load: u16,
            entries: *const u16,
            entry_count: usize,
            low: &mut u16,
            high: &mut u16,
            count: &mut u32,
        ) -> u32;
        pub fn image_reach_end(
            image: *const u8,
            length: usize,
            load: u16,
            entries: *const u16,
            entry_count: usize,
            high: &mut u16,
        ) -> u32;
        pub fn image_reach_diagnose(
            image: *const u8,
            length: usize,
            load: u16,
            entries: *const u16,
            entry_count: usize,
            slots: *mut u64,
            slot_count: usize,
            low: &mut u16,
            high: &mut u16,
            count: &mut u32,
            records: &mut usize,
        ) -> u32;
        pub fn image_reach_write_extent(
            image: *const u8,
            length: usize,
            load: u16,
            entries: *const u16,
            entry_count: usize,
            slots: *mut u32,
            slot_count: usize,
            records: &mut usize,
        ) -> u32;
        pub fn image_reach_track_immediates(
            code: *const u8,
            length: usize,
            registers: &mut [u8; 3],
            known: &mut [u8; 3],
            zp: &mut [u8; 256],
            marks: &mut [u8; 256],
        );
    }
}

// ── the original's types ──

/// Why an instruction or an entry is refused. The numbers are those of a record.
#[derive(Clone, Copy, Debug, PartialEq, Eq)]
pub enum RefusalCause {
    /// No instruction of the chip.
    IllegalOpcode,
    Brk,
    JmpIndirect,
    /// `($nn),Y` ; the pointer is in zero page.
    IndirectIndexedY,
    /// `($nn,X)` ; X selects which pointer at run time.
    IndirectIndexedX,
    /// The instruction's own operand bytes run past the last byte of the image.
    OperandOffEnd,
    /// Fall-through leaves the image.
    RanOffEnd,
    /// The 4,097th instruction.
    Budget,
    /// An entry point outside the image.
    EntryOutside,
}

impl RefusalCause {
    /// By number.
    const ALL: [RefusalCause; 9] = [
        RefusalCause::IllegalOpcode,
        RefusalCause::Brk,
        RefusalCause::JmpIndirect,
        RefusalCause::IndirectIndexedY,
        RefusalCause::IndirectIndexedX,
        RefusalCause::OperandOffEnd,
        RefusalCause::RanOffEnd,
        RefusalCause::Budget,
        RefusalCause::EntryOutside,
    ];

    pub fn slug(self) -> &'static str {
        match self {
            RefusalCause::IllegalOpcode => "illegal-opcode",
            RefusalCause::Brk => "brk",
            RefusalCause::JmpIndirect => "jmp-indirect",
            RefusalCause::IndirectIndexedY => "indirect-y",
            RefusalCause::IndirectIndexedX => "indirect-x",
            RefusalCause::OperandOffEnd => "operand-off-end",
            RefusalCause::RanOffEnd => "ran-off-end",
            RefusalCause::Budget => "budget",
            RefusalCause::EntryOutside => "entry-outside",
        }
    }
}

/// One instruction [`reachable_span`] cannot account for, named.
#[derive(Clone, Copy, Debug, PartialEq, Eq)]
pub struct ReachRefusal {
    /// Address of the offending instruction, or of the offending entry point for [`RefusalCause::EntryOutside`].
    pub addr: u16,
    /// Its first byte; 0 for an entry point outside.
    pub opcode: u8,
    pub cause: RefusalCause,
    /// The zero-page pointer the operand names, for the two indirect causes only.
    pub zp: Option<u8>,
    /// The tracker, over all bytes up to the site, knows both bytes of the pointer.
    pub zp_linear: bool,
    /// The instructions met store one known value in each byte of the pointer.
    pub zp_from_walk: bool,
    /// How many of the entry points reach this instruction.
    pub from_entries: u16,
}

impl ReachRefusal {
    /// A 64-bit record, unpacked.
    fn of_record(record: u64) -> ReachRefusal {
        ReachRefusal {
            addr: (record >> 48) as u16,
            opcode: (record >> 32) as u8,
            cause: RefusalCause::ALL[(record >> 40) as usize & 0xFF],
            zp: (record >> 18 & 1 == 1).then_some((record >> 24) as u8),
            zp_linear: record >> 17 & 1 == 1,
            zp_from_walk: record >> 16 & 1 == 1,
            from_entries: record as u16,
        }
    }
}

/// What the walk found, refusals and all.
#[derive(Clone, Debug)]
pub struct ReachDiag {
    /// Every refusal site, in ascending address order.
    pub refusals: Vec<ReachRefusal>,
    /// Lowest and highest addresses named.
    pub low: u16,
    pub high: u16,
    /// Instruction starts the walk met.
    pub instructions: usize,
}

/// What a linear scan knows of registers and zero page.
#[derive(Default)]
pub struct ImmState {
    pub a: Option<u8>,
    pub x: Option<u8>,
    pub y: Option<u8>,
    pub zp: HashMap<u8, u8>,
}

// ── what the port adds ──

/// A refusal by its number. 6, a lent list too short, does not come up here: the calls make their lists as long as needed.
#[derive(Clone, Copy, Debug, PartialEq, Eq)]
#[repr(u8)]
pub enum Refusal {
    ImageEmpty = 1,
    NoEntries = 2,
    /// The image ends past 0xFFFF.
    PastTop = 3,
    /// An entry is outside, a refused instruction is reachable, or more than 4,096 instructions are.
    Refused = 4,
    /// A reachable store has no bounded span.
    Unbounded = 5,
    /// More than 4,096 addresses are pending; proved never to happen.
    Full = 7,
}

impl Refusal {
    fn of_number(number: u32) -> Refusal {
        match number {
            1 => Refusal::ImageEmpty,
            2 => Refusal::NoEntries,
            3 => Refusal::PastTop,
            4 => Refusal::Refused,
            5 => Refusal::Unbounded,
            7 => Refusal::Full,
            _ => unreachable!("the library's statement has no refusal {number} here"),
        }
    }
}

/// A span, and how many instructions are reachable.
#[derive(Clone, Copy, Debug, PartialEq, Eq)]
pub struct Span {
    pub low: u16,
    pub high: u16,
    pub count: u32,
}

const ANSWERED: u32 = 0;
const SHORT: u32 = 6;

/// How long a list is lent at first.
const FIRST_SLOTS: usize = 64;

/// The answer of a call that returns its number.
fn answered<T>(number: u32, answer: T) -> Result<T, Refusal> {
    if number == ANSWERED {
        Ok(answer)
    } else {
        Err(Refusal::of_number(number))
    }
}

/// Lends a list, and once more as long as it must be where it is too short; the records that `call` writes. `call` is handed the slots, and the place for the number
/// of records written or needed.
fn listed<R: Copy + Default>(mut call: impl FnMut(&mut [R], &mut usize) -> u32) -> (u32, Vec<R>) {
    let mut records = 0;
    let mut slots = vec![R::default(); FIRST_SLOTS];
    let mut number = call(&mut slots, &mut records);
    if number == SHORT {
        slots = vec![R::default(); records];
        number = call(&mut slots, &mut records);
    }
    slots.truncate(records);
    (number, slots)
}

// ── the calls, refusals by their numbers ──

// SAFETY, of every call below: pointer and length are those of one live slice, the references are live and point to room of their types, and what the
// library writes is borrowed by this call alone. The library asks nothing else of its caller.

pub fn reachable_end_numbered(body: &[u8], load: u16, entries: &[u16]) -> Result<u16, Refusal> {
    let mut high = 0;
    let number =
        unsafe { ffi::image_reach_end(body.as_ptr(), body.len(), load, entries.as_ptr(), entries.len(), &mut high) };
    answered(number, high)
}

/// The plain and the guarded span are told in the same way.
type SpanCall =
    unsafe extern "C" fn(*const u8, usize, u16, *const u16, usize, &mut u16, &mut u16, &mut u32) -> u32;

fn span_by(call: SpanCall, body: &[u8], load: u16, entries: &[u16]) -> Result<Span, Refusal> {
    let (mut low, mut high, mut count) = (0, 0, 0);
    let number = unsafe {
        call(
            body.as_ptr(),
            body.len(),
            load,
            entries.as_ptr(),
            entries.len(),
            &mut low,
            &mut high,
            &mut count,
        )
    };
    answered(number, Span { low, high, count })
}

pub fn reachable_span_numbered(body: &[u8], load: u16, entries: &[u16]) -> Result<Span, Refusal> {
    span_by(ffi::image_reach_span, body, load, entries)
}

/// See [`guarded_span`].
pub fn guarded_span_numbered(body: &[u8], load: u16, entries: &[u16]) -> Result<Span, Refusal> {
    span_by(ffi::image_reach_guarded_span, body, load, entries)
}

pub fn diagnose_numbered(body: &[u8], load: u16, entries: &[u16]) -> Result<ReachDiag, Refusal> {
    let (mut low, mut high, mut count) = (0, 0, 0);
    let (number, records) = listed(|slots: &mut [u64], records| unsafe {
        ffi::image_reach_diagnose(
            body.as_ptr(),
            body.len(),
            load,
            entries.as_ptr(),
            entries.len(),
            slots.as_mut_ptr(),
            slots.len(),
            &mut low,
            &mut high,
            &mut count,
            records,
        )
    });
    let refusals = records.into_iter().map(ReachRefusal::of_record).collect();
    answered(number, ReachDiag { refusals, low, high, instructions: count as usize })
}

pub fn write_extent_numbered(body: &[u8], load: u16, entries: &[u16]) -> Result<Vec<(u16, u16)>, Refusal> {
    let (number, records) = listed(|slots: &mut [u32], records| unsafe {
        ffi::image_reach_write_extent(
            body.as_ptr(),
            body.len(),
            load,
            entries.as_ptr(),
            entries.len(),
            slots.as_mut_ptr(),
            slots.len(),
            records,
        )
    });
    answered(number, records.into_iter().map(|r| ((r >> 16) as u16, r as u16)).collect())
}

// ── the original's calls ──

/// The highest image address reachable from `entries`, or `None` when the scan met something it cannot account for.
pub fn reachable_end(body: &[u8], load: u16, entries: &[u16]) -> Option<u16> {
    reachable_end_numbered(body, load, entries).ok()
}

/// The lowest and highest image address reachable from `entries`, or `None` when the scan met something it cannot account for.
pub fn reachable_span(body: &[u8], load: u16, entries: &[u16]) -> Option<(u16, u16)> {
    reachable_span_numbered(body, load, entries).ok().map(|s| (s.low, s.high))
}

/// The span that also counts the part inside the image of an indexed table whose base lies outside it.
pub fn guarded_span(body: &[u8], load: u16, entries: &[u16]) -> Option<(u16, u16)> {
    guarded_span_numbered(body, load, entries).ok().map(|s| (s.low, s.high))
}

/// Walk the image from `entries` and report every refusal with its weight, instead of stopping at the first one.
pub fn diagnose(body: &[u8], load: u16, entries: &[u16]) -> Option<ReachDiag> {
    diagnose_numbered(body, load, entries).ok()
}

/// The spans that the reachable stores can cover, outside zero page and the stack, by ascending instruction.
pub fn write_extent(body: &[u8], load: u16, entries: &[u16]) -> Option<Vec<(u16, u16)>> {
    write_extent_numbered(body, load, entries).ok()
}

/// What a scan of the code, byte after byte, knows of registers and zero page from immediate loads and stores of them.
pub fn track_immediates(code: &[u8]) -> ImmState {
    let (mut registers, mut known) = ([0; 3], [0; 3]);
    let (mut zp, mut marks) = ([0; 256], [0; 256]);
    unsafe {
        ffi::image_reach_track_immediates(
            code.as_ptr(),
            code.len(),
            &mut registers,
            &mut known,
            &mut zp,
            &mut marks,
        )
    };
    let register = |i: usize| (known[i] == 1).then_some(registers[i]);
    ImmState {
        a: register(0),
        x: register(1),
        y: register(2),
        zp: (0..=255u8).filter(|z| marks[*z as usize] == 1).map(|z| (z, zp[z as usize])).collect(),
    }
}
