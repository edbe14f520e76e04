//! Times the original and the port on the same inputs, call by call, in turns, and prints the ratio. See docs/SPEED.md.

use std::hint::black_box;
use std::time::{Duration, Instant};

#[allow(dead_code)]
#[path = "../../docs/src/crates/core/src/image_reach.rs"]
mod original;

/// The port's functions, as bindings/c/image_reach.h declares them.
mod port {
    extern "C" {
        pub fn image_reach_span(
            image: *const u8, length: usize, load: u16, entries: *const u16, entry_count: usize,
            low: &mut u16, high: &mut u16, count: &mut u32,
        ) -> u32;
        pub fn image_reach_diagnose(
            image: *const u8, length: usize, load: u16, entries: *const u16, entry_count: usize,
            slots: *mut u64, slot_count: usize, low: &mut u16, high: &mut u16, count: &mut u32, records: &mut usize,
        ) -> u32;
        pub fn image_reach_write_extent(
            image: *const u8, length: usize, load: u16, entries: *const u16, entry_count: usize,
            slots: *mut u32, slot_count: usize, records: &mut usize,
        ) -> u32;
        pub fn image_reach_track_immediates(
            code: *const u8, length: usize, registers: &mut [u8; 3], known: &mut [u8; 3], zp: &mut [u8; 256], marks: &mut [u8; 256],
        );
    }
}

/// What is timed: a name, an image at its load address with its entries, and a call.
struct Case {
    name: &'static str,
    call: Call,
    image: Vec<u8>,
    load: u16,
    entries: Vec<u16>,
}

#[derive(Clone, Copy)]
enum Call {
    Span,
    Diagnosis,
    Stores,
    Tracker,
}

const LOAD: u16 = 0x1000;
const SLOTS: usize = 8_192;

fn main() {
    println!();
    println!("| Call | Input | Rust, µs | Rattle, µs | Rust / Rattle |");
    println!("|---|---|---:|---:|---:|");
    for case in cases() {
        let (rust, rattle) = timed(&case);
        println!("| {} | {} | {:.2} | {:.2} | {:.1} |", case.call.name(), case.name, micros(rust), micros(rattle), rust.as_secs_f64() / rattle.as_secs_f64());
    }
}

fn micros(time: Duration) -> f64 {
    time.as_secs_f64() * 1e6
}

impl Call {
    fn name(self) -> &'static str {
        match self {
            Call::Span => "span",
            Call::Diagnosis => "diagnosis",
            Call::Stores => "stores",
            Call::Tracker => "tracker",
        }
    }
}

// ── timing ──

/// The least time of a call on each side, out of rounds that take turns, so that what else the machine does falls on both.
fn timed(case: &Case) -> (Duration, Duration) {
    let mut slots = vec![0u64; SLOTS];
    let mut spans = vec![0u32; SLOTS];
    agree(case, &mut slots, &mut spans);
    let mut best = (Duration::MAX, Duration::MAX);
    for _ in 0..7 {
        best.0 = best.0.min(each(|| rust(case)));
        best.1 = best.1.min(each(|| rattle(case, &mut slots, &mut spans)));
    }
    best
}

/// The time of one call, over as many as take a tenth of a second.
fn each(mut call: impl FnMut() -> usize) -> Duration {
    let begun = Instant::now();
    let mut calls = 0u32;
    while begun.elapsed() < Duration::from_millis(100) {
        for _ in 0..8 {
            black_box(call());
        }
        calls += 8;
    }
    begun.elapsed() / calls
}

/// Both sides do the same work: they answer alike, at least in one number.
fn agree(case: &Case, slots: &mut [u64], spans: &mut [u32]) {
    let (ours, theirs) = (rust(case), rattle(case, slots, spans));
    assert_eq!(ours, theirs, "{} {}", case.call.name(), case.name);
}

/// The original's call; a number of its answer.
fn rust(case: &Case) -> usize {
    let (image, entries) = (black_box(&case.image[..]), black_box(&case.entries[..]));
    match case.call {
        Call::Span => original::reachable_span(image, case.load, entries).map_or(0, |(low, high)| low as usize * 65_536 + high as usize),
        Call::Diagnosis => original::diagnose(image, case.load, entries).map_or(0, |found| found.refusals.len() * 65_536 + found.instructions),
        Call::Stores => original::write_extent(image, case.load, entries).map_or(0, |found| 1 + found.len()),
        Call::Tracker => original::track_immediates(image).zp.len(),
    }
}

/// The port's call; the same number.
fn rattle(case: &Case, slots: &mut [u64], spans: &mut [u32]) -> usize {
    let (image, entries) = (black_box(&case.image[..]), black_box(&case.entries[..]));
    let (mut low, mut high, mut count, mut records) = (0, 0, 0, 0);
    let (at, size, first, entry_count) = (image.as_ptr(), image.len(), entries.as_ptr(), entries.len());
    // The pointers and lengths are those of slices, and the results are places of their own.
    unsafe {
        match case.call {
            Call::Span => {
                port::image_reach_span(at, size, case.load, first, entry_count, &mut low, &mut high, &mut count);
                low as usize * 65_536 + high as usize
            }
            Call::Diagnosis => {
                port::image_reach_diagnose(
                    at, size, case.load, first, entry_count, slots.as_mut_ptr(), slots.len(), &mut low, &mut high, &mut count, &mut records,
                );
                records * 65_536 + count as usize
            }
            Call::Stores => {
                let number = port::image_reach_write_extent(at, size, case.load, first, entry_count, spans.as_mut_ptr(), spans.len(), &mut records);
                if number == 0 { 1 + records } else { 0 }
            }
            Call::Tracker => {
                let (mut registers, mut known, mut zp, mut marks) = ([0; 3], [0; 3], [0; 256], [0; 256]);
                port::image_reach_track_immediates(at, size, &mut registers, &mut known, &mut zp, &mut marks);
                marks.iter().filter(|mark| **mark == 1).count()
            }
        }
    }
}

// ── inputs ──

fn cases() -> Vec<Case> {
    vec![
        case("one instruction", Call::Span, vec![0x60], 1),
        case("one instruction", Call::Diagnosis, vec![0x60], 1),
        case("one instruction", Call::Stores, vec![0x60], 1),
        case("100 instructions", Call::Span, program(100, &[]), 1),
        case("1,000 instructions", Call::Span, program(1_000, &[]), 1),
        case("4,000 instructions", Call::Span, program(4_000, &[]), 1),
        case("100 instructions, 1 entry", Call::Diagnosis, program(100, &[]), 1),
        case("1,000 instructions, 1 entry", Call::Diagnosis, program(1_000, &[]), 1),
        case("1,000 instructions, 30 entries", Call::Diagnosis, program(1_000, &[]), 30),
        case("1,000 instructions, 900 entries", Call::Diagnosis, program(1_000, &[]), 900),
        case("1,000 instructions, 300 of them 91, 1 entry", Call::Diagnosis, program(1_000, &[0x91, 0xFB]), 1),
        case("1,000 instructions, 300 of them 91, 30 entries", Call::Diagnosis, program(1_000, &[0x91, 0xFB]), 30),
        case("1,000 instructions, 300 of them 91, 900 entries", Call::Diagnosis, program(1_000, &[0x91, 0xFB]), 900),
        case("1,000 instructions, no 91", Call::Stores, program(1_000, &[0x8D, 0x00, 0xC1]), 1),
        case("1,000 instructions, 300 of them 91", Call::Stores, program(1_000, &[0x91, 0xFB]), 1),
        case("48 KB", Call::Tracker, tracked(49_152), 1),
    ]
}

/// A case with so many entries, spread over the first bytes of the routines that `program` makes.
fn case(name: &'static str, call: Call, image: Vec<u8>, entries: usize) -> Case {
    let starts = starts(&image);
    let entries = (0..entries).map(|i| LOAD + starts[i * starts.len() / entries] as u16).collect();
    Case { name, call, image, load: LOAD, entries }
}

/// The offsets of the instructions of a program, which stand one after the other.
fn starts(image: &[u8]) -> Vec<usize> {
    let mut list = Vec::new();
    let mut at = 0;
    while at < image.len() {
        list.push(at);
        at += match image[at] {
            0xEA | 0x60 | 0x18 => 1,
            0xA9 | 0x85 | 0xD0 | 0x91 | 0xE6 | 0xC9 | 0xA5 => 2,
            _ => 3,
        };
    }
    list
}

/// So many instructions: a pointer is set, then loads, stores, branches and calls go on, three in ten of them `special` where there is one.
fn program(count: usize, special: &[u8]) -> Vec<u8> {
    let mut image = vec![0xA9, 0x00, 0x85, 0xFB, 0xA9, 0xC1, 0x85, 0xFC];
    for i in 4..count - 1 {
        match i % 10 {
            0 | 3 | 6 if !special.is_empty() => image.extend(special),
            1 => image.extend([0xD0, 0x00]),
            2 => image.extend([0xAD, 0x00, 0x10]),
            4 => image.extend([0x20, 0x00, 0x10]),
            5 => image.extend([0xA9, 0x01]),
            7 => image.extend([0x85, 0x10]),
            8 => image.push(0x18),
            _ => image.push(0xEA),
        }
    }
    image.push(0x60);
    image
}

/// Loads and stores of immediates, other opcodes between them, to so many bytes.
fn tracked(size: usize) -> Vec<u8> {
    let mut image = Vec::new();
    let mut i = 0usize;
    while image.len() < size {
        image.extend([0xA9, (i * 7 % 256) as u8, 0x85, (i % 200) as u8, 0xBD, 0x00, 0xC0, 0xA2, 0x05, 0x86, 0x20, 0xEA]);
        i += 1;
    }
    image.truncate(size);
    image
}
