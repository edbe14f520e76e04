//! What every public call answers to an input, in the lines of STREAM.md: the original's side.

use crate::guarded::guarded_span;
use crate::input::{Input, Next};
use crate::original::{self, ReachDiag, ReachRefusal};
use std::io::{self, BufReader, Write};
use std::panic::{catch_unwind, AssertUnwindSafe};

/// Reads inputs from standard input until it ends, and answers each.
pub fn answer_stream() -> io::Result<()> {
    // A panic of the original is told in its answer's line; the default message would only clutter standard error.
    std::panic::set_hook(Box::new(|_| {}));
    let mut from = BufReader::with_capacity(1 << 16, io::stdin().lock());
    let mut to = io::BufWriter::with_capacity(1 << 16, io::stdout().lock());
    loop {
        match Input::next(&mut from)? {
            Next::End => return to.flush(),
            Next::Input(input) => to.write_all(answer(&input).as_bytes())?,
            Next::Cut => {
                to.write_all(b"CUT\n")?;
                return to.flush();
            }
        }
    }
}

pub fn answer(input: &Input) -> String {
    let mut out = String::new();
    let diagnosis = attempt(|| original::diagnose(&input.image, input.load, &input.entries));
    put_span(&mut out, input, diagnosis.as_ref().ok().and_then(Option::as_ref));
    put_end(&mut out, input);
    put_guarded(&mut out, input);
    put_diagnosis(&mut out, input, diagnosis);
    put_stores(&mut out, input);
    put_tracker(&mut out, input);
    out.push_str(".\n");
    out
}

struct Panicked;

fn attempt<T>(call: impl FnOnce() -> T) -> Result<T, Panicked> {
    catch_unwind(AssertUnwindSafe(call)).map_err(|_| Panicked)
}

macro_rules! line {
    ($out:expr, $($what:tt)*) => {{
        use std::fmt::Write;
        writeln!($out, $($what)*).expect("text can always grow");
    }};
}

/// The refusals before any walk; the lowest number wins.
fn opening(input: &Input) -> Option<u8> {
    if input.image.is_empty() {
        Some(1)
    } else if input.entries.is_empty() {
        Some(2)
    } else if input.last().is_none() {
        Some(3)
    } else {
        None
    }
}

/// 01's number where the original says only `None`, and no store of its own can be the reason.
fn walk_refusal(input: &Input) -> u8 {
    opening(input).unwrap_or(4)
}

fn put_span(out: &mut String, input: &Input, diagnosis: Option<&ReachDiag>) {
    match attempt(|| original::reachable_span(&input.image, input.load, &input.entries)) {
        Ok(Some((low, high))) => {
            line!(out, "SPAN {low:04X} {high:04X}");
            // The original's span has no count; where it is given, the diagnosis has met the same instructions.
            match diagnosis {
                Some(diagnosis) => line!(out, "COUNT {}", diagnosis.instructions),
                None => line!(out, "COUNT NONE"),
            }
        }
        Ok(None) => line!(out, "SPAN NONE {}", walk_refusal(input)),
        Err(Panicked) => line!(out, "SPAN PANIC"),
    }
}

fn put_end(out: &mut String, input: &Input) {
    match attempt(|| original::reachable_end(&input.image, input.load, &input.entries)) {
        Ok(Some(high)) => line!(out, "END {high:04X}"),
        Ok(None) => line!(out, "END NONE {}", walk_refusal(input)),
        Err(Panicked) => line!(out, "END PANIC"),
    }
}

fn put_guarded(out: &mut String, input: &Input) {
    match attempt(|| guarded_span(&input.image, input.load, &input.entries)) {
        Ok(Some((low, high))) => line!(out, "GUARDED {low:04X} {high:04X}"),
        Ok(None) => line!(out, "GUARDED NONE {}", walk_refusal(input)),
        Err(Panicked) => line!(out, "GUARDED PANIC"),
    }
}

fn put_diagnosis(out: &mut String, input: &Input, diagnosis: Result<Option<ReachDiag>, Panicked>) {
    match diagnosis {
        Ok(Some(found)) => {
            line!(out, "DIAG {:04X} {:04X} {} {}", found.low, found.high, found.instructions, found.refusals.len());
            for refusal in &found.refusals {
                put_refusal(out, refusal);
            }
            put_lists(out, found.refusals.len());
        }
        Ok(None) => line!(out, "DIAG NONE {}", walk_refusal(input)),
        Err(Panicked) => line!(out, "DIAG PANIC"),
    }
}

fn put_refusal(out: &mut String, refusal: &ReachRefusal) {
    let pointer = known(refusal.zp);
    let (linear, walk) = (refusal.zp_linear as u8, refusal.zp_from_walk as u8);
    line!(out, "R {:04X} {:02X} {} {pointer} {linear} {walk} {}", refusal.addr, refusal.opcode, refusal.cause.slug(), refusal.from_entries);
}

/// The original lends no lists: what 01 asks of them is that too few slots are answered with the number needed and none changed, and that spare ones stay.
fn put_lists(out: &mut String, records: usize) {
    if records > 0 {
        line!(out, "SHORT {records} 0");
    }
    line!(out, "SPARE {records} 0");
}

fn put_stores(out: &mut String, input: &Input) {
    match attempt(|| original::write_extent(&input.image, input.load, &input.entries)) {
        Ok(Some(spans)) => {
            line!(out, "STORES {}", spans.len());
            for (low, high) in &spans {
                line!(out, "W {low:04X} {high:04X}");
            }
            put_lists(out, spans.len());
        }
        Ok(None) => match attempt(|| store_refusal(input)) {
            Ok(number) => line!(out, "STORES NONE {number}"),
            Err(Panicked) => line!(out, "STORES PANIC"),
        },
        Err(Panicked) => line!(out, "STORES PANIC"),
    }
}

/// A walk that came through and yet gave no spans met a store without a bounded one.
fn store_refusal(input: &Input) -> u8 {
    match opening(input) {
        Some(number) => number,
        None if original::store_walk(&input.image, input.load, &input.entries).is_some() => 5,
        None => 4,
    }
}

fn put_tracker(out: &mut String, input: &Input) {
    let Ok(state) = attempt(|| original::track_immediates(&input.image)) else {
        line!(out, "TRACK PANIC");
        return;
    };
    line!(out, "TRACK {} {} {}", known(state.a), known(state.x), known(state.y));
    let mut bytes: Vec<(u8, u8)> = state.zp.into_iter().collect();
    bytes.sort();
    for (address, value) in bytes {
        line!(out, "Z {address:02X} {value:02X}");
    }
}

fn known(byte: Option<u8>) -> String {
    byte.map_or("--".to_string(), |value| format!("{value:02X}"))
}
