//! Makes an input on which the sides differ as small as it goes.

use crate::input::Input;
use crate::sides::Sides;
use std::time::{Duration, Instant};

/// The simplest bytes to meet in a report: NOP, RTS, BRK.
const SIMPLE: [u8; 3] = [0xEA, 0x60, 0x00];
const LOADS: [u16; 3] = [0xC000, 0, 1];
/// Candidates for one call of both sides.
const TOGETHER: usize = 64;
/// An input at the limits stays long whatever is tried: no more time than this is spent on it.
const PATIENCE: Duration = Duration::from_secs(60);

type Candidates<'a> = Box<dyn Iterator<Item = Input> + 'a>;

/// Takes the first simpler input on which the sides still differ, again and again, until there is none.
pub fn shrunk(sides: &Sides, input: &Input) -> Result<Input, String> {
    let mut best = input.clone();
    let until = Instant::now() + PATIENCE;
    while let Some(simpler) = next(sides, &best, until)? {
        assert!(weight(&simpler) < weight(&best), "each step lowers the weight, so that shrinking ends");
        best = simpler;
    }
    Ok(best)
}

fn next(sides: &Sides, input: &Input, until: Instant) -> Result<Option<Input>, String> {
    // The coarsest stage first: a large input is soon a small one. Candidates are made as they are needed, since each is a copy of the input.
    let stages: [fn(&Input) -> Candidates<'_>; 4] = [fewer_entries, shorter_image, simpler_bytes, simpler_load];
    for stage in stages {
        let mut candidates = stage(input);
        loop {
            let part: Vec<Input> = candidates.by_ref().take(TOGETHER).collect();
            if part.is_empty() || Instant::now() > until {
                break;
            }
            let answers = sides.answers(&part)?;
            if let Some(found) = answers.iter().position(|(rust, rattle)| rust != rattle) {
                return Ok(Some(part[found].clone()));
            }
        }
    }
    Ok(None)
}

fn weight(input: &Input) -> (usize, usize, usize, usize) {
    let bytes = input.image.iter().map(|byte| rank(*byte)).sum();
    (input.entries.len(), input.image.len(), bytes, load_rank(input.load))
}

fn rank(byte: u8) -> usize {
    SIMPLE.iter().position(|simple| *simple == byte).unwrap_or(SIMPLE.len())
}

fn load_rank(load: u16) -> usize {
    LOADS.iter().position(|simple| *simple == load).unwrap_or(LOADS.len())
}

/// Runs of a list to try by themselves: the whole, its halves, its quarters, down to single elements.
fn runs(length: usize) -> impl Iterator<Item = (usize, usize)> {
    let sizes = std::iter::successors(Some(length), |size| Some(size / 2)).take_while(|size| *size > 0);
    // Of the smallest runs of a long list only so many, else thousands of copies of it would be tried in vain.
    let most = if length > 1_000 { 48 } else { 512 };
    sizes.flat_map(move |size| (0..length).step_by(size).take(most).map(move |from| (from, (from + size).min(length))))
}

fn fewer_entries(input: &Input) -> Candidates<'_> {
    Box::new(runs(input.entries.len()).map(|(from, to)| {
        let mut smaller = input.clone();
        smaller.entries.drain(from..to);
        smaller
    }))
}

/// Without a run of bytes: what follows moves down, or, where the first bytes go, stays at its addresses.
fn shorter_image(input: &Input) -> Candidates<'_> {
    Box::new(runs(input.image.len()).flat_map(|(from, to)| {
        let mut moved_down = input.clone();
        moved_down.image.drain(from..to);
        let mut stays = moved_down.clone();
        stays.load = stays.load.wrapping_add(to as u16);
        if from == 0 {
            vec![stays, moved_down]
        } else {
            vec![moved_down]
        }
    }))
}

fn simpler_bytes(input: &Input) -> Candidates<'_> {
    let runs_and_bytes = runs(input.image.len()).flat_map(|run| SIMPLE.into_iter().map(move |simple| (run, simple)));
    Box::new(runs_and_bytes.filter_map(|((from, to), simple)| {
        let is_worse = |byte: &u8| rank(*byte) > rank(simple);
        if !input.image[from..to].iter().any(is_worse) {
            return None;
        }
        let mut simpler = input.clone();
        simpler.image[from..to].iter_mut().filter(|byte| is_worse(byte)).for_each(|byte| *byte = simple);
        Some(simpler)
    }))
}

/// At a usual load address, the entries moved along or not.
fn simpler_load(input: &Input) -> Candidates<'_> {
    Box::new(LOADS[..load_rank(input.load)].iter().flat_map(|load| {
        let by = load.wrapping_sub(input.load);
        let alone = Input { load: *load, ..input.clone() };
        let mut along = alone.clone();
        along.entries.iter_mut().for_each(|entry| *entry = entry.wrapping_add(by));
        [along, alone]
    }))
}
