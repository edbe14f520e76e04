//! Feeds the same inputs to both sides and compares what they say.

use crate::input::Input;
use crate::kinds::Made;
use crate::shrink;
use crate::sides::Sides;
use std::collections::BTreeSet;
use std::time::{Duration, Instant};

const BATCH_INPUTS: usize = 4_000;
const BATCH_BYTES: usize = 4_000_000;
const KINDS_SHOWN: usize = 10;

struct Tally<'a> {
    sides: &'a Sides,
    compared: usize,
    differ: usize,
    /// Kinds of difference met: the input's kind and the first word of the first line that differs.
    kinds: BTreeSet<(String, String)>,
}

/// Whether all agree. The last line printed says how many were compared and how many differ.
pub fn compare(sides: &Sides, mut inputs: impl Iterator<Item = Made>) -> Result<bool, String> {
    sides.try_out()?;
    let mut tally = Tally { sides, compared: 0, differ: 0, kinds: BTreeSet::new() };
    let begun = Instant::now();
    let mut told = begun;
    loop {
        let batch = batch(&mut inputs);
        if batch.is_empty() {
            break;
        }
        tally.take(batch)?;
        if told.elapsed() > Duration::from_secs(5) {
            told = Instant::now();
            eprintln!("{} inputs, {} differ, {} s", tally.compared, tally.differ, begun.elapsed().as_secs());
        }
    }
    println!("{} inputs, {} differ", tally.compared, tally.differ);
    Ok(tally.differ == 0)
}

fn batch(inputs: &mut impl Iterator<Item = Made>) -> Vec<Made> {
    let mut list = Vec::new();
    let mut bytes = 0;
    while list.len() < BATCH_INPUTS && bytes < BATCH_BYTES {
        let Some(made) = inputs.next() else { break };
        bytes += made.input.size();
        list.push(made);
    }
    list
}

impl Tally<'_> {
    fn take(&mut self, batch: Vec<Made>) -> Result<(), String> {
        let inputs: Vec<Input> = batch.iter().map(|made| made.input.clone()).collect();
        let answers = self.sides.answers(&inputs)?;
        self.compared += batch.len();
        for (made, (rust, rattle)) in batch.iter().zip(&answers) {
            if rust != rattle {
                self.differ += 1;
                self.tell(made, rust, rattle)?;
            }
        }
        Ok(())
    }

    /// The first difference is told at length, then one line for each further kind.
    fn tell(&mut self, made: &Made, rust: &str, rattle: &str) -> Result<(), String> {
        let (ours, theirs) = first_difference(rust, rattle);
        let word = ours.split(' ').next().unwrap_or_default().to_string();
        if self.kinds.insert((made.kind.to_string(), word)) && self.kinds.len() <= KINDS_SHOWN {
            println!("differs: {} input {}: Rust `{ours}`, Rattle `{theirs}`", made.kind, made.index);
        }
        if self.differ == 1 {
            self.tell_at_length(&made.input)?;
        }
        Ok(())
    }

    fn tell_at_length(&self, input: &Input) -> Result<(), String> {
        eprintln!("making the first one smaller");
        let small = shrink::shrunk(self.sides, input)?;
        let answers = self.sides.answers(std::slice::from_ref(&small))?;
        println!("as small as it gets: {}", small.shown());
        println!("{}", beside(&answers[0].0, &answers[0].1));
        Ok(())
    }
}

fn first_difference<'a>(rust: &'a str, rattle: &'a str) -> (&'a str, &'a str) {
    let (mut ours, mut theirs) = (rust.lines(), rattle.lines());
    loop {
        match (ours.next(), theirs.next()) {
            (Some(a), Some(b)) if a == b => {}
            (a, b) => return (a.unwrap_or("(nothing)"), b.unwrap_or("(nothing)")),
        }
    }
}

/// Both answers in two columns; a bar marks the lines that differ.
fn beside(rust: &str, rattle: &str) -> String {
    let (ours, theirs): (Vec<&str>, Vec<&str>) = (rust.lines().collect(), rattle.lines().collect());
    let width = ours.iter().map(|line| line.len()).max().unwrap_or(0).max(4);
    let mut text = format!("{:width$}   Rattle", "Rust");
    for row in 0..ours.len().max(theirs.len()) {
        let (a, b) = (ours.get(row).unwrap_or(&""), theirs.get(row).unwrap_or(&""));
        let mark = if a == b { ' ' } else { '|' };
        text.push_str(format!("\n{a:width$} {mark} {b}").trim_end());
    }
    text
}
