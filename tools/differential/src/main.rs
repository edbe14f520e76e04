//! Compares the original and the port, call by call, on inputs that it makes; see README.md.

mod answer;
mod compare;
mod features;
mod guarded;
mod input;
mod kinds;
mod pick;
mod rng;
mod shrink;
mod sides;
include!(concat!(env!("OUT_DIR"), "/original_module.rs"));

use std::io::Write;
use std::process::ExitCode;

const USAGE: &str = "\
usage: run [SEED] [COUNT]                 compare both sides on COUNT inputs of the mix (1 and 100000 where not said)
       run compare SEED COUNT [KIND]      the same, of one kind alone
       run exhaustive                     compare both sides on all images of one byte and of two
       run make SEED COUNT [KIND]         write the stream of inputs to standard output
       run show SEED INDEX [KIND]         print one input as a job in hex, and the original's answer
       run answer                         answer the stream on standard input, as the original does
       run cover SEED COUNT [KIND]        print what so many inputs try, and how many of them try it
       run pick STREAM ANSWERS            choose a short list that tries as much as possible; write it to the two files
kinds: ";

fn main() -> ExitCode {
    let words: Vec<String> = std::env::args().skip(1).collect();
    let words: Vec<&str> = words.iter().map(String::as_str).collect();
    match command(&words) {
        Ok(true) => ExitCode::SUCCESS,
        Ok(false) => ExitCode::FAILURE,
        Err(why) => {
            eprintln!("{why}");
            ExitCode::from(2)
        }
    }
}

/// Whether both sides agree, where they are compared; an error is a message.
fn command(words: &[&str]) -> Result<bool, String> {
    match words {
        ["--help" | "-h"] => {
            println!("{}", usage());
            Ok(true)
        }
        ["answer"] => answer::answer_stream().map_err(|why| why.to_string()).map(|()| true),
        ["exhaustive"] => compare::compare(&sides::Sides::from_environment()?, kinds::exhaustive::exhaustive()),
        ["pick", stream, answers] => pick::pick(stream, answers).map(|()| true),
        ["make", rest @ ..] => make(Range::of(rest)?),
        ["show", rest @ ..] => show(Range::of(rest)?),
        ["cover", rest @ ..] => cover(Range::of(rest)?),
        ["compare", rest @ ..] => compare_range(Range::of(rest)?),
        [] => compare_range(Range { seed: 1, count: 100_000, kind: None }),
        [seed] => compare_range(Range::of(&[seed, "100000"])?),
        _ => compare_range(Range::of(words)?),
    }
}

fn usage() -> String {
    format!("{USAGE}{}", kinds::names().join(", "))
}

/// Which inputs are meant.
struct Range<'a> {
    seed: u64,
    count: u64,
    kind: Option<&'a str>,
}

impl<'a> Range<'a> {
    fn of(words: &[&'a str]) -> Result<Range<'a>, String> {
        let (seed, count, kind) = match words {
            [seed, count] => (seed, count, None),
            [seed, count, kind] if kinds::names().contains(kind) => (seed, count, Some(*kind)),
            _ => return Err(usage()),
        };
        match (seed.parse(), count.parse()) {
            (Ok(seed), Ok(count)) => Ok(Range { seed, count, kind }),
            _ => Err(usage()),
        }
    }

    fn inputs(&self) -> impl Iterator<Item = kinds::Made> + '_ {
        kinds::inputs(self.seed, self.count, self.kind)
    }
}

fn compare_range(range: Range) -> Result<bool, String> {
    compare::compare(&sides::Sides::from_environment()?, range.inputs())
}

fn make(range: Range) -> Result<bool, String> {
    let mut out = std::io::BufWriter::new(std::io::stdout().lock());
    let mut bytes = Vec::new();
    for made in range.inputs() {
        bytes.clear();
        made.input.put(&mut bytes);
        out.write_all(&bytes).map_err(|why| why.to_string())?;
    }
    out.flush().map_err(|why| why.to_string())?;
    Ok(true)
}

fn show(range: Range) -> Result<bool, String> {
    let made = kinds::made(range.seed, range.count, range.kind);
    println!("{} {}", made.kind, made.input.shown());
    print!("{}", answer::answer(&made.input));
    Ok(true)
}

fn cover(range: Range) -> Result<bool, String> {
    let lists: Vec<_> = range.inputs().map(|made| features::features(&made.input, &answer::answer(&made.input))).collect();
    pick::print_table(lists.iter());
    Ok(true)
}
