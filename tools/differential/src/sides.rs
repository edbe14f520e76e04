//! The two sides: each is a command that reads a stream and writes answers.

use crate::input::Input;
use std::io::{Read, Write};
use std::process::{Command, Stdio};
use std::thread;

pub struct Sides {
    pub rust: Vec<String>,
    pub rattle: Vec<String>,
}

impl Sides {
    /// The original's side is this program itself; the port's is the command in RATTLE_SIDE, which the script `run` sets.
    pub fn from_environment() -> Result<Sides, String> {
        let own = std::env::current_exe().map_err(|why| format!("this program cannot find itself: {why}"))?;
        let rattle = std::env::var("RATTLE_SIDE").map_err(|_| "RATTLE_SIDE is not set: the command that answers for the port".to_string())?;
        Ok(Sides { rust: vec![own.display().to_string(), "answer".to_string()], rattle: vec!["bash".to_string(), "-c".to_string(), rattle] })
    }

    /// What both say to each input, at the same time.
    pub fn answers(&self, inputs: &[Input]) -> Result<Vec<(String, String)>, String> {
        let (rust, rattle) = thread::scope(|scope| {
            let rust = scope.spawn(|| ask_all(&self.rust, inputs));
            let rattle = ask_all(&self.rattle, inputs);
            (rust.join().expect("the asking thread does not panic"), rattle)
        });
        Ok(rust?.into_iter().zip(rattle?).collect())
    }

    /// Neither side may be missing: else each input would be told as a difference.
    pub fn try_out(&self) -> Result<(), String> {
        let trial = [Input::new(0xC000, &[0xC000], &[0x60])];
        for (name, command) in [("Rust", &self.rust), ("Rattle", &self.rattle)] {
            let answer = &ask_all(command, &trial)?[0];
            if !answer.ends_with(".\n") {
                return Err(format!("the {name} side does not answer: {}\n{answer}", command.join(" ")));
            }
        }
        Ok(())
    }
}

/// One answer for each input. A side that ends early is told in the answer where it ended, and started anew for the rest.
fn ask_all(command: &[String], inputs: &[Input]) -> Result<Vec<String>, String> {
    let mut answers = Vec::new();
    while answers.len() < inputs.len() {
        let (text, status) = ask(command, &inputs[answers.len()..])?;
        let missing = inputs.len() - answers.len();
        let mut parts = split(&text);
        let rest = parts.pop().unwrap_or_default();
        if parts.len() > missing {
            return Err(format!("{}: more answers than inputs", command.join(" ")));
        }
        let complete = parts.len() == missing;
        answers.extend(parts);
        if !complete {
            answers.push(format!("{rest}(this side ended here: {status})\n"));
        } else if !rest.is_empty() {
            return Err(format!("{}: after the last answer it wrote {rest}", command.join(" ")));
        }
    }
    Ok(answers)
}

/// Feeds the whole stream from a thread of its own: a side that writes while it reads would block a single one.
fn ask(command: &[String], inputs: &[Input]) -> Result<(String, String), String> {
    let mut stream = Vec::new();
    for input in inputs {
        input.put(&mut stream);
    }
    let started = Command::new(&command[0]).args(&command[1..]).stdin(Stdio::piped()).stdout(Stdio::piped()).spawn();
    let mut child = started.map_err(|why| format!("{}: {why}", command.join(" ")))?;
    let mut to = child.stdin.take().expect("it was asked for");
    // A side that ends early closes the pipe; that is seen in the answers, so the error here is dropped.
    let feeder = thread::spawn(move || drop(to.write_all(&stream)));
    let mut text = Vec::new();
    let read = child.stdout.take().expect("it was asked for").read_to_end(&mut text);
    feeder.join().expect("the feeding thread does not panic");
    let status = child.wait().map_err(|why| why.to_string())?;
    read.map_err(|why| why.to_string())?;
    Ok((String::from_utf8_lossy(&text).into_owned(), status.to_string()))
}

/// The answers, each up to its line with a dot alone; the last part is what follows the last dot.
fn split(text: &str) -> Vec<String> {
    let mut parts = vec![String::new()];
    for line in text.split_inclusive('\n') {
        parts.last_mut().expect("there is always one").push_str(line);
        if line == ".\n" {
            parts.push(String::new());
        }
    }
    parts
}
