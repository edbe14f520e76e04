//! Chooses a short list of inputs that together try as much as possible, for a program of the gate to run again.

use crate::answer::answer;
use crate::features::{features, Feature};
use crate::input::Input;
use crate::kinds::{by_hand, exhaustive, inputs, names};
use std::collections::{BTreeMap, BTreeSet, BinaryHeap};
use std::fs;

/// The fixed choices: the same list each time.
const SEED: u64 = 6502;
const OF_EACH_KIND: u64 = 12_000;
const OF_LIMITS: u64 = 400;
const WANTED: usize = 1_000;
const MOST_BYTES: usize = 700_000;
/// An input that only fills up the list is not to be longer than this, its answer included.
const FILLER_BYTES: usize = 400;

struct Candidate {
    input: Input,
    answer: String,
    features: BTreeSet<Feature>,
}

impl Candidate {
    fn of(input: Input) -> Candidate {
        let answer = answer(&input);
        let features = features(&input, &answer);
        Candidate { input, answer, features }
    }

    fn size(&self) -> usize {
        self.input.size() + self.answer.len()
    }
}

/// Writes the chosen inputs as a stream and their answers, and prints what they cover.
pub fn pick(stream_file: &str, answers_file: &str) -> Result<(), String> {
    let pool: Vec<Candidate> = pool().map(Candidate::of).collect();
    let mut chosen: Vec<usize> = (0..by_hand::by_hand().len()).collect();
    let covering = greedy(&pool, &mut chosen);
    fill(&pool, &mut chosen);

    let (mut stream, mut answers) = (Vec::new(), String::new());
    for index in &chosen {
        pool[*index].input.put(&mut stream);
        answers.push_str(&pool[*index].answer);
    }
    fs::write(stream_file, &stream).map_err(|why| format!("{stream_file}: {why}"))?;
    fs::write(answers_file, &answers).map_err(|why| format!("{answers_file}: {why}"))?;
    print_table(chosen.iter().map(|index| &pool[*index].features));
    println!(
        "{} inputs out of {}, {covering} of them chosen for what they cover; stream {} bytes, answers {} bytes",
        chosen.len(),
        pool.len(),
        stream.len(),
        answers.len()
    );
    Ok(())
}

/// Those made by hand first, then short images, then every kind.
fn pool() -> impl Iterator<Item = Input> {
    let kinds = names().into_iter().flat_map(|kind| {
        let count = if kind == "limits" { OF_LIMITS } else { OF_EACH_KIND };
        inputs(SEED, count, Some(kind)).map(|made| made.input)
    });
    by_hand::by_hand().into_iter().chain(exhaustive::one_byte()).chain(exhaustive::samples()).chain(kinds)
}

/// Takes, again and again, the candidate with the most new features for its bytes; how many in all.
fn greedy(pool: &[Candidate], chosen: &mut Vec<usize>) -> usize {
    let mut covered: BTreeSet<Feature> = BTreeSet::new();
    for index in chosen.iter() {
        covered.extend(pool[*index].features.iter().cloned());
    }
    let mut bytes: usize = chosen.iter().map(|index| pool[*index].size()).sum();
    // A candidate's worth only falls as others are taken: the heap's order is that of the last look, and the best is looked at again.
    let mut heap: BinaryHeap<(u64, std::cmp::Reverse<usize>)> =
        (0..pool.len()).map(|index| (worth(&pool[index], &covered), std::cmp::Reverse(index))).collect();
    while let Some((looked, std::cmp::Reverse(index))) = heap.pop() {
        let now = worth(&pool[index], &covered);
        if now == 0 {
            continue;
        }
        if now < looked {
            heap.push((now, std::cmp::Reverse(index)));
            continue;
        }
        if bytes + pool[index].size() > MOST_BYTES {
            continue;
        }
        bytes += pool[index].size();
        covered.extend(pool[index].features.iter().cloned());
        chosen.push(index);
    }
    chosen.len()
}

/// New features for each million bytes.
fn worth(candidate: &Candidate, covered: &BTreeSet<Feature>) -> u64 {
    let new = candidate.features.iter().filter(|feature| !covered.contains(feature)).count();
    new as u64 * 1_000_000 / candidate.size() as u64
}

/// Small ones up to the number wanted, by turns from each way in which the calls may answer: else most would be refusals.
fn fill(pool: &[Candidate], chosen: &mut Vec<usize>) {
    let taken: BTreeSet<usize> = chosen.iter().copied().collect();
    let mut ways: BTreeMap<Vec<&Feature>, Vec<usize>> = BTreeMap::new();
    for index in (0..pool.len()).filter(|index| !taken.contains(index) && pool[*index].size() <= FILLER_BYTES) {
        ways.entry(way(&pool[index])).or_default().push(index);
    }
    while chosen.len() < WANTED && !ways.is_empty() {
        for list in ways.values_mut() {
            // From the middle: a list begins with images of one byte, whatever its way is.
            let index = list.remove(list.len() / 2);
            if chosen.len() < WANTED {
                chosen.push(index);
            }
        }
        ways.retain(|_, list| !list.is_empty());
    }
}

/// Which calls answer, which refuse with which number, and what the guarded span adds.
fn way(candidate: &Candidate) -> Vec<&Feature> {
    candidate.features.iter().filter(|(group, _)| matches!(*group, "refusal number" | "guarded span")).collect()
}

/// Each group: its items and how many inputs have them; of a group of many items only how many there are.
pub fn print_table<'a>(lists: impl Iterator<Item = &'a BTreeSet<Feature>>) {
    let mut groups: BTreeMap<&str, BTreeMap<String, usize>> = BTreeMap::new();
    for list in lists {
        for (group, item) in list {
            *groups.entry(group).or_default().entry(item.clone()).or_default() += 1;
        }
    }
    for (group, items) in groups {
        if items.len() > 60 {
            println!("{group}: {} different", items.len());
            continue;
        }
        println!("{group}:");
        for (item, inputs) in items {
            println!("    {item}: {inputs}");
        }
    }
}
