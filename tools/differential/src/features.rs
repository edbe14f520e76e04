//! What an input tries: the features by which `pick` chooses and `cover` counts. A feature is a group and an item of it.

use crate::input::Input;
use crate::original::{self, class, length, Class};
use std::collections::BTreeSet;

pub type Feature = (&'static str, String);

struct Found {
    set: BTreeSet<Feature>,
}

impl Found {
    fn add(&mut self, group: &'static str, item: impl Into<String>) {
        self.set.insert((group, item.into()));
    }
}

/// The features of an input whose answer is known.
pub fn features(input: &Input, answer: &str) -> BTreeSet<Feature> {
    let mut found = Found { set: BTreeSet::new() };
    of_answer(&mut found, answer);
    if input.entries.len() > 65_535 && answer.lines().any(|line| line.starts_with("R ") && line.ends_with(" 65535")) {
        found.add("weight", "stopped at 65535");
    }
    of_tracker(&mut found, &input.image);
    of_place(&mut found, input);
    if let (Some(last), false) = (input.last(), input.entries.is_empty()) {
        of_walk(&mut found, input, last, answer);
        of_store_sites(&mut found, input);
    }
    found.set
}

fn of_answer(found: &mut Found, answer: &str) {
    let mut call = "";
    let mut last_record = "";
    for line in answer.lines() {
        let words: Vec<&str> = line.split(' ').collect();
        match words[0] {
            "SPAN" | "END" | "GUARDED" | "DIAG" | "STORES" => {
                call = words[0];
                let number = if words.get(1) == Some(&"NONE") { words[2] } else { "0" };
                found.add("refusal number", format!("{call} {number}"));
                if call == "DIAG" && number == "0" {
                    found.add("addresses met", bucket(words[3], &["0", "1", "2", "4095", "4096", "4097"]));
                    found.add("records", bucket(words[4], &["0", "1", "2"]));
                }
                if call == "STORES" && number == "0" {
                    found.add("store records", bucket(words[1], &["0", "1", "2"]));
                }
            }
            "SHORT" => found.add("refusal number", format!("{call} 6")),
            "R" => {
                of_record(found, &words);
                if last_record == words[1] {
                    found.add("records", "two at one address");
                }
                last_record = words[1];
            }
            "W" => found.add("store span", width(words[1], words[2])),
            "TRACK" => {
                for (register, value) in ["A", "X", "Y"].iter().zip(&words[1..]) {
                    found.add("tracker", format!("{register} {}", if *value == "--" { "unknown" } else { "known" }));
                }
            }
            _ => {}
        }
    }
    found.add("guarded span", guarded_beside_plain(answer));
}

fn of_record(found: &mut Found, words: &[&str]) {
    let (slug, pointer, linear, walk, weight) = (words[3], words[4], words[5], words[6], words[7]);
    found.add("cause", slug);
    let pointer = if matches!(pointer, "--" | "FF" | "FE") { pointer } else { "other" };
    found.add("pointer, linear, walk", format!("{slug} {pointer} {linear} {walk}"));
    found.add("weight", format!("{slug} {}", bucket(weight, &["0", "1"])));
}

fn bucket(number: &str, named: &[&str]) -> String {
    if named.contains(&number) {
        number.to_string()
    } else {
        "other".to_string()
    }
}

fn width(low: &str, high: &str) -> &'static str {
    let value = |digits| u16::from_str_radix(digits, 16).unwrap_or(0);
    match value(high) - value(low) {
        0 => "one byte",
        0xFF if high == "FFFF" => "a page that ends at FFFF",
        0xFF => "a page",
        _ if high == "FFFF" => "ends at FFFF",
        _ => "several pages",
    }
}

fn guarded_beside_plain(answer: &str) -> &'static str {
    let range = |call: &str| answer.lines().find_map(|line| line.strip_prefix(call).map(|rest| rest.trim().to_string()));
    match (range("SPAN"), range("GUARDED")) {
        (Some(plain), Some(guarded)) if plain == guarded => "as the plain one",
        (Some(plain), Some(guarded)) => match (plain[..4] == guarded[..4], plain[5..] == guarded[5..]) {
            (false, true) => "lower",
            (true, false) => "higher",
            _ => "lower and higher",
        },
        _ => "none",
    }
}

/// Which register is stored, known or not, and whether a byte is stored a second time.
fn of_tracker(found: &mut Found, image: &[u8]) {
    let mut known = [false; 3];
    let mut stored = [false; 256];
    let mut place = 0;
    while place + 1 < image.len() {
        let (opcode, argument) = (image[place], image[place + 1] as usize);
        let register = match opcode {
            0xA9 | 0x85 => 0,
            0xA2 | 0x86 => 1,
            0xA0 | 0x84 => 2,
            _ => {
                place += 1;
                continue;
            }
        };
        if matches!(opcode, 0xA9 | 0xA2 | 0xA0) {
            known[register] = true;
        } else {
            found.add("tracker", format!("{opcode:02X} of {}", if known[register] { "a known register" } else { "an unknown register" }));
            if known[register] && std::mem::replace(&mut stored[argument], true) {
                found.add("tracker", "a byte set twice");
            }
        }
        place += 2;
    }
    if image.last().is_some_and(|byte| matches!(byte, 0xA9 | 0xA2 | 0xA0 | 0x85 | 0x86 | 0x84)) && place + 1 == image.len() {
        found.add("tracker", "ends with half a pair");
    }
}

fn of_place(found: &mut Found, input: &Input) {
    let entries = match input.entries.len() {
        0 => "none",
        1 => "one",
        2..=1_023 => "some",
        1_024..=65_535 => "1,024 or more",
        _ => "more than a weight can count",
    };
    found.add("entries", entries);
    let mut sorted = input.entries.clone();
    sorted.sort();
    sorted.dedup();
    if sorted.len() < input.entries.len() {
        found.add("entries", "repeated");
    }
    let Some(last) = input.last() else {
        found.add("place", if input.image.is_empty() { "no image" } else { "ends past FFFF" });
        return;
    };
    let at_bottom = input.load == 0;
    found.add("place", if at_bottom { "load 0" } else { "load above 0" });
    found.add("place", if last == 0xFFFF { "last FFFF" } else { "last below FFFF" });
    if at_bottom && last == 0xFFFF {
        found.add("place", "all of memory");
    }
}

fn of_walk(found: &mut Found, input: &Input, last: u16, answer: &str) {
    let span_given = !answer.starts_with("SPAN NONE");
    let stores_given = !answer.contains("STORES NONE");
    let met = original::met(&input.image, input.load, &input.entries);
    for start in &met {
        let opcode = input.image[(start - input.load) as usize];
        found.add("opcode met", format!("{opcode:02X}"));
        found.add("opcode with 1, 2, 3 or more bytes left", format!("{opcode:02X} {}", (last - start).min(3) + 1));
        if span_given {
            found.add("opcode in a given span", format!("{opcode:02X}"));
        }
        if stores_given {
            found.add("opcode in given stores", format!("{opcode:02X}"));
        }
        if last - start >= length(opcode).saturating_sub(1) {
            of_operand(found, input, last, *start, opcode);
        }
    }
    if input.load == 0 && met.contains(&0xFFFF) {
        of_deciding(found, input, &met, 0xFFFF, "the byte after FFFF");
    }
    if let Some(record) = answer.lines().find(|line| line.contains(" budget ")) {
        let address = u16::from_str_radix(&record[2..6], 16).unwrap_or(0);
        of_deciding(found, input, &met, address, "the 4,097th address");
    }
}

/// Whether a store at that address, which no walk decodes, changes what the walk knows of a zero-page byte.
fn of_deciding(found: &mut Found, input: &Input, met: &BTreeSet<u16>, address: u16, what: &str) {
    let operand = address.wrapping_add(1).wrapping_sub(input.load);
    let Some(byte) = input.image.get(operand as usize) else { return };
    let mut others = met.clone();
    others.remove(&address);
    let known = |met: &BTreeSet<u16>| original::resolved(&input.image, input.load, met, *byte);
    match (known(&others), known(met)) {
        (false, true) => found.add("place", format!("{what} makes a byte known")),
        (true, false) => found.add("place", format!("{what} spoils a byte")),
        _ => {}
    }
}

/// Where the operand points, seen from the image.
fn of_operand(found: &mut Found, input: &Input, last: u16, start: u16, opcode: u8) {
    let at = |address: u16| input.image[(address - input.load) as usize];
    let word = || u16::from_le_bytes([at(start + 1), at(start + 2)]);
    match class(opcode) {
        Class::Absolute => found.add("absolute operand", position(input.load, last, word())),
        Class::Indexed => {
            let base = word();
            let end = base.saturating_add(255);
            let stop = if end == 0xFFFF { ", stopped at FFFF" } else { "" };
            let clipped = if end > last { ", past last" } else { "" };
            let reaches = if base < input.load && end >= input.load { ", runs in from below" } else { "" };
            found.add("indexed operand", format!("{}{stop}{clipped}{reaches}", position(input.load, last, base)));
        }
        Class::Call => found.add("call", aim(input.load, last, word())),
        Class::Jump => {
            found.add("jump", aim(input.load, last, word()));
            if start + 2 == last {
                found.add("jump", "ends on last");
            }
        }
        Class::Stop if start == last => found.add("stop", format!("{opcode:02X} on last")),
        Class::Branch if start + 1 < last => {
            let target = i32::from(start) + 2 + i32::from(at(start + 1) as i8);
            let wrapped = if target < 0 {
                ", wrapped below 0"
            } else if target > 0xFFFF {
                ", wrapped past FFFF"
            } else {
                ""
            };
            found.add("branch", format!("{}{wrapped}", position(input.load, last, target as u16)));
        }
        _ => {}
    }
}

fn position(load: u16, last: u16, address: u16) -> &'static str {
    match address {
        a if a == load => "at load",
        a if a == last => "at last",
        a if a.wrapping_add(1) == load => "just below load",
        a if a == last.wrapping_add(1) => "just past last",
        a if a < load => "below load",
        a if a > last => "past last",
        _ => "inside",
    }
}

fn aim(load: u16, last: u16, target: u16) -> &'static str {
    match target {
        t if t >= load && t <= last => "inside",
        0xFFE1 => "FFE1",
        0xFFE4 => "FFE4",
        0xFFE0 | 0xFFE2 | 0xFFE3 | 0xFFE5 => "beside FFE1 or FFE4",
        _ => "outside",
    }
}

/// The way that `indy_store_span` and `page_limit` take for each reachable 91, worked out again from what they look at.
fn of_store_sites(found: &mut Found, input: &Input) {
    let Some(walk) = original::store_walk(&input.image, input.load, &input.entries) else { return };
    let at = |address: u16| input.image[(address - input.load) as usize];
    for site in &walk {
        match at(*site) {
            0x81 => found.add("store through a pointer", "81"),
            0x91 => {
                let sight = Sight { input, walk: &walk, site: *site, high: at(site + 1).wrapping_add(1) };
                found.add("store through a pointer", sight.way(at(site + 1)));
                sight.pairs(found);
            }
            opcode if class(opcode) == Class::Absolute || class(opcode) == Class::Indexed => found.add("opcode in a store walk", format!("{opcode:02X}")),
            _ => {}
        }
    }
}

/// What is looked at for one store through a pointer.
struct Sight<'a> {
    input: &'a Input,
    walk: &'a BTreeSet<u16>,
    site: u16,
    high: u8,
}

impl Sight<'_> {
    fn at(&self, address: u16) -> Option<u8> {
        self.input.image.get(address.wrapping_sub(self.input.load) as usize).copied()
    }

    fn reaches(&self, opcode: u8, operand: Option<u8>) -> bool {
        let fits = |start: &u16| self.at(*start) == Some(opcode) && operand.is_none_or(|byte| self.at(start.wrapping_add(1)) == Some(byte));
        self.walk.iter().any(fits)
    }

    fn way(&self, pointer: u8) -> String {
        if pointer == 0xFF {
            return "pointer FF".to_string();
        }
        let before = (self.site - self.input.load) as usize;
        let state = original::track_immediates(&self.input.image[..before]);
        let (low, page) = match (state.zp.get(&pointer), state.zp.get(&self.high)) {
            (Some(low), Some(page)) => (*low, *page),
            (Some(_), None) => return "high byte unknown".to_string(),
            (None, Some(_)) => return "low byte unknown".to_string(),
            (None, None) => return "both bytes unknown".to_string(),
        };
        let (up, down) = (self.reaches(0xE6, Some(self.high)), self.reaches(0xC6, Some(self.high)));
        match (up, down) {
            (false, false) => format!("stays, {}", self.ending(low, page, page)),
            (true, true) => "both ways".to_string(),
            _ => {
                let (how, limit) = self.limit(state.x, page, up);
                let direction = if up { "up" } else { "down" };
                let end = match limit {
                    None => "none".to_string(),
                    Some(limit) if up => self.ending(low, page, limit),
                    Some(limit) => self.ending(low, limit, page),
                };
                format!("{direction}, {how}, {end}")
            }
        }
    }

    fn ending(&self, low: u8, lowest: u8, highest: u8) -> String {
        let pages = match highest.cmp(&lowest) {
            std::cmp::Ordering::Less => return "limit on the wrong side".to_string(),
            std::cmp::Ordering::Equal => "one page",
            std::cmp::Ordering::Greater => "pages",
        };
        match (highest, low) {
            (0xFF, 0) => format!("{pages} up to FFFF"),
            (0xFF, _) => "past FFFF".to_string(),
            _ => pages.to_string(),
        }
    }

    fn limits(&self) -> Vec<u8> {
        let is_load = |start: &&u16| self.at(**start) == Some(0xA5) && self.at(start.wrapping_add(1)) == Some(self.high);
        let compares = self.walk.iter().filter(is_load).map(|start| start.wrapping_add(2));
        compares.filter(|start| self.walk.contains(start) && self.at(*start) == Some(0xC9)).filter_map(|start| self.at(start.wrapping_add(1))).collect()
    }

    fn limit(&self, count: Option<u8>, page: u8, up: bool) -> (String, Option<u8>) {
        let limits = self.limits();
        let mut distinct = limits.clone();
        distinct.dedup();
        match (distinct.as_slice(), limits.len()) {
            ([], _) => self.counted(count, page, up),
            ([limit], pairs) => {
                let how = if pairs == 1 { "one pair" } else { "pairs agree" };
                (how.to_string(), if up { limit.checked_sub(1) } else { limit.checked_add(1) })
            }
            _ => ("pairs disagree".to_string(), None),
        }
    }

    fn counted(&self, count: Option<u8>, page: u8, up: bool) -> (String, Option<u8>) {
        let dex = if self.reaches(0xCA, None) { "DEX" } else { "no DEX" };
        match count {
            None => (format!("X unknown, {dex}"), None),
            Some(0) => (format!("X is 0, {dex}"), None),
            Some(_) if dex == "no DEX" => ("X known, no DEX".to_string(), None),
            Some(count) => ("X counts".to_string(), if up { page.checked_add(count - 1) } else { page.checked_sub(count - 1) }),
        }
    }

    /// What follows an LDA of the high byte.
    fn pairs(&self, found: &mut Found) {
        for start in self.walk {
            if self.at(*start) != Some(0xA5) {
                continue;
            }
            let of_high = self.at(start.wrapping_add(1)) == Some(self.high);
            let compared = self.at(start.wrapping_add(2)) == Some(0xC9);
            let item = match (of_high, compared) {
                (true, true) => "of the high byte, CMP follows",
                (true, false) => "of the high byte, no CMP follows",
                (false, true) => "of another byte, CMP follows",
                (false, false) => "of another byte, no CMP follows",
            };
            found.add("LDA", item);
        }
    }
}
