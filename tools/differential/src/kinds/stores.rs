//! Store loops: every shape that the original's `indy_store_span` and `page_limit` tell apart.

use super::place;
use crate::input::Input;
use crate::rng::Rng;

/// A loop that stores through a pointer, with pointer, stepping, limit and count chosen apart from each other.
pub fn stores(rng: &mut Rng) -> Input {
    // Laid out twice with the same choices: the first time only its length is wanted, to place it.
    let choices = rng.fork();
    let length = Loop::laid_out(choices.clone(), 0).image.len();
    let load = place::load_for(rng, length);
    let laid = Loop::laid_out(choices, load);
    let entries = match rng.below(20) {
        0 => place::entries(rng, load, length, &[load]),
        1 => vec![load, laid.after_end],
        _ => vec![load],
    };
    Input { load, entries, image: laid.image }
}

struct Loop {
    load: u16,
    image: Vec<u8>,
    /// The pointer's zero-page address; its high byte's is the next one.
    pointer: u8,
    /// The page that the pointer starts in.
    page: u8,
    /// What stands behind the routine's end, reached only where an entry is there.
    after_end: u16,
}

/// A register's load and store opcodes: A, X, Y.
const REGISTERS: [(u8, u8); 3] = [(0xA9, 0x85), (0xA2, 0x86), (0xA0, 0x84)];

impl Loop {
    fn laid_out(mut choices: Rng, load: u16) -> Loop {
        let rng = &mut choices;
        let pointer = rng.one_of(&[0xFB, 0xFB, 0xFB, 0x10, 0xFE, 0x00, 0xFF]);
        let random = rng.byte();
        let page = rng.one_of(&[0xC1, 0xC1, 0x80, 0x00, 0x01, 0x04, 0xFE, 0xFF, random]);
        let mut made = Loop { load, image: Vec::new(), pointer, page, after_end: load };
        made.set_up(rng);
        let top = made.image.len();
        made.store(rng);
        made.step(rng);
        made.limit(rng);
        made.back(rng, top);
        made.extras(rng, top);
        made.end(rng);
        made.after_end = load.wrapping_add(made.image.len() as u16);
        made.tail(rng);
        made
    }

    fn put(&mut self, bytes: &[u8]) {
        self.image.extend(bytes);
    }

    fn high(&self) -> u8 {
        self.pointer.wrapping_add(1)
    }

    /// The pointer's two bytes and the count in X, in any order; each may be missing.
    fn set_up(&mut self, rng: &mut Rng) {
        // BIT swallows two bytes: the tracker, which knows no instructions, reads them.
        if rng.chance(5) {
            let decoy = rng.one_of(&[[0x2C, 0xA9, 0x85], [0x2C, 0xA2, 0x07], [0x2C, 0x85, 0xFC], [0x2C, 0x86, 0xFC]]);
            self.put(&decoy);
        }
        let random = rng.byte();
        let low = rng.one_of(&[0x00, 0x00, 0x00, 0x01, 0xFF, random]);
        let mut order = vec![0, 1, 2];
        if rng.chance(40) {
            order.rotate_left(rng.between(1, 2));
        }
        for part in order {
            match part {
                0 => self.set_byte(rng, self.pointer, low),
                1 => self.set_byte(rng, self.high(), self.page),
                _ => self.set_count(rng),
            }
        }
    }

    fn set_byte(&mut self, rng: &mut Rng, address: u8, value: u8) {
        let (load_it, store_it) = rng.one_of(&REGISTERS);
        match rng.below(24) {
            // Unknown: never stored, or stored from a register that may not have been loaded.
            0 => {}
            1 => self.put(&[store_it, address]),
            // Stored twice: the later value counts.
            2 => self.put(&[load_it, value ^ 1, store_it, address, load_it, value, store_it, address]),
            _ => self.put(&[load_it, value, store_it, address]),
        }
    }

    fn set_count(&mut self, rng: &mut Rng) {
        let up_to_top = (0u8).wrapping_sub(self.page);
        let down_to_bottom = self.page.wrapping_add(1);
        let random = rng.byte();
        let count = rng.one_of(&[0, 1, 2, 4, 4, 0xFF, up_to_top, up_to_top.wrapping_add(1), down_to_bottom, down_to_bottom.wrapping_add(1), random]);
        if rng.chance(60) {
            self.put(&[0xA2, count]);
        }
    }

    /// The store itself: mostly through the pointer.
    fn store(&mut self, rng: &mut Rng) {
        match rng.below(30) {
            0 => self.put(&[0x81, self.pointer]),
            1 => self.other_store(rng),
            2 => self.put(&[0x91, self.high()]),
            3 => self.put(&[0xB1, self.pointer, 0x91, self.pointer]),
            _ => self.put(&[0x91, self.pointer]),
        }
        if rng.chance(50) {
            let counts_y = rng.one_of(&[0xC8, 0x88]);
            self.put(&[counts_y, 0xD0, 0xFB]);
        }
    }

    /// A store or read-modify-write at an absolute or indexed operand, often near the end of memory.
    fn other_store(&mut self, rng: &mut Rng) {
        let opcode = rng.one_of(&[0x8D, 0x8E, 0x8C, 0x0E, 0x2E, 0x4E, 0x6E, 0xCE, 0xEE, 0x9D, 0x99, 0x1E, 0x3E, 0x5E, 0x7E, 0xDE, 0xFE]);
        let random = rng.word();
        let base = rng.one_of(&[0xFF00, 0xFF01, 0xFFF0, 0xFFFF, 0xFEFF, 0x0000, 0xD020, random]);
        let [low, high] = u16::to_le_bytes(base);
        self.put(&[opcode, low, high]);
    }

    /// The high byte goes up, down, both ways, not at all, or another byte does.
    fn step(&mut self, rng: &mut Rng) {
        let high = self.high();
        match rng.below(16) {
            0..=5 => self.put(&[0xE6, high]),
            6..=10 => self.put(&[0xC6, high]),
            11 => self.put(&[0xE6, high, 0xC6, high]),
            12 => self.put(&[0xE6, self.pointer]),
            13 => self.put(&[0xF6, high]),
            _ => {}
        }
    }

    /// LDA of the high byte, CMP: pairs that agree, disagree, or are none.
    fn limit(&mut self, rng: &mut Rng) {
        let value = self.limit_value(rng);
        match rng.below(16) {
            0..=4 => self.pair(value),
            5 => {
                self.pair(value);
                self.pair(value);
            }
            6 => {
                self.pair(value);
                self.pair(value.wrapping_add(1));
            }
            // The second pair's limit is in memory, so it does not count.
            7 => {
                self.pair(value);
                self.put(&[0xA5, self.high(), 0xC5, value]);
            }
            // LDA of the byte, but CMP does not follow at once.
            8 => self.put(&[0xA5, self.high(), 0xEA, 0xC9, value]),
            // A pair, but of another byte.
            9 => self.put(&[0xA5, self.pointer, 0xC9, value]),
            // CPX and CPY are no CMP.
            10 => self.put(&[0xA6, self.high(), 0xE0, value]),
            _ => {}
        }
    }

    fn pair(&mut self, value: u8) {
        self.put(&[0xA5, self.high(), 0xC9, value]);
    }

    /// A limit below, at and above the page that the pointer starts in, and both ends.
    fn limit_value(&self, rng: &mut Rng) -> u8 {
        let page = self.page;
        let random = rng.byte();
        rng.one_of(&[page, page.wrapping_add(1), page.wrapping_add(4), page.wrapping_add(4), page.wrapping_sub(1), page.wrapping_sub(4), 0, 0xFF, random])
    }

    /// Back to the loop's top, counting X down or not.
    fn back(&mut self, rng: &mut Rng, top: usize) {
        if rng.chance(40) {
            self.put(&[0xCA]);
        }
        if rng.chance(85) {
            let next = self.image.len() + 2;
            self.put(&[0xD0, (top as i64 - next as i64) as i8 as u8]);
        }
    }

    /// Other stores, calls and branches, each of them rare.
    fn extras(&mut self, rng: &mut Rng, top: usize) {
        if rng.chance(8) {
            self.other_store(rng);
        }
        if rng.chance(12) {
            let target = rng.one_of(&[0xFFE1, 0xFFE4, 0xFFE1, 0xFFE4, 0xFFD2, 0xFFE2, 0xFFE5, self.load.wrapping_add(top as u16)]);
            let [low, high] = u16::to_le_bytes(target);
            self.put(&[0x20, low, high]);
        }
        if rng.chance(3) {
            self.put(&[0x91, self.pointer]);
        }
        if rng.chance(3) {
            let far = rng.byte();
            self.put(&[0xF0, far]);
        }
    }

    fn end(&mut self, rng: &mut Rng) {
        let target = rng.one_of(&[0xFFE1, 0xFFE4, 0xFFD2, self.load]);
        let [low, high] = u16::to_le_bytes(target);
        match rng.below(12) {
            0 => self.put(&[0x4C, low, high]),
            1 => self.put(&[0x40]),
            2 if rng.chance(30) => {}
            _ => self.put(&[0x60]),
        }
    }

    /// Behind the end: instructions that would matter if they were reachable.
    fn tail(&mut self, rng: &mut Rng) {
        let high = self.high();
        match rng.below(8) {
            0 => self.put(&[0xCA, 0x60]),
            1 => self.put(&[0xE6, high, 0x60]),
            2 => self.put(&[0xC6, high, 0x60]),
            3 => self.put(&[0xA5, high, 0xC9, self.page, 0x60]),
            4 => self.put(&[0x91, self.pointer, 0x60]),
            _ => {}
        }
    }
}
