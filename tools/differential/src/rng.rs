//! A small generator of numbers (splitmix64): the same on every machine, and nothing to install.

#[derive(Clone)]
pub struct Rng(u64);

fn mixed(mut z: u64) -> u64 {
    z = (z ^ (z >> 30)).wrapping_mul(0xBF58_476D_1CE4_E5B9);
    z = (z ^ (z >> 27)).wrapping_mul(0x94D0_49BB_1331_11EB);
    z ^ (z >> 31)
}

impl Rng {
    /// The numbers of one input: they depend on seed and index alone, so that any input can be made again by itself.
    pub fn of(seed: u64, index: u64) -> Rng {
        Rng(mixed(mixed(seed ^ 0x9E37_79B9_7F4A_7C15) ^ mixed(index.wrapping_add(0xD1B5_4A32_D192_ED03))))
    }

    /// Numbers of their own for one part of an input, so that the part can be made twice alike.
    pub fn fork(&mut self) -> Rng {
        Rng(mixed(self.next()))
    }

    fn next(&mut self) -> u64 {
        self.0 = self.0.wrapping_add(0x9E37_79B9_7F4A_7C15);
        mixed(self.0)
    }

    /// Below `n`, which is not 0.
    pub fn below(&mut self, n: usize) -> usize {
        (self.next() % n as u64) as usize
    }

    /// From `low` to `high`, both included.
    pub fn between(&mut self, low: usize, high: usize) -> usize {
        low + self.below(high - low + 1)
    }

    pub fn chance(&mut self, percent: usize) -> bool {
        self.below(100) < percent
    }

    pub fn one_of<T: Copy>(&mut self, list: &[T]) -> T {
        list[self.below(list.len())]
    }

    pub fn byte(&mut self) -> u8 {
        self.next() as u8
    }

    pub fn word(&mut self) -> u16 {
        self.next() as u16
    }

    pub fn bytes(&mut self, count: usize) -> Vec<u8> {
        (0..count).map(|_| self.byte()).collect()
    }
}
