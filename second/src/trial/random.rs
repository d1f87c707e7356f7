//! Random numbers: the same from the same seed everywhere.

use std::ops::Range;

/// Words that tempt a program to overflow, or to stop one too early or too late.
const BAIT: [u32; 20] = [
    0,
    1,
    2,
    3,
    4,
    7,
    8,
    15,
    16,
    40,
    72,
    255,
    256,
    257,
    59_652_323,
    107_374_182,
    0x7fff_ffff,
    0x8000_0000,
    u32::MAX - 1,
    u32::MAX,
];

/// The generator splitmix64.
#[derive(Clone, Debug)]
pub struct Random(u64);

impl Random {
    /// The generator from this seed.
    pub fn new(seed: u64) -> Random {
        Random(seed)
    }

    /// The generator of a numbered thing among those of a seed.
    pub fn numbered(seed: u64, numbers: [u64; 2]) -> Random {
        numbers
            .into_iter()
            .fold(Random(seed), |mut random, number| {
                Random(random.number().wrapping_add(number))
            })
    }

    /// Any number.
    pub fn number(&mut self) -> u64 {
        self.0 = self.0.wrapping_add(0x9e37_79b9_7f4a_7c15);
        let mut mixed = self.0;
        mixed = (mixed ^ (mixed >> 30)).wrapping_mul(0xbf58_476d_1ce4_e5b9);
        mixed = (mixed ^ (mixed >> 27)).wrapping_mul(0x94d0_49bb_1331_11eb);
        mixed ^ (mixed >> 31)
    }

    /// A number in the range, which isn't empty.
    pub fn within(&mut self, range: Range<usize>) -> usize {
        range.start + (self.number() % range.len() as u64) as usize
    }

    /// A number of at most this, with a liking for both ends.
    pub fn up_to(&mut self, most: u32) -> u32 {
        match self.within(0..4) {
            0 => most,
            1 => most.min(1),
            _ => (self.number() % (u64::from(most) + 1)) as u32,
        }
    }

    /// True once in so many times.
    pub fn once_in(&mut self, times: usize) -> bool {
        self.within(0..times) == 0
    }

    /// One of several.
    pub fn one_of<T: Copy>(&mut self, several: &[T]) -> T {
        several[self.within(0..several.len())]
    }

    /// Puts several in another order.
    pub fn shuffle<T>(&mut self, several: &mut [T]) {
        for last in (1..several.len()).rev() {
            several.swap(last, self.within(0..last + 1));
        }
    }

    /// Any word.
    pub fn word(&mut self) -> u32 {
        self.number() as u32
    }

    /// Some word: bait, small, or any.
    pub fn odd_word(&mut self) -> u32 {
        match self.within(0..4) {
            0 => self.word(),
            1 => self.within(0..18) as u32,
            _ => self.one_of(&BAIT),
        }
    }

    /// A word that lies near this one, or is the same where a product with the words of a row or of a vector has lost
    /// its upper bits.
    pub fn near(&mut self, word: u32) -> u32 {
        match self.within(0..4) {
            0 => word.wrapping_add(1),
            1 => word.wrapping_sub(1),
            2 => word.wrapping_add(self.within(1..8) as u32 * 0x2000_0000),
            _ => word.wrapping_neg(),
        }
    }
}
