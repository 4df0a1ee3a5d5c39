//! The ready nodes.

use crate::network::Place;

/// A set of places, and in each of its words how many there are.
pub struct ReadySet {
    pub words: Vec<u64>,
    pub counts: Vec<u32>,
    pub count: u32,
}

impl ReadySet {
    pub fn new(nodes: usize) -> Self {
        let words = nodes.div_ceil(64);
        ReadySet { words: vec![0; words], counts: vec![0; words], count: 0 }
    }

    pub fn put(&mut self, at: Place, ready: bool) {
        let (word, bit) = (at as usize / 64, at % 64);
        if self.words[word] >> bit & 1 != u64::from(ready) {
            self.words[word] ^= 1 << bit;
            let change = if ready { 1 } else { u32::MAX };
            self.counts[word] = self.counts[word].wrapping_add(change);
            self.count = self.count.wrapping_add(change);
        }
    }

    /// The place that so many others of the set are below.
    pub fn nth(&self, mut below: u32) -> Place {
        let mut word = 0;
        while below >= self.counts[word] {
            below -= self.counts[word];
            word += 1;
        }
        let mut rest = self.words[word];
        for _ in 0..below {
            rest &= rest - 1;
        }
        word as Place * 64 + rest.trailing_zeros()
    }
}
