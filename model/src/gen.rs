//! A small seeded generator of bytes, patterns, texts and jobs, for tests and benchmarks.

use crate::job::Job;

/// The splitmix64 generator: the same seed gives the same numbers on every run.
#[derive(Clone, Debug)]
pub struct Random {
    state: u64,
}

impl Random {
    pub fn seeded(seed: u64) -> Random {
        Random { state: seed }
    }

    pub fn number(&mut self) -> u64 {
        self.state = self.state.wrapping_add(0x9E37_79B9_7F4A_7C15);
        let mut mixed = self.state;
        mixed = (mixed ^ (mixed >> 30)).wrapping_mul(0xBF58_476D_1CE4_E5B9);
        mixed = (mixed ^ (mixed >> 27)).wrapping_mul(0x94D0_49BB_1331_11EB);
        mixed ^ (mixed >> 31)
    }

    /// A number below `end`, which is not 0.
    pub fn below(&mut self, end: usize) -> usize {
        (self.number() % end as u64) as usize
    }

    /// A number from `first` to `last`.
    pub fn between(&mut self, first: usize, last: usize) -> usize {
        first + self.below(last - first + 1)
    }

    pub fn byte(&mut self) -> u8 {
        self.number() as u8
    }

    pub fn bytes(&mut self, length: usize) -> Vec<u8> {
        (0..length).map(|_| self.byte()).collect()
    }

    /// One of the items.
    pub fn pick<T: Copy>(&mut self, items: &[T]) -> T {
        items[self.below(items.len())]
    }

    /// Bytes that are all picked from the given ones.
    pub fn picked(&mut self, from: &[u8], length: usize) -> Vec<u8> {
        (0..length).map(|_| self.pick(from)).collect()
    }
}

/// How the bytes of a pattern and a text are chosen.
#[derive(Clone, Copy, Debug, PartialEq, Eq)]
pub enum Shape {
    /// Any bytes.
    AnyBytes,
    /// Two or three different bytes.
    FewBytes,
    /// One byte throughout, in the text with another one here and there.
    OneByte,
    /// A short root again and again, with a changed byte here and there.
    Periodic,
    /// Few bytes, and the text made mostly of whole and cut copies of the pattern.
    Planted,
    /// A pattern that begins as it ends, and the text made of copies of it that share those ends.
    Overlapping,
}

pub const SHAPES: [Shape; 6] = [
    Shape::AnyBytes,
    Shape::FewBytes,
    Shape::OneByte,
    Shape::Periodic,
    Shape::Planted,
    Shape::Overlapping,
];

impl Shape {
    /// A pattern of m bytes and a text of n.
    pub fn pattern_and_text(self, random: &mut Random, m: usize, n: usize) -> (Vec<u8>, Vec<u8>) {
        let few_count = random.between(2, 3);
        let few = random.bytes(few_count);
        match self {
            Shape::AnyBytes => (random.bytes(m), random.bytes(n)),
            Shape::FewBytes => (random.picked(&few, m), random.picked(&few, n)),
            Shape::OneByte => {
                let mut text = vec![few[0]; n];
                spoil(random, &mut text, &few);
                (vec![few[0]; m], text)
            }
            Shape::Periodic => {
                let root_length = random.between(1, 6);
                let root = random.picked(&few, root_length);
                let mut pattern: Vec<u8> = root.iter().copied().cycle().take(m).collect();
                let mut text: Vec<u8> = root.iter().copied().cycle().take(n).collect();
                if random.below(2) == 0 {
                    spoil(random, &mut pattern, &few);
                }
                spoil(random, &mut text, &few);
                (pattern, text)
            }
            Shape::Planted => {
                let pattern = random.picked(&few, m);
                let mut text = Vec::new();
                while text.len() < n {
                    match random.below(4) {
                        0 => text.push(random.pick(&few)),
                        1 if m > 0 => text.extend(&pattern[..random.below(m)]),
                        2 if m > 0 => text.extend(&pattern[random.below(m)..]),
                        _ => text.extend(&pattern),
                    }
                    if m == 0 {
                        text.push(random.pick(&few));
                    }
                }
                text.truncate(n);
                (pattern, text)
            }
            Shape::Overlapping => {
                let half = random.between(m.div_ceil(2), m);
                let half = random.picked(&few, half);
                let pattern: Vec<u8> = half.iter().copied().cycle().take(m).collect();
                let borders: Vec<usize> = (0..m)
                    .filter(|&border| pattern[..border] == pattern[m - border..])
                    .collect();
                let mut text = Vec::new();
                while text.len() < n {
                    if m == 0 || random.below(8) == 0 {
                        text.push(random.pick(&few));
                    }
                    if m > 0 {
                        let shared = random.pick(&borders);
                        text.extend(&pattern[if text.is_empty() { 0 } else { shared }..]);
                    }
                }
                text.truncate(n);
                (pattern, text)
            }
        }
    }

    /// A job with a pattern of m bytes, which is not 0, and a text of n.
    pub fn job(self, random: &mut Random, m: usize, n: usize) -> Job {
        let (pattern, text) = self.pattern_and_text(random, m, n);
        let hold = random.below(m);
        Job {
            pattern,
            hold,
            text,
        }
    }
}

/// Changes up to one byte in sixteen.
fn spoil(random: &mut Random, bytes: &mut [u8], few: &[u8]) {
    if bytes.is_empty() {
        return;
    }
    for _ in 0..random.below(bytes.len() / 16 + 2) {
        let position = random.below(bytes.len());
        bytes[position] = random.pick(few);
    }
}
