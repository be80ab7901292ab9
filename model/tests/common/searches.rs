//! Patterns and texts for searching and converting.

use ruffarmoire_model::gen::{Random, Shape, SHAPES};
use ruffarmoire_model::job::Job;

use super::words::{structured_words, words};
use super::{repeats, rings};

/// A pattern and a text.
pub type Pair = (Vec<u8>, Vec<u8>);

/// Every pattern of 1 to 4 bytes with every text of up to 9, over two bytes.
pub fn all_short() -> impl Iterator<Item = Pair> {
    const TWO: [u8; 2] = [0x06, 0x18];
    words(&TWO, 1..5)
        .flat_map(|pattern| words(&TWO, 0..10).map(move |text| (pattern.clone(), text)))
}

/// Short ones of every shape.
pub fn short() -> impl Iterator<Item = Pair> {
    let mut random = Random::seeded(51);
    (0..2_400).map(move |round| {
        let (m, n) = (random.between(1, 12), random.between(0, 60));
        SHAPES[round % SHAPES.len()].pattern_and_text(&mut random, m, n)
    })
}

/// Longer ones of every shape.
pub fn longer() -> impl Iterator<Item = Pair> {
    let mut random = Random::seeded(52);
    (0..80).map(move |round| {
        let (m, n) = (random.between(1, 128), random.between(0, 2_000));
        SHAPES[round % SHAPES.len()].pattern_and_text(&mut random, m, n)
    })
}

/// The largest of every shape.
pub fn largest() -> impl Iterator<Item = Pair> {
    let mut random = Random::seeded(53);
    let mut pairs = Vec::new();
    for shape in SHAPES {
        for (m, n) in [(1, 16_384), (3, 16_383), (32, 16_384), (128, 16_384)] {
            pairs.push(shape.pattern_and_text(&mut random, m, n));
        }
    }
    pairs.into_iter()
}

/// Patterns out of texts that repeat themselves on many scales, whole or with one byte changed.
pub fn structured() -> impl Iterator<Item = Pair> {
    let mut random = Random::seeded(54);
    let mut pairs = Vec::new();
    for word in structured_words(500) {
        for round in 0..20 {
            let m = random.between(1, 40);
            let from = random.below(word.len() - m);
            let mut pattern = word[from..from + m].to_vec();
            if round % 4 == 0 {
                pattern[random.below(m)] ^= 1;
            }
            pairs.push((pattern, word.clone()));
        }
    }
    pairs.into_iter()
}

/// Texts about as long as their pattern, of which they begin and end with a part.
pub fn about_as_long() -> impl Iterator<Item = Pair> {
    let mut random = Random::seeded(55);
    let mut pairs = Vec::new();
    for m in [1, 2, 3, 7, 16, 127, 128] {
        for n in [m - 1, m, m + 1, 2 * m - 1, 2 * m, 2 * m + 1] {
            let shape = [Shape::FewBytes, Shape::Overlapping][(m + n) % 2];
            let (pattern, _) = shape.pattern_and_text(&mut random, m, 0);
            for turned in [0, random.below(m)].into_iter().take(128 / m) {
                let text = pattern.iter().copied().cycle().skip(turned).take(n);
                pairs.push((pattern.clone(), text.collect()));
            }
        }
    }
    pairs.into_iter()
}

/// Jobs of every shape and size, and rings with something over their seam, with the first hold offset,
/// the last, and any, in turn.
pub fn jobs() -> impl Iterator<Item = Job> {
    let pairs = short()
        .chain(longer())
        .chain(structured())
        .chain(about_as_long())
        .chain(repeats::mixed())
        .chain(rings::short().step_by(3))
        .chain(rings::longer())
        .chain(largest());
    pairs.enumerate().map(|(round, (pattern, text))| {
        let m = pattern.len();
        Job {
            hold: [0, m - 1, round / 3 % m][round % 3],
            pattern,
            text,
        }
    })
}
