//! Rings: the text's last byte is followed by its first. Here are texts with the seam inside an
//! occurrence or inside a run, and texts that are shorter than their pattern, which goes round them
//! more than once.

use std::collections::BTreeSet;

use ruffarmoire_model::gen::{Random, Shape};
use ruffarmoire_model::ring::started_later;
use ruffarmoire_model::MAX_TEXT;

use super::repeats::{another_of, random_root, run, FOREIGN};
use super::searches::Pair;

/// A pattern, and texts to search for it.
pub type Family = (Vec<u8>, Vec<Vec<u8>>);

/// The bytes of a ring in a row: from its first byte to the end of a pattern of m bytes that is laid
/// at its last. That of an empty text is empty.
pub fn row(text: &[u8], m: usize) -> Vec<u8> {
    run(text, text.len() + m - 1)
}

/// The occurrences of a pattern in a ring, read off its row.
pub fn occurrences(pattern: &[u8], text: &[u8]) -> Vec<usize> {
    let row = row(text, pattern.len());
    let windows = row.windows(pattern.len()).enumerate();
    windows
        .filter(|(_, window)| *window == pattern)
        .map(|(b, _)| b)
        .collect()
}

/// A ring with the pattern laid over its seam, so many of the pattern's bytes before it. Where the
/// ring is shorter than the pattern, the pattern's last bytes cover the others.
fn laid_over_the_seam(text: &[u8], pattern: &[u8], before: usize) -> Vec<u8> {
    let n = text.len();
    let mut ring = text.to_vec();
    for (j, &byte) in pattern.iter().enumerate() {
        ring[j % n] = byte;
    }
    started_later(&ring, before % n)
}

/// Rings of n bytes for a pattern: its bytes at random; the same with the pattern laid over the seam
/// after one of its bytes, after half and before the last; and the pattern again and again, begun
/// with some of its bytes.
fn rings_of_length(random: &mut Random, pattern: &[u8], n: usize) -> Vec<Vec<u8>> {
    if n == 0 {
        return vec![Vec::new()];
    }
    let m = pattern.len();
    let any = random.picked(pattern, n);
    let mut rings = vec![any.clone()];
    for before in BTreeSet::from([1, m / 2, m - 1]) {
        rings.push(laid_over_the_seam(&any, pattern, before));
    }
    for skipped in BTreeSet::from([0, 1, random.below(m)]) {
        rings.push(run(pattern, skipped + n)[skipped..].to_vec());
    }
    rings
}

/// Patterns of m bytes: over two bytes, one that begins as it ends, and runs of short periods.
fn patterns(random: &mut Random, m: usize) -> Vec<Vec<u8>> {
    let mut patterns = vec![random.picked(&[0x06, 0x18], m)];
    patterns.push(Shape::Overlapping.pattern_and_text(random, m, 0).0);
    for p in (1..4).filter(|&p| p < m) {
        patterns.push(run(&random_root(random, p), m));
    }
    patterns
}

/// Rings of every length from 0 to three times that of the pattern, for patterns of these lengths.
fn of_every_length(lengths: impl Iterator<Item = usize>) -> impl Iterator<Item = Family> {
    let mut random = Random::seeded(66);
    lengths.flat_map(move |m| {
        let families = patterns(&mut random, m).into_iter().map(|pattern| {
            let rings = (0..=3 * m).flat_map(|n| rings_of_length(&mut random, &pattern, n));
            let rings = rings.collect();
            (pattern, rings)
        });
        families.collect::<Vec<_>>()
    })
}

/// Patterns of these lengths that go round a ring more than once: of every length below theirs, or of
/// some where there are many. Each begun anywhere, and with a byte changed at its seam.
fn shorter_than_the_pattern(lengths: impl Iterator<Item = usize>) -> impl Iterator<Item = Family> {
    let mut random = Random::seeded(67);
    lengths.flat_map(move |m| {
        let all = (1..m).filter(|n| m < 20 || [1, 2, 3, 42, 63, 64, 65].contains(n) || n + 2 >= m);
        let families = all.map(|n| {
            let root = match n {
                0..20 => random_root(&mut random, n),
                _ => random.picked(&[0x06, 0x18, 0x01], n),
            };
            let mut rings = Vec::new();
            for later in (0..n).step_by(n / 12 + 1) {
                let whole = started_later(&root, later);
                for position in [0, n - 1] {
                    let mut broken = whole.clone();
                    broken[position] = FOREIGN;
                    rings.push(broken);
                }
                rings.push(whole);
            }
            (run(&root, m), rings)
        });
        families.collect::<Vec<_>>()
    })
}

/// Runs of periods up to 6 laced into rings: whole where the period fits the length and else with a
/// break at the seam, begun anywhere in the period; and each broken once at the seam, near it and far
/// from it.
fn nets() -> impl Iterator<Item = Family> {
    let mut random = Random::seeded(68);
    (1..=6).flat_map(move |p| {
        let families = [2 * p + 1, 3 * p - 1, 3 * p, 3 * p + 1, 4 * p + 1].map(|m| {
            let root = random_root(&mut random, p);
            let pattern = run(&root, m);
            let by_period = [1, p, 2 * p, 6 * p, 9 * p, 9 * p + 1];
            let by_pattern = [m - 1, m, m + 1, m + p, 2 * m];
            let lengths: BTreeSet<usize> = by_period.into_iter().chain(by_pattern).collect();
            let mut rings = Vec::new();
            for n in lengths {
                for begun in BTreeSet::from([0, 1 % p, p / 2, p - 1]) {
                    let whole = run(&root, begun + n)[begun..].to_vec();
                    let around = [0, 1, m - 1, n / 2, n + n - m.min(n), n - 1, n + n - 2];
                    for position in around.map(|position| position % n) {
                        for byte in [another_of(&pattern, begun + position), FOREIGN] {
                            let mut broken = whole.clone();
                            broken[position] = byte;
                            rings.push(broken);
                        }
                    }
                    rings.push(whole);
                }
            }
            (pattern, rings)
        });
        families.into_iter()
    })
}

fn pairs(families: impl Iterator<Item = Family>) -> impl Iterator<Item = Pair> {
    families.flat_map(|(pattern, texts)| texts.into_iter().map(move |text| (pattern.clone(), text)))
}

/// Short ones of every kind.
pub fn short() -> impl Iterator<Item = Pair> {
    pairs(of_every_length(1..=6))
        .chain(pairs(shorter_than_the_pattern(2..=8)))
        .chain(pairs(nets()).step_by(7))
}

/// Longer ones of every kind, and all nets, by their patterns.
pub fn families() -> impl Iterator<Item = Family> {
    of_every_length([8, 21, 64, 128].into_iter())
        .chain(shorter_than_the_pattern([12, 31, 127, 128].into_iter()))
        .chain(nets())
}

/// Some of the longer ones.
pub fn longer() -> impl Iterator<Item = Pair> {
    pairs(families()).step_by(151)
}

/// The largest: a pattern laid over the seam after one of its bytes, after half and before the last;
/// and runs that go round, whole or with a break at the seam or near it.
pub fn largest() -> impl Iterator<Item = Pair> {
    let mut random = Random::seeded(69);
    let mut pairs = Vec::new();
    for n in [MAX_TEXT, MAX_TEXT - 1] {
        let pattern = random.picked(&[0x06, 0x18], 128);
        let text = random.picked(&[0x06, 0x18], n);
        for before in [1, 64, 127] {
            pairs.push((pattern.clone(), laid_over_the_seam(&text, &pattern, before)));
        }
    }
    for (p, m) in [(1, 128), (2, 128), (3, 127), (42, 126), (43, 128)] {
        let root = random_root(&mut random, p);
        let whole = run(&root, MAX_TEXT / p * p);
        for position in [0, 63, whole.len() - 1] {
            let mut broken = whole.clone();
            broken[position] = FOREIGN;
            pairs.push((run(&root, m), broken));
        }
        pairs.push((run(&root, m), started_later(&whole, p / 2)));
        // Where the period does not fit the length, the seam is a break.
        pairs.push((run(&root, m), run(&root, MAX_TEXT)));
    }
    pairs.into_iter()
}
