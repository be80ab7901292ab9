//! What the definition of each shift uses of the text, and texts that show how long a shift may be.

use std::collections::BTreeSet;

use ruffarmoire_model::gen::{Random, SHAPES};
use ruffarmoire_model::tables::Tables;

use super::repeats;
use super::words::{broken_runs, structured_words};

/// What a shift's definition uses of the text at an alignment at 0.
#[derive(Debug)]
pub struct Facts {
    /// Positions that agree.
    agreeing: Vec<usize>,
    /// A position, and what is seen there.
    seen: Option<(usize, Seen)>,
}

#[derive(Clone, Copy, Debug)]
enum Seen {
    /// This byte.
    Byte(u8),
    /// A byte other than the pattern's.
    Another,
}

impl Facts {
    /// Of Δ1(c, s): position m - s - 1 agrees, where s is below m, and position m - 1 has c.
    pub fn of_delta1(m: usize, c: u8, s: usize) -> Facts {
        Facts {
            agreeing: m.checked_sub(s + 1).into_iter().collect(),
            seen: Some((m - 1, Seen::Byte(c))),
        }
    }

    /// Of Δ2(i): h(1) to h(i - 1) agree and, for i up to m, h(i) differs.
    pub fn of_delta2(tables: &Tables, i: usize) -> Facts {
        Facts {
            agreeing: (1..i).map(|j| tables.h(j)).collect(),
            seen: (i <= tables.m).then(|| (tables.h(i), Seen::Another)),
        }
    }

    /// Of Δ3(i): the positions above i agree, those below m - p too, and i differs.
    pub fn of_delta3(tables: &Tables, i: usize) -> Facts {
        let (m, p) = (tables.m, tables.period);
        Facts {
            agreeing: (i + 1..m).chain(0..m - p).collect(),
            seen: Some((i, Seen::Another)),
        }
    }

    /// Whether they hold of a text, which is no shorter than the pattern.
    pub fn hold(&self, pattern: &[u8], text: &[u8]) -> bool {
        let is_as_seen = match self.seen {
            None => true,
            Some((position, Seen::Byte(c))) => text[position] == c,
            Some((position, Seen::Another)) => text[position] != pattern[position],
        };
        is_as_seen && self.agreeing.iter().all(|&j| text[j] == pattern[j])
    }

    /// The pattern laid at k over the pattern laid at 0. Where k is beyond the position that is seen,
    /// the text has there the byte seen, or any other than the pattern's.
    pub fn laid_at(&self, pattern: &[u8], k: usize) -> Vec<u8> {
        let mut text = pattern.to_vec();
        match self.seen {
            None => {}
            Some((position, Seen::Byte(c))) => text[position] = c,
            Some((position, Seen::Another)) => text[position] = !pattern[position],
        }
        text.truncate(k);
        text.extend(pattern);
        text
    }
}

/// The positions that Δ3 is defined for.
fn positions_of_delta3(tables: &Tables) -> impl Iterator<Item = usize> {
    let (m, p) = (tables.m, tables.period);
    if tables.is_long_repeat() {
        m - p..m - 1
    } else {
        0..0
    }
}

/// Every Δ2 and Δ3 of a pattern, and its Δ1 for each of these bytes, with the facts of each.
pub fn shifts(tables: &Tables, bytes: &[u8]) -> Vec<(Facts, usize)> {
    let m = tables.m;
    let mut shifts = Vec::new();
    for &c in bytes {
        for s in 1..=m {
            shifts.push((Facts::of_delta1(m, c, s), tables.delta1(c, s)));
        }
    }
    for i in 2..=m + 1 {
        shifts.push((Facts::of_delta2(tables, i), tables.delta2(i)));
    }
    for i in positions_of_delta3(tables) {
        shifts.push((Facts::of_delta3(tables, i), tables.delta3(i)));
    }
    shifts
}

/// Each byte of a pattern once, and one that it does not have.
pub fn bytes_and_another(pattern: &[u8]) -> Vec<u8> {
    let mut bytes: BTreeSet<u8> = pattern.iter().copied().collect();
    bytes.extend((0..=255).find(|byte| !pattern.contains(byte)));
    bytes.into_iter().collect()
}

/// For each shift a text in which the steps come to it and an occurrence is just that far on: Δ1, with
/// m for the last shift, and Δ2 at an alignment at 0; Δ3 at the one after an occurrence at 0.
pub fn texts_of_shifts(tables: &Tables, pattern: &[u8]) -> Vec<Vec<u8>> {
    let (m, p) = (tables.m, tables.period);
    let mut texts = Vec::new();
    let bytes = bytes_and_another(pattern);
    for c in bytes.into_iter().filter(|&c| c != pattern[m - 1]) {
        let facts = Facts::of_delta1(m, c, m);
        texts.push(facts.laid_at(pattern, tables.delta1(c, m)));
    }
    for i in 2..=m + 1 {
        let facts = Facts::of_delta2(tables, i);
        texts.push(facts.laid_at(pattern, tables.delta2(i)));
    }
    for i in positions_of_delta3(tables) {
        let facts = Facts::of_delta3(tables, i);
        let after = facts.laid_at(pattern, tables.delta3(i));
        texts.push([&pattern[..p], &after].concat());
    }
    texts
}

/// Patterns for all of this: of every shape, out of words that repeat themselves on many scales, runs
/// with a break, and of every period that has room for three.
pub fn patterns() -> impl Iterator<Item = Vec<u8>> {
    let mut random = Random::seeded(59);
    let mut patterns = Vec::new();
    for round in 0..240 {
        let m = random.between(1, if round % 4 == 0 { 128 } else { 40 });
        let (pattern, _) = SHAPES[round % SHAPES.len()].pattern_and_text(&mut random, m, 0);
        patterns.push(pattern);
    }
    for word in structured_words(300) {
        for _ in 0..12 {
            let m = random.between(1, 64);
            let from = random.below(word.len() - m);
            patterns.push(word[from..from + m].to_vec());
        }
    }
    for m in [16, 31, 128] {
        patterns.extend(broken_runs(&mut random, m));
    }
    patterns.into_iter().chain(repeats::patterns())
}
