//! What holds of an explanation, by the comparisons of the search alone: not by the model's alignments
//! and not by the way in which it explains.

use std::collections::BTreeMap;

use ruffarmoire_model::explain::{Explanation, ShiftKind};
use ruffarmoire_model::steps::Comparison;
use ruffarmoire_model::tables::Tables;

use super::harness::shown;
use super::rings::row;
use super::words::period;

/// A search for a pattern in a text, read off its comparisons.
pub struct Compared<'a> {
    pattern: &'a [u8],
    text: &'a [u8],
    /// The ring in a row: what each position shows.
    row: Vec<u8>,
    /// The alignments, in their order.
    laid: Vec<Laid>,
    /// For each position the first comparison there, counted from 0.
    first: Vec<Option<usize>>,
}

/// The pattern laid at a position.
struct Laid {
    position: usize,
    /// The pattern's positions that were compared, in their order.
    row: Vec<usize>,
    /// How many comparisons of the search were made before.
    before: usize,
}

impl<'a> Compared<'a> {
    pub fn of(pattern: &'a [u8], text: &'a [u8], comparisons: &[Comparison]) -> Compared<'a> {
        let mut laid: Vec<Laid> = Vec::new();
        let row = row(text, pattern.len());
        let mut first = vec![None; row.len()];
        for (before, made) in comparisons.iter().enumerate() {
            let position = made.text_position - made.pattern_position;
            match laid.last_mut() {
                Some(last) if last.position == position => last.row.push(made.pattern_position),
                _ => laid.push(Laid {
                    position,
                    row: vec![made.pattern_position],
                    before,
                }),
            }
            first[made.text_position].get_or_insert(before);
        }
        Compared {
            pattern,
            text,
            row,
            laid,
            first,
        }
    }

    /// How many positions there are to explain.
    pub fn positions(&self) -> usize {
        self.text.len()
    }

    fn agrees(&self, b: usize, j: usize) -> bool {
        self.row[b + j] == self.pattern[j]
    }

    fn occurs(&self, b: usize) -> bool {
        self.row[b..].starts_with(self.pattern)
    }

    /// Where the alignment differed. Only its last comparison may.
    fn differing(&self, laid: &Laid) -> Option<usize> {
        let (&last, others) = laid.row.split_last().expect("an alignment is compared");
        assert!(others.iter().all(|&j| self.agrees(laid.position, j)));
        (!self.agrees(laid.position, last)).then_some(last)
    }

    /// Whether the alignment with this index is a repeat: the one after an occurrence, of a pattern of
    /// at least three periods.
    fn is_repeat(&self, index: usize) -> bool {
        let is_after_occurrence = index > 0 && self.occurs(self.laid[index - 1].position);
        is_after_occurrence && self.pattern.len() >= 3 * period(self.pattern) as usize
    }

    /// The kind of the shift after the alignment with this index.
    fn kind_after(&self, index: usize) -> ShiftKind {
        let laid = &self.laid[index];
        match (self.differing(laid), self.is_repeat(index)) {
            (None, _) => ShiftKind::AfterOccurrence,
            (Some(_), true) => ShiftKind::LongRepeat,
            (Some(_), false) if laid.row.len() == 1 => ShiftKind::LastByte,
            (Some(_), false) => ShiftKind::Order,
        }
    }

    /// The earliest comparison that spoils position b, counted from 0, and its j: text position
    /// b + j was compared and is not w(j), and no other such was compared before.
    fn earliest_spoiling(&self, b: usize) -> (usize, usize) {
        let spoilt = (0..self.pattern.len()).filter(|&j| !self.agrees(b, j));
        let compared = spoilt.filter_map(|j| Some((self.first[b + j]?, j)));
        compared.min().expect("a comparison spoils b")
    }

    /// Sees that an explanation of position b is right. Tells which case it is.
    pub fn check(&self, b: usize, told: Explanation) -> Case {
        let context = || {
            let (pattern, text) = (shown(self.pattern), shown(self.text));
            format!("b {b}, {told:?}, pattern {pattern}, text {text}")
        };
        // The last alignment that is not above b.
        let index = self.laid.partition_point(|laid| laid.position <= b) - 1;
        let last = &self.laid[index];
        let differing = self.differing(last);
        let is_listed = told == Explanation::Listed;
        assert_eq!(self.occurs(b), is_listed, "{}", context());
        let (outcome, is_earlier) = match told {
            Explanation::Listed => {
                assert_eq!((last.position, differing), (b, None), "{}", context());
                (Outcome::Listed, false)
            }
            Explanation::Tried { place } => {
                let tried = (b, Some(place));
                assert_eq!((last.position, differing), tried, "{}", context());
                (Outcome::Tried, false)
            }
            Explanation::PassedOver { from, place, kind } => {
                assert!(last.position < b, "{}", context());
                assert_eq!(from, last.position, "{}", context());
                assert_eq!(kind, self.kind_after(index), "{}", context());
                let (first, earliest) = self.earliest_spoiling(b);
                assert_eq!(place, earliest, "{}", context());
                (Outcome::PassedOver, first < last.before)
            }
        };
        Case {
            outcome,
            in_repeat: self.is_repeat(index),
            differing: Differing::of(differing, self.pattern.len()),
            is_earlier,
        }
    }
}

/// A case of explanations.
#[derive(Clone, Copy, Debug, PartialEq, Eq, PartialOrd, Ord)]
pub struct Case {
    outcome: Outcome,
    /// Whether the alignment at the position, or the one shifted from, is a repeat.
    in_repeat: bool,
    /// Where that alignment differed.
    differing: Differing,
    /// Whether the comparison that spoils the position was made before that alignment.
    is_earlier: bool,
}

#[derive(Clone, Copy, Debug, PartialEq, Eq, PartialOrd, Ord)]
enum Outcome {
    Listed,
    Tried,
    PassedOver,
}

#[derive(Clone, Copy, Debug, PartialEq, Eq, PartialOrd, Ord)]
enum Differing {
    Nowhere,
    LastByte,
    Another,
}

impl Differing {
    /// Where an alignment of a pattern of m bytes differed, by the pattern's position.
    fn of(differing: Option<usize>, m: usize) -> Differing {
        match differing {
            None => Differing::Nowhere,
            Some(place) if place == m - 1 => Differing::LastByte,
            Some(_) => Differing::Another,
        }
    }
}

/// How often each case was seen.
#[derive(Debug, Default)]
pub struct Seen(BTreeMap<Case, usize>);

/// The cases that there are. Listed has two and tried four: in a repeat or not, and where it differed.
/// Passed over has six, each spoilt by the alignment that was shifted from or before; but where all of a
/// repeat agreed it is before, since one of its first 2 p bytes spoils what is nearer than p.
const CASES: usize = 2 + 4 + 6 * 2 - 1;

impl Seen {
    pub fn add(&mut self, case: Case) {
        *self.0.entry(case).or_default() += 1;
    }

    /// How many explanations were seen.
    pub fn count(&self) -> usize {
        self.0.values().sum()
    }

    /// Sees that each case was seen so often at least.
    pub fn expect_every_case(&self, least: usize) {
        assert_eq!(self.0.len(), CASES, "{self:#?}");
        assert!(self.0.values().all(|&count| count >= least), "{self:#?}");
    }
}

/// The tables of the pattern that was asked for last, kept for further texts.
#[derive(Default)]
pub struct LastTables {
    last: Option<(Vec<u8>, Tables)>,
}

impl LastTables {
    pub fn of(&mut self, pattern: &[u8]) -> &Tables {
        let last = self.last.take().filter(|(last, _)| last == pattern);
        let (_, tables) = self
            .last
            .insert(last.unwrap_or_else(|| (pattern.to_vec(), Tables::of(pattern))));
        tables
    }
}
