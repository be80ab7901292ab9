//! The steps of a search, with every alignment and every comparison.

use crate::ring::{byte_at, span};
use crate::tables::Tables;

/// A comparison of the pattern's byte at one position with the text's byte at another.
#[derive(Clone, Copy, Debug, PartialEq, Eq)]
pub struct Comparison {
    /// i
    pub pattern_position: usize,
    /// b + i, which may be n or more: the text is a ring.
    pub text_position: usize,
}

/// The pattern laid at one position of the text.
#[derive(Clone, Copy, Debug, PartialEq, Eq)]
pub struct Alignment {
    /// b
    pub position: usize,
    /// Whether it is a repeat: the one after an occurrence, where m is at least 3 p.
    pub is_repeat: bool,
    /// The pattern's position whose comparison differed, or none where all agreed.
    pub differing: Option<usize>,
    /// How far the next alignment is.
    pub shift: usize,
}

/// What a search does and finds.
#[derive(Clone, Debug, Default, PartialEq, Eq)]
pub struct Search {
    /// The positions b where all comparisons agreed, in the order of the steps.
    pub occurrences: Vec<usize>,
    /// All alignments, in the order of the steps.
    pub alignments: Vec<Alignment>,
    /// All comparisons, in the order of the steps. C is their number.
    pub comparisons: Vec<Comparison>,
}

/// Runs the steps for a pattern of 1 to 128 bytes.
pub fn search(pattern: &[u8], text: &[u8]) -> Search {
    search_with(&Tables::of(pattern), pattern, text)
}

/// Runs the steps with the tables of the pattern, for one who has them at hand.
pub fn search_with(tables: &Tables, pattern: &[u8], text: &[u8]) -> Search {
    let m = pattern.len();
    let end = span(m, text.len());
    let mut run = Run {
        tables,
        pattern,
        text,
        done: Search::default(),
    };
    let (mut b, mut s) = (0, m);
    let mut is_repeat = false;
    while b + m <= end {
        let outcome = if is_repeat {
            run.repeat_alignment(b)
        } else {
            run.ordinary_alignment(b, s)
        };
        run.done.alignments.push(Alignment {
            position: b,
            is_repeat,
            differing: outcome.differing,
            shift: outcome.shift,
        });
        let occurs = outcome.differing.is_none();
        if occurs {
            run.done.occurrences.push(b);
        }
        is_repeat = occurs && tables.is_long_repeat();
        s = outcome.shift;
        b += s;
    }
    run.done
}

/// What comes of an alignment.
struct Outcome {
    /// The position whose comparison differed, or none where all agreed.
    differing: Option<usize>,
    /// How far the next alignment is.
    shift: usize,
}

/// A search under way.
struct Run<'a> {
    tables: &'a Tables,
    pattern: &'a [u8],
    text: &'a [u8],
    done: Search,
}

impl Run<'_> {
    /// The steps of document 01 at b, with the last shift s: m - 1 is compared, then h(2), h(3) and
    /// on, until one differs or all agree.
    fn ordinary_alignment(&mut self, b: usize, s: usize) -> Outcome {
        let m = self.pattern.len();
        if !self.compare(b, m - 1) {
            return Outcome {
                differing: Some(m - 1),
                shift: self.tables.delta1(byte_at(self.text, b + m - 1), s),
            };
        }
        let mut i = 2;
        while i <= m && self.compare(b, self.tables.h(i)) {
            i += 1;
        }
        Outcome {
            differing: (i <= m).then(|| self.tables.h(i)),
            shift: self.tables.delta2(i),
        }
    }

    /// The steps of document 02, "Long repeats", at b, where b - p is an occurrence: m - 1 down to
    /// m - p are compared, until one differs or all agree.
    fn repeat_alignment(&mut self, b: usize) -> Outcome {
        let (m, p) = (self.pattern.len(), self.tables.period);
        let differing = (m - p..m).rev().find(|&i| !self.compare(b, i));
        Outcome {
            differing,
            shift: match differing {
                None => p,
                Some(i) if i == m - 1 => self.tables.delta1(byte_at(self.text, b + m - 1), p),
                Some(i) => self.tables.delta3(i),
            },
        }
    }

    /// Compares w(i) with the text's byte at b + i, writes the comparison down, and tells whether they
    /// agree.
    fn compare(&mut self, b: usize, i: usize) -> bool {
        self.done.comparisons.push(Comparison {
            pattern_position: i,
            text_position: b + i,
        });
        self.pattern[i] == byte_at(self.text, b + i)
    }
}

/// The bound of demand 3 on the comparisons of a search with h occurrences: twice the span less m, and
/// where m is below 3 p, for each occurrence what the pattern has beyond twice its period. An empty
/// text has no comparisons, and the bound is 0.
pub fn bound(tables: &Tables, n: usize, h: usize) -> usize {
    let (m, span) = (tables.m, span(tables.m, n));
    if n == 0 {
        0
    } else if tables.is_long_repeat() {
        2 * span - m
    } else {
        2 * span - m + h * m.saturating_sub(2 * tables.period)
    }
}
