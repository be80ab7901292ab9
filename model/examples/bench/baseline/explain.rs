//! Explaining a position: the steps of a search up to the alignment there, or to the one whose
//! shift goes past it.

use ruffarmoire_model::answers::{Answer, ExplainAnswer, Refusal};
use ruffarmoire_model::{MAX_PATTERN, MAX_TEXT};

use super::matcher::{agreed_from, Job, Next};
use super::tables::{are_too_short, period, write_tables};

/// The numbers of the outcomes.
const LISTED: u32 = 1;
const TRIED: u32 = 2;
const PASSED_OVER: u32 = 3;

/// The kinds of shift, with their numbers.
#[derive(Clone, Copy)]
enum Kind {
    LastByte = 1,
    Order = 2,
    AfterOccurrence = 3,
    LongRepeat = 4,
}

/// Explains a position of the text.
pub fn explain(
    position: u32,
    pattern: &[u8],
    text: &[u8],
    order: &mut [i16],
    delta2: &mut [u16],
    delta1: &mut [u16],
    delta3: &mut [u16],
) -> ExplainAnswer {
    let (m, n) = (pattern.len(), text.len());
    if m == 0 || m > MAX_PATTERN {
        return Refusal::PatternLength.into();
    }
    if n > MAX_TEXT {
        return Refusal::TextLength.into();
    }
    if are_too_short(m, order, delta2, delta1, delta3) {
        return Refusal::ShortBuffer.into();
    }
    let b = position as usize;
    if b >= n {
        return Refusal::Position.into();
    }
    // SAFETY: all lengths were just checked.
    unsafe { write_tables(pattern, order, delta2, delta1, delta3) };
    let job = Job {
        pattern,
        text,
        order,
        delta2,
        delta1,
        delta3,
        // SAFETY: the table is that of the pattern.
        period: unsafe { period(m, delta2) },
    };
    // SAFETY: the position is in the text, and the tables are the pattern's.
    let next = unsafe { job.first_near(b) };
    job.explained(b, next)
}

impl Job<'_> {
    /// The first alignment above b - m. Those before compare only what is below b.
    ///
    /// # Safety
    ///
    /// The pattern has 1 to 128 bytes, the tables are the pattern's, and b is below n.
    unsafe fn first_near(&self, b: usize) -> Next {
        match b.checked_sub(self.pattern.len()) {
            // Every alignment that `first_above` compares is at or below b - m, so it ends before
            // the seam.
            Some(end) => self.first_above(end),
            None => self.first(),
        }
    }

    /// Runs the steps up to the first alignment above `end`.
    ///
    /// # Safety
    ///
    /// The pattern has 1 to 128 bytes, the tables are the pattern's, and an alignment at `end` ends
    /// before the seam.
    unsafe fn first_above(&self, end: usize) -> Next {
        let m = self.pattern.len();
        let (mut a, mut s) = (0, m);
        let is_repeat = loop {
            (a, s) = self.after_ordinary(a, s, end);
            if a > end {
                break false;
            }
            let agreed;
            (a, agreed) = self.after_occurrences(a, end);
            if a > end {
                break true;
            }
            // Where the first comparison differs, it is that of an ordinary alignment, with the
            // same shift after it: the last shift is p.
            if agreed < m {
                s = usize::from(*self.delta3.get_unchecked(agreed - 1));
                a += s;
                if a > end {
                    break false;
                }
            }
        };
        Next {
            position: a,
            shift: s,
            is_repeat,
        }
    }

    /// Runs the ordinary alignments from a on, after a shift of s: up to the first above `end`, or
    /// to an occurrence that a repeat follows. Gives it, and the shift before the one or after the
    /// other.
    ///
    /// # Safety
    ///
    /// As for `first_above`; a is at most `end`, and s is 1 to m.
    unsafe fn after_ordinary(&self, mut a: usize, mut s: usize, end: usize) -> (usize, usize) {
        let Job { pattern, text, .. } = *self;
        let m = pattern.len();
        let is_long_repeat = self.is_long_repeat();
        let last = *pattern.get_unchecked(m - 1);
        loop {
            loop {
                let seen = *text.get_unchecked(a + m - 1);
                if seen == last {
                    break;
                }
                s = usize::from(*self.delta1.get_unchecked(usize::from(seen) * m + s - 1));
                a += s;
                if a > end {
                    return (a, s);
                }
            }
            let mut i = 1;
            while i < m {
                let h = *self.order.get_unchecked(i) as usize;
                if *pattern.get_unchecked(h) != *text.get_unchecked(a + h) {
                    break;
                }
                i += 1;
            }
            s = usize::from(*self.delta2.get_unchecked(i));
            if i == m && is_long_repeat {
                return (a, s);
            }
            a += s;
            if a > end {
                return (a, s);
            }
        }
    }

    /// Runs the repeats after the occurrence at a: up to the first that is above `end` or differs.
    /// Gives it, and from which position on it agrees: m where its last byte differs or is not
    /// compared.
    ///
    /// # Safety
    ///
    /// As for `first_above`; and the pattern has at least three periods.
    unsafe fn after_occurrences(&self, mut a: usize, end: usize) -> (usize, usize) {
        let Job {
            pattern,
            text,
            period,
            ..
        } = *self;
        let m = pattern.len();
        let last = *pattern.get_unchecked(m - 1);
        loop {
            a += period;
            if a > end {
                return (a, m);
            }
            if *text.get_unchecked(a + m - 1) != last {
                return (a, m);
            }
            let agreed = agreed_from(m - period, pattern, text, a);
            if agreed > m - period {
                return (a, agreed);
            }
        }
    }

    /// Goes on with the steps up to the alignment at b, or to the one whose shift goes past it. The
    /// next alignment is at most at b.
    fn explained(&self, b: usize, mut next: Next) -> ExplainAnswer {
        let mut spoilt = None;
        loop {
            let a = next.position;
            let (differing, shift) = self.aligned(&next, |x| {
                if spoilt.is_none() && x >= b && self.byte_at(x) != self.pattern[x - b] {
                    spoilt = Some(x - b);
                }
            });
            if a == b {
                return match differing {
                    None => told(LISTED, 0, 0, 0),
                    Some(place) => told(TRIED, place, 0, 0),
                };
            }
            if a + shift > b {
                let kind = match differing {
                    None => Kind::AfterOccurrence,
                    Some(_) if next.is_repeat => Kind::LongRepeat,
                    Some(i) if i == self.pattern.len() - 1 => Kind::LastByte,
                    Some(_) => Kind::Order,
                };
                let place = spoilt.expect("a comparison spoils a position that is passed over");
                return told(PASSED_OVER, place, a, kind as u32);
            }
            next = self.after(&next, differing, shift);
        }
    }
}

/// An answer with these numbers.
fn told(outcome: u32, place: usize, from: usize, kind: u32) -> ExplainAnswer {
    ExplainAnswer {
        answer: Answer::default(),
        outcome,
        place: place as u32,
        from: from as u32,
        kind,
    }
}
