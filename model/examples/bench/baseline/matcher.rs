//! Searching: by the steps of documents 01 and 02, and for their occurrences alone by the C library's
//! `memmem` and by a plain scan.

use std::ffi::c_void;

use ruffarmoire_model::answers::{Answer, Refusal};
use ruffarmoire_model::{MAX_PATTERN, MAX_TEXT};

use super::tables::{are_too_short, is_long_repeat, period, write_tables};

/// Searches a text for a pattern by the steps.
pub fn search(
    pattern: &[u8],
    text: &[u8],
    order: &mut [i16],
    delta2: &mut [u16],
    delta1: &mut [u16],
    delta3: &mut [u16],
    found: &mut [u16],
) -> Answer {
    let (m, n) = (pattern.len(), text.len());
    if m == 0 || m > MAX_PATTERN {
        return Refusal::PatternLength.into();
    }
    if n > MAX_TEXT {
        return Refusal::TextLength.into();
    }
    if are_too_short(m, order, delta2, delta1, delta3) || found.len() < n {
        return Refusal::ShortBuffer.into();
    }
    // SAFETY: all lengths were just checked, and the tables are those of the pattern.
    unsafe {
        write_tables(pattern, order, delta2, delta1, delta3);
        run(pattern, text, order, delta2, delta1, delta3, found)
    }
}

/// Runs the steps.
///
/// # Safety
///
/// The pattern has 1 to 128 bytes and the text at most 16,384. The tables are the pattern's, and
/// there is an entry of `found` for each occurrence.
pub(super) unsafe fn run(
    pattern: &[u8],
    text: &[u8],
    order: &[i16],
    delta2: &[u16],
    delta1: &[u16],
    delta3: &[u16],
    found: &mut [u16],
) -> Answer {
    let (m, n) = (pattern.len(), text.len());
    let job = Job {
        pattern,
        text,
        order,
        delta2,
        delta1,
        delta3,
        period: period(m, delta2),
    };
    let before_the_seam = if n < m {
        Done::nothing(&job)
    } else {
        job.search_before_the_seam(found)
    };
    let done = job.search_over_the_seam(before_the_seam, found);
    let (occurrences, period) = (done.occurrences as u32, job.period as u32);
    Answer {
        occurrences,
        comparisons: done.comparisons,
        period,
        bound: bound(m as u32, n as u32, occurrences, period),
        ..Answer::default()
    }
}

/// A pattern with its tables, and a text, which is a ring.
pub(super) struct Job<'a> {
    pub pattern: &'a [u8],
    pub text: &'a [u8],
    pub order: &'a [i16],
    pub delta2: &'a [u16],
    pub delta1: &'a [u16],
    pub delta3: &'a [u16],
    pub period: usize,
}

/// The alignment that comes next.
pub(super) struct Next {
    pub position: usize,
    /// The last shift.
    pub shift: usize,
    pub is_repeat: bool,
}

/// What a search has done, and what comes next.
struct Done {
    occurrences: usize,
    comparisons: u32,
    next: Next,
}

impl Done {
    fn nothing(job: &Job) -> Done {
        Done {
            occurrences: 0,
            comparisons: 0,
            next: job.first(),
        }
    }
}

impl Job<'_> {
    pub fn first(&self) -> Next {
        Next {
            position: 0,
            shift: self.pattern.len(),
            is_repeat: false,
        }
    }

    pub fn is_long_repeat(&self) -> bool {
        is_long_repeat(self.pattern.len(), self.period)
    }

    /// The byte at a position, which may be n or more.
    pub fn byte_at(&self, x: usize) -> u8 {
        let n = self.text.len();
        self.text[if x < n { x } else { x % n }]
    }

    /// Runs the alignments at which the pattern ends before the seam.
    ///
    /// # Safety
    ///
    /// As for `run`; and the text is no shorter than the pattern.
    unsafe fn search_before_the_seam(&self, found: &mut [u16]) -> Done {
        let Job {
            pattern,
            text,
            order,
            delta2,
            delta1,
            delta3,
            period,
        } = *self;
        let m = pattern.len();
        let is_long_repeat = self.is_long_repeat();
        let last = *pattern.get_unchecked(m - 1);
        let end = text.len() - m;
        let (mut b, mut s) = (0, m);
        let (mut occurrences, mut comparisons) = (0, 0);
        'text: loop {
            loop {
                let seen = *text.get_unchecked(b + m - 1);
                comparisons += 1;
                if seen == last {
                    break;
                }
                s = usize::from(*delta1.get_unchecked(usize::from(seen) * m + s - 1));
                b += s;
                if b > end {
                    break 'text;
                }
            }
            let mut i = 1;
            while i < m {
                let h = *order.get_unchecked(i) as usize;
                comparisons += 1;
                if *pattern.get_unchecked(h) != *text.get_unchecked(b + h) {
                    break;
                }
                i += 1;
            }
            s = usize::from(*delta2.get_unchecked(i));
            if i == m {
                *found.get_unchecked_mut(occurrences) = b as u16;
                occurrences += 1;
                if is_long_repeat {
                    let agreed = loop {
                        b += period;
                        if b > end {
                            break 'text;
                        }
                        // Where the first comparison differs, it is that of an ordinary alignment,
                        // with the same shift after it: the last shift is p.
                        if *text.get_unchecked(b + m - 1) != last {
                            continue 'text;
                        }
                        let agreed = agreed_from(m - period, pattern, text, b);
                        if agreed > m - period {
                            break agreed;
                        }
                        comparisons += period as u32;
                        *found.get_unchecked_mut(occurrences) = b as u16;
                        occurrences += 1;
                    };
                    comparisons += (m - agreed + 1) as u32;
                    s = usize::from(*delta3.get_unchecked(agreed - 1));
                }
            }
            b += s;
            if b > end {
                break;
            }
        }
        // The alignment after an occurrence is a repeat, where the pattern is a long one.
        let is_after_occurrence = found[..occurrences].last() == Some(&((b - s) as u16));
        Done {
            occurrences,
            comparisons,
            next: Next {
                position: b,
                shift: s,
                is_repeat: is_long_repeat && is_after_occurrence,
            },
        }
    }

    /// Goes on with the alignments at which the pattern lies over the seam.
    fn search_over_the_seam(&self, mut done: Done, found: &mut [u16]) -> Done {
        while done.next.position < self.text.len() {
            let (differing, shift) = self.aligned(&done.next, |_| done.comparisons += 1);
            if differing.is_none() {
                found[done.occurrences] = done.next.position as u16;
                done.occurrences += 1;
            }
            done.next = self.after(&done.next, differing, shift);
        }
        done
    }

    /// Makes the comparisons of an alignment, with each text position handed on. Gives the position
    /// that differs, if one does, and the shift.
    pub fn aligned(&self, next: &Next, mut compared: impl FnMut(usize)) -> (Option<usize>, usize) {
        let (m, a) = (self.pattern.len(), next.position);
        let mut agrees = |i: usize| {
            compared(a + i);
            self.pattern[i] == self.byte_at(a + i)
        };
        if !agrees(m - 1) {
            let seen = usize::from(self.byte_at(a + m - 1));
            let shift = self.delta1[seen * m + next.shift - 1];
            return (Some(m - 1), usize::from(shift));
        }
        if next.is_repeat {
            return match (m - self.period..m - 1).rev().find(|&i| !agrees(i)) {
                None => (None, self.period),
                Some(i) => (Some(i), usize::from(self.delta3[i])),
            };
        }
        let others = &self.order[1..m];
        match others.iter().position(|&h| !agrees(h as usize)) {
            None => (None, self.period),
            Some(index) => {
                let shift = self.delta2[index + 1];
                (Some(others[index] as usize), usize::from(shift))
            }
        }
    }

    /// The alignment after one that differed so, with this shift.
    pub fn after(&self, last: &Next, differing: Option<usize>, shift: usize) -> Next {
        Next {
            position: last.position + shift,
            shift,
            is_repeat: differing.is_none() && self.is_long_repeat(),
        }
    }
}

/// From which position on the pattern agrees with the text at b, where its last byte does and those
/// before it are compared down to the position given.
///
/// # Safety
///
/// The position is below the pattern's length, and the pattern laid at b ends before the seam.
#[inline(always)]
pub(super) unsafe fn agreed_from(lowest: usize, pattern: &[u8], text: &[u8], b: usize) -> usize {
    let mut i = pattern.len() - 1;
    while i > lowest && *pattern.get_unchecked(i - 1) == *text.get_unchecked(b + i - 1) {
        i -= 1;
    }
    i
}

/// The bound on the comparisons of a search. The pattern comes to lie on n + m - 1 positions.
fn bound(m: u32, n: u32, occurrences: u32, period: u32) -> u32 {
    if n == 0 {
        return 0;
    }
    let without_occurrences = 2 * (n + m - 1) - m;
    if is_long_repeat(m as usize, period as usize) {
        without_occurrences
    } else {
        without_occurrences + occurrences * m.saturating_sub(2 * period)
    }
}

extern "C" {
    fn memmem(
        text: *const c_void,
        text_length: usize,
        pattern: *const c_void,
        pattern_length: usize,
    ) -> *const c_void;
}

/// The number of occurrences, which go to the front of `found`: each is where `memmem` finds the
/// pattern next, begun again one position on. The pattern has 1 to 128 bytes, and `found` has an entry
/// for each byte of the text.
pub fn occurrences_by_memmem(pattern: &[u8], text: &[u8], found: &mut [u16]) -> usize {
    in_the_ring(pattern, text, found, find_by_memmem)
}

/// The same by a plain scan: at each position the pattern's first byte, and the rest where it
/// agrees.
pub fn occurrences_by_scan(pattern: &[u8], text: &[u8], found: &mut [u16]) -> usize {
    in_the_ring(pattern, text, found, find_by_scan)
}

/// Finds occurrences in some bytes that stand in a row. Each goes to the front of the buffer as its
/// position counted from the number given. Tells how many there are.
type FindInARow = fn(&[u8], &[u8], usize, &mut [u16]) -> usize;

/// Finds those in the text as a row, and then those over the seam in a copy of the bytes around it.
fn in_the_ring(pattern: &[u8], text: &[u8], found: &mut [u16], find: FindInARow) -> usize {
    let (m, n) = (pattern.len(), text.len());
    if n == 0 {
        return 0;
    }
    let count = find(pattern, text, 0, found);
    let first_over_the_seam = (n + 1).saturating_sub(m);
    let mut around_the_seam = [0; 2 * MAX_PATTERN];
    let around_the_seam = &mut around_the_seam[..n + m - 1 - first_over_the_seam];
    let mut x = first_over_the_seam;
    for byte in around_the_seam.iter_mut() {
        *byte = text[x];
        x = if x + 1 < n { x + 1 } else { 0 };
    }
    let found = &mut found[count..];
    count + find(pattern, around_the_seam, first_over_the_seam, found)
}

fn find_by_memmem(pattern: &[u8], row: &[u8], counted_from: usize, found: &mut [u16]) -> usize {
    let mut count = 0;
    let mut from = 0;
    while from < row.len() {
        let rest = &row[from..];
        // SAFETY: each pointer and length is that of a slice.
        let next = unsafe {
            memmem(
                rest.as_ptr().cast(),
                rest.len(),
                pattern.as_ptr().cast(),
                pattern.len(),
            )
        };
        if next.is_null() {
            break;
        }
        from = next as usize - row.as_ptr() as usize;
        found[count] = (counted_from + from) as u16;
        count += 1;
        from += 1;
    }
    count
}

fn find_by_scan(pattern: &[u8], row: &[u8], counted_from: usize, found: &mut [u16]) -> usize {
    let (first, rest) = pattern.split_first().expect("the pattern is not empty");
    let mut count = 0;
    for (b, window) in row.windows(pattern.len()).enumerate() {
        if window[0] == *first && window[1..] == *rest {
            found[count] = (counted_from + b) as u16;
            count += 1;
        }
    }
    count
}
