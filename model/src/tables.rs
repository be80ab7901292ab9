//! The pattern's tables, by their sets. `w` is the pattern and m its length, which is not 0.

use std::ops::Range;

/// Whether k is in Pos(c, i), the set of k from 0 to i with w(i - k) = c. It is empty for i = -1.
pub fn in_pos(w: &[u8], c: u8, i: isize, k: usize) -> bool {
    usize::try_from(i).is_ok_and(|i| k <= i && w[i - k] == c)
}

/// Whether k is in Neg(c, i), the set of k from 0 to i with w(i - k) other than c. It is empty for
/// i = -1.
pub fn in_neg(w: &[u8], c: u8, i: isize, k: usize) -> bool {
    usize::try_from(i).is_ok_and(|i| k <= i && w[i - k] != c)
}

/// Whether k is in Pos(w(j), j). For j = -1 that set is empty.
pub fn in_pos_of_own(w: &[u8], j: isize, k: usize) -> bool {
    usize::try_from(j).is_ok_and(|position| in_pos(w, w[position], j, k))
}

/// Whether k is in Neg(w(j), j). For j = -1 that set is empty.
pub fn in_neg_of_own(w: &[u8], j: isize, k: usize) -> bool {
    usize::try_from(j).is_ok_and(|position| in_neg(w, w[position], j, k))
}

/// h_min(k), k from 1 to m: the least h at or above k - 1 such that k is outside Neg(w(j), j) for
/// all j above h.
pub fn h_min(w: &[u8], k: usize) -> usize {
    let m = w.len();
    (k - 1..m)
        .find(|h| (h + 1..m).all(|j| !in_neg_of_own(w, j as isize, k)))
        .expect("no j is above m - 1")
}

/// The period p: the least k of 1 or more that is outside Neg(w(j), j) for all j. That is the least
/// k with h_min(k) = k - 1.
pub fn period(w: &[u8]) -> usize {
    let m = w.len();
    (1..=m)
        .find(|&k| (0..m).all(|j| !in_neg_of_own(w, j as isize, k)))
        .expect("m is in none of the sets")
}

/// Δ1(c, s), s from 1 to m: the least k of 1 or more outside Neg(w(m-s-1), m-s-1) and outside
/// Neg(c, m-1).
pub fn delta1(w: &[u8], c: u8, s: usize) -> usize {
    let m = w.len() as isize;
    let known = m - s as isize - 1;
    (1..)
        .find(|&k| !in_neg_of_own(w, known, k) && !in_neg(w, c, m - 1, k))
        .expect("m is in neither set")
}

/// Δ2(i), i from 2 to m + 1: the least k of 1 or more outside Neg(w(h(j)), h(j)) for every j below i
/// and, for i up to m, outside Pos(w(h(i)), h(i)). The order has h(i) at i - 1.
pub fn delta2(w: &[u8], order: &[i16], i: usize) -> usize {
    let m = w.len();
    let h = |i: usize| isize::from(order[i - 1]);
    (1..)
        .find(|&k| {
            (1..i).all(|j| !in_neg_of_own(w, h(j), k)) && (i > m || !in_pos_of_own(w, h(i), k))
        })
        .expect("m is in none of the sets")
}

/// Δ3(i), i from m - p to m - 2 where m is at least 3 p: the least k of 1 or more outside
/// Pos(w(i), i), outside Neg(w(j), j) for j above i, and outside Neg(w(j), j) for j below m - p.
pub fn delta3(w: &[u8], i: usize) -> usize {
    let m = w.len();
    let known = m - period(w);
    (1..)
        .find(|&k| {
            !in_pos_of_own(w, i as isize, k)
                && (i + 1..m).all(|j| !in_neg_of_own(w, j as isize, k))
                && (0..known).all(|j| !in_neg_of_own(w, j as isize, k))
        })
        .expect("m is in none of the sets")
}

/// A table of 129 entries, all 0 to begin with, in which those of the range are filled.
fn table_of_129(range: Range<usize>, entry: impl Fn(usize) -> usize) -> Vec<usize> {
    let filled = |index| {
        if range.contains(&index) {
            entry(index)
        } else {
            0
        }
    };
    (0..129).map(filled).collect()
}

/// All tables of a pattern.
#[derive(Clone, Debug, PartialEq, Eq)]
pub struct Tables {
    /// m, the length of the pattern.
    pub m: usize,
    /// p, the period.
    pub period: usize,
    /// h_min(k) at k, in a table of 129 entries that are 0 to begin with.
    pub h_min: Vec<usize>,
    /// k_min(h) at h, in a table of 129 entries that are 0 to begin with.
    pub k_min: Vec<usize>,
    /// h(i) at i - 1, for i from 1 to m + 1. The entry after the last position is -1.
    pub order: Vec<i16>,
    /// Δ2(i) at i - 1, for i from 1 to m + 1. Δ2(1) is stored as 0.
    pub delta2: Vec<usize>,
    /// Δ1(c, s) at c × m + s - 1.
    pub delta1: Vec<usize>,
    /// Δ3(i) at i, for i from 0 to m - 1, and 0 wherever it is not defined.
    pub delta3: Vec<usize>,
}

impl Tables {
    /// The tables of a pattern of 1 to 128 bytes.
    pub fn of(w: &[u8]) -> Tables {
        let m = w.len();
        let p = period(w);

        let h_mins = table_of_129(1..m + 1, |k| h_min(w, k));

        // k_min(h): the least k from 1 to m with h_min(k) = h and h at least k; 0 if there is none.
        let k_mins = table_of_129(0..m, |h| {
            (1..=m).find(|&k| h_mins[k] == h && h >= k).unwrap_or(0)
        });

        // Order: m - 1; then the other h with k_min(h) not 0, by rising k_min; then the remaining
        // ones rising; -1 after the last.
        let mut second: Vec<usize> = (0..m - 1).filter(|&h| k_mins[h] != 0).collect();
        second.sort_by_key(|&h| k_mins[h]);
        let third: Vec<usize> = (0..m - 1).filter(|&h| k_mins[h] == 0).collect();
        let mut order = vec![m as i16 - 1];
        order.extend(second.iter().map(|&h| h as i16));
        order.extend(third.iter().map(|&h| h as i16));
        order.push(-1);

        let mut delta2s = vec![0];
        delta2s.extend((2..=m + 1).map(|i| delta2(w, &order, i)));

        let mut delta1s = Vec::new();
        for c in 0..=255 {
            for s in 1..=m {
                delta1s.push(delta1(w, c, s));
            }
        }

        // Δ3 is defined for i from m - p to m - 2 where m is at least 3 p.
        let is_defined = |i| m >= 3 * p && (m - p..m - 1).contains(&i);
        let delta3s = (0..m)
            .map(|i| if is_defined(i) { delta3(w, i) } else { 0 })
            .collect();

        Tables {
            m,
            period: p,
            h_min: h_mins,
            k_min: k_mins,
            order,
            delta2: delta2s,
            delta1: delta1s,
            delta3: delta3s,
        }
    }

    /// Whether the pattern is a long repeat: m is at least 3 p.
    pub fn is_long_repeat(&self) -> bool {
        self.m >= 3 * self.period
    }

    /// h(i), i from 1 to m: the pattern's position that is compared as the i-th.
    pub fn h(&self, i: usize) -> usize {
        usize::try_from(self.order[i - 1]).expect("i is at most m")
    }

    /// Δ1(c, s), s from 1 to m.
    pub fn delta1(&self, c: u8, s: usize) -> usize {
        self.delta1[usize::from(c) * self.m + s - 1]
    }

    /// Δ2(i), i from 2 to m + 1.
    pub fn delta2(&self, i: usize) -> usize {
        self.delta2[i - 1]
    }

    /// Δ3(i), i from m - p to m - 2 where m is at least 3 p.
    pub fn delta3(&self, i: usize) -> usize {
        self.delta3[i]
    }
}
