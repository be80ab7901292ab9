//! The model's shifts: none passes over an occurrence that the facts of its definition allow, and none
//! could be longer.

mod common;

use common::facts::{bytes_and_another, patterns, shifts, Facts};
use common::repeats;
use common::words::words;
use ruffarmoire_model::convert::occurrences;
use ruffarmoire_model::steps::search_with;
use ruffarmoire_model::tables::Tables;

/// Of all texts over these bytes: each shift is the least k such that the facts hold of one with an
/// occurrence at k. Such a text is any k bytes and then the pattern; no fact is about what follows.
fn check_among_all_texts(pattern: &[u8], bytes: &[u8]) {
    for (facts, shift) in shifts(&Tables::of(pattern), bytes) {
        let is_allowed = |&k: &usize| {
            let mut fronts = words(bytes, k..k + 1);
            fronts.any(|front| facts.hold(pattern, &[&front, pattern].concat()))
        };
        let least = (1..=pattern.len()).find(is_allowed);
        assert_eq!(least, Some(shift), "{facts:?}, pattern {pattern:?}");
    }
}

/// Every pattern of up to 8 bytes over two and of up to 5 over three, in texts over one byte more.
#[test]
fn longest_shifts_among_all_texts() {
    for pattern in words(&[0x06, 0x18], 1..9) {
        check_among_all_texts(&pattern, &[0x06, 0x18, 0xE7]);
    }
    for pattern in words(&[0x06, 0x18, 0x01], 1..6) {
        check_among_all_texts(&pattern, &[0x06, 0x18, 0x01, 0xE7]);
    }
}

/// Every pattern of up to 11 bytes over two that has at least three periods, in texts over the same.
#[test]
fn longest_shifts_of_long_repeats_among_all_texts() {
    for pattern in repeats::all_short() {
        check_among_all_texts(&pattern, &[0x06, 0x18]);
    }
}

/// By the pattern laid at k over the pattern laid at 0: the facts hold of that text where k is the
/// shift, and its first occurrence above 0 is there; for a smaller k they do not hold. No text with an
/// occurrence at k does better, since this one is as the facts ask wherever the occurrence leaves it free.
fn check_by_one_text(tables: &Tables, pattern: &[u8]) {
    for (facts, shift) in shifts(tables, &bytes_and_another(pattern)) {
        let context = || format!("{facts:?}, pattern {pattern:?}");
        let text = facts.laid_at(pattern, shift);
        assert!(facts.hold(pattern, &text), "{}", context());
        let first = occurrences(pattern, &text).into_iter().find(|&b| b > 0);
        assert_eq!(first, Some(shift), "{}", context());
        for k in 1..shift {
            let nearer = facts.laid_at(pattern, k);
            assert!(!facts.hold(pattern, &nearer), "{k}: {}", context());
        }
    }
}

/// r_min(h), h below m: the least r above h with h_min(r) = r - 1.
fn r_min(tables: &Tables, h: usize) -> usize {
    (h + 1..=tables.m)
        .find(|&r| tables.h_min[r] == r - 1)
        .expect("h_min(m) is m - 1")
}

/// Document 002's shifts, by which the bound is shown: k_min(h(i)) is at most Δ2(i) in the second group
/// of the order, r_min(h(i)) is Δ2(i) in the third, and p is Δ2(m + 1). Tells how many of the first
/// kind are shorter than Δ2.
fn check_groups(tables: &Tables, pattern: &[u8]) -> usize {
    let m = tables.m;
    let mut shorter = 0;
    for i in 2..=m {
        let (h, shift) = (tables.h(i), tables.delta2(i));
        let context = || format!("Δ2({i}), pattern {pattern:?}");
        let k = tables.k_min[h];
        if k > 0 {
            assert!(k <= shift, "{}", context());
            shorter += usize::from(k < shift);
        } else {
            assert_eq!(r_min(tables, h), shift, "{}", context());
        }
    }
    assert_eq!(tables.period, tables.delta2(m + 1), "pattern {pattern:?}");
    shorter
}

/// Where h(i) is the first that differs, the steps make i comparisons, and then m at the occurrence that
/// Δ2(i) leads to, which is the first.
fn check_steps(tables: &Tables, pattern: &[u8]) {
    for i in 2..=tables.m {
        let shift = tables.delta2(i);
        let text = Facts::of_delta2(tables, i).laid_at(pattern, shift);
        let done = search_with(tables, pattern, &text);
        let context = || format!("Δ2({i}), pattern {pattern:?}");
        let laid: Vec<usize> = done.alignments.iter().map(|laid| laid.position).collect();
        assert_eq!(laid[..2], [0, shift], "{}", context());
        assert_eq!(done.occurrences[0], shift, "{}", context());
        let positions = done
            .comparisons
            .iter()
            .map(|made| made.text_position - made.pattern_position);
        let count = positions.filter(|&b| b <= shift).count();
        assert_eq!(count, i + tables.m, "{}", context());
    }
}

/// All of this on some patterns. Tells how many of document 002's shifts are shorter.
fn check_shifts(patterns: impl Iterator<Item = Vec<u8>>) -> usize {
    patterns
        .map(|pattern| {
            let tables = Tables::of(&pattern);
            check_by_one_text(&tables, &pattern);
            check_steps(&tables, &pattern);
            check_groups(&tables, &pattern)
        })
        .sum()
}

/// Every pattern of up to 12 bytes over two, and of up to 8 over three.
#[test]
fn shifts_of_short_patterns() {
    let two = words(&[0x06, 0x18], 1..13);
    let three = words(&[0x06, 0x18, 0x01], 1..9);
    assert_eq!(check_shifts(two), 3_380);
    assert_eq!(check_shifts(three), 1_224);
}

#[test]
fn shifts_of_longer_patterns() {
    let shorter = check_shifts(patterns());
    assert!(shorter > 900, "only {shorter} shifts were shorter");
}

/// Patterns of every period that has room for three, just below, at and just above three periods.
#[test]
fn shifts_of_long_repeats() {
    for pattern in repeats::patterns() {
        let tables = Tables::of(&pattern);
        let (m, p) = (pattern.len(), tables.period);
        assert_eq!(tables.delta3.len(), m);
        let defined = if m >= 3 * p { m - p..m - 1 } else { 0..0 };
        for i in 0..m {
            let shift = tables.delta3[i];
            if !defined.contains(&i) {
                assert_eq!(shift, 0);
                continue;
            }
            // Enough for the bound, and from h_min and r_min.
            assert!((m - 2 * p + 1..=m).contains(&shift));
            let by_h_min = (m - 2 * p + 1..=i).find(|&k| {
                let beyond = k + p;
                tables.h_min[k] == i && (beyond >= m || tables.h_min[beyond] == beyond - 1)
            });
            assert_eq!(shift, by_h_min.unwrap_or(r_min(&tables, i)));
        }
        // The shift after a repeat alignment whose first comparison differs.
        if m >= 3 * p {
            let others = (0..=255).filter(|&c| c != pattern[m - 1]);
            assert!(others.into_iter().all(|c| tables.delta1(c, p) >= m - p));
        }
    }
}
