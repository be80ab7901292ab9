//! A pattern's tables. The order is worked out by the linear listings of document 002, section 5, and
//! Δ3 from theirs; Δ2 by passes over the shifts that are left and, in the order's third group, by those
//! listings; Δ1 either by sweeps over the rows of the bytes that the pattern has, or by that section's
//! own listing.

use ruffarmoire_model::answers::{Answer, Refusal};
use ruffarmoire_model::MAX_PATTERN;

/// Prepares a pattern, Δ1 by sweeps.
pub fn prepare(
    pattern: &[u8],
    order: &mut [i16],
    delta2: &mut [u16],
    delta1: &mut [u16],
    delta3: &mut [u16],
) -> Answer {
    prepare_with(write_delta1, pattern, order, delta2, delta1, delta3)
}

/// Prepares a pattern, Δ1 by document 002's listing.
pub fn prepare_as_listed(
    pattern: &[u8],
    order: &mut [i16],
    delta2: &mut [u16],
    delta1: &mut [u16],
    delta3: &mut [u16],
) -> Answer {
    prepare_with(
        write_delta1_as_listed,
        pattern,
        order,
        delta2,
        delta1,
        delta3,
    )
}

#[inline(always)]
fn prepare_with(
    write_delta1: unsafe fn(&[u8], &mut [u16]),
    pattern: &[u8],
    order: &mut [i16],
    delta2: &mut [u16],
    delta1: &mut [u16],
    delta3: &mut [u16],
) -> Answer {
    let m = pattern.len();
    if m == 0 || m > MAX_PATTERN {
        return Refusal::PatternLength.into();
    }
    if are_too_short(m, order, delta2, delta1, delta3) {
        return Refusal::ShortBuffer.into();
    }
    // SAFETY: the pattern's length and those of the buffers were just checked.
    let period = unsafe {
        write_all_but_delta1(pattern, order, delta2, delta3);
        write_delta1(pattern, delta1);
        period(m, delta2) as u32
    };
    Answer {
        period,
        ..Answer::default()
    }
}

/// Whether a buffer has fewer entries than the tables of a pattern of m bytes, at most 128, need.
pub(super) fn are_too_short(
    m: usize,
    order: &[i16],
    delta2: &[u16],
    delta1: &[u16],
    delta3: &[u16],
) -> bool {
    order.len() < m + 1 || delta2.len() < m + 1 || delta1.len() < 256 * m || delta3.len() < m
}

/// Writes all tables.
///
/// # Safety
///
/// The pattern has 1 to 128 bytes, and no buffer is too short.
pub(super) unsafe fn write_tables(
    pattern: &[u8],
    order: &mut [i16],
    delta2: &mut [u16],
    delta1: &mut [u16],
    delta3: &mut [u16],
) {
    write_all_but_delta1(pattern, order, delta2, delta3);
    write_delta1(pattern, delta1);
}

/// The period of a pattern of m bytes: its last entry of Δ2, the shift after an occurrence.
///
/// # Safety
///
/// The table is that of the pattern.
pub(super) unsafe fn period(m: usize, delta2: &[u16]) -> usize {
    usize::from(at(delta2, m))
}

/// Whether a pattern of m bytes with this period is searched by repeat alignments too.
pub(super) fn is_long_repeat(m: usize, period: usize) -> bool {
    m >= 3 * period
}

/// Entry `index`, unchecked.
unsafe fn at<T: Copy>(entries: &[T], index: usize) -> T {
    debug_assert!(index < entries.len());
    *entries.get_unchecked(index)
}

/// Makes entry `index` this value, unchecked.
unsafe fn put<T>(entries: &mut [T], index: usize, value: T) {
    debug_assert!(index < entries.len());
    *entries.get_unchecked_mut(index) = value;
}

/// The listings for h_min, k_min, r_min and the order; Δ2 and Δ3.
unsafe fn write_all_but_delta1(
    w: &[u8],
    order: &mut [i16],
    delta2: &mut [u16],
    delta3: &mut [u16],
) {
    let m = w.len();

    let mut h_min = [0_u8; 129];
    let mut k = 1;
    let mut i = m - 1;
    loop {
        while i >= k && at(w, i - k) == at(w, i) {
            i -= 1;
        }
        put(&mut h_min, k, i as u8);
        // At q = m + 1 at the latest the copying ends, since h_min(j) is at most m - 1 and i at
        // least k - 1.
        let mut q = k + 1;
        while usize::from(at(&h_min, q - k)) > i + (q - k) {
            let copied = at(&h_min, q - k);
            put(&mut h_min, q, copied);
            q += 1;
        }
        i += q - k;
        k = q;
        if i == m {
            i = m - 1;
        }
        if k > m {
            break;
        }
    }

    let mut k_min = [0_u8; 129];
    for k in (1..=m).rev() {
        let h = usize::from(at(&h_min, k));
        if h >= k {
            put(&mut k_min, h, k as u8);
        }
    }

    let mut r_min = [0_u8; 129];
    let mut r = m;
    for i in (0..m).rev() {
        if usize::from(at(&h_min, i + 1)) == i {
            r = i + 1;
        }
        put(&mut r_min, i, r as u8);
    }

    // The shifts that are left and are no period, linked in rising order: entry k is the one after
    // k, and entry 0 the first. m is the last, and is always left.
    let mut next = [0_u8; MAX_PATTERN];
    let mut after = m;
    for k in (0..m).rev() {
        if usize::from(at(&r_min, k)) != k + 1 {
            after = k + 1;
        }
        put(&mut next, k, after as u8);
    }
    put(order, 0, m as i16 - 1);
    put(delta2, 0, 0);
    take_out(w, &mut next, m - 1);
    let mut i = 1;
    for k in 1..=m {
        let h = usize::from(at(&h_min, k));
        if h != m - 1 && usize::from(at(&k_min, h)) == k {
            put(order, i, h as i16);
            let shift = take_out(w, &mut next, h).min(usize::from(at(&r_min, h)));
            put(delta2, i, shift as u16);
            i += 1;
        }
    }
    let mut i = m;
    for j in (0..m - 1).rev() {
        if at(&k_min, j) == 0 {
            i -= 1;
            put(order, i, j as i16);
            put(delta2, i, u16::from(at(&r_min, j)));
        }
    }
    put(order, m, -1);
    put(delta2, m, u16::from(at(&r_min, 0)));

    write_delta3(&h_min, &r_min, delta3.get_unchecked_mut(..m));
}

/// Takes those in Neg(w(h), h) out of the linked shifts. Gives the least that was linked and is outside
/// Pos(w(h), h): the first that is taken out, or else the first above h.
unsafe fn take_out(w: &[u8], next: &mut [u8; MAX_PATTERN], h: usize) -> usize {
    let byte = at(w, h);
    let mut least = 0;
    let mut before = 0;
    let mut k = usize::from(at(next, before));
    while k <= h {
        let after = at(next, k);
        if at(w, h - k) == byte {
            before = k;
        } else {
            put(next, before, after);
            if least == 0 {
                least = k;
            }
        }
        k = usize::from(after);
    }
    if least > 0 {
        least
    } else {
        k
    }
}

/// Δ3: of a long repeat, the entry of position i is the least k up to i with h_min(k) = i for which
/// k + p is a period or at least m, or r_min(i) where there is none. Only a k above m - 2 p can be
/// one.
unsafe fn write_delta3(h_min: &[u8; 129], r_min: &[u8; 129], delta3: &mut [u16]) {
    let m = delta3.len();
    let p = usize::from(at(r_min, 0));
    delta3.fill(0);
    if !is_long_repeat(m, p) {
        return;
    }
    for i in m - p..m - 1 {
        put(delta3, i, u16::from(at(r_min, i)));
    }
    for k in (m - 2 * p + 1..m - 1).rev() {
        let i = usize::from(at(h_min, k));
        let beyond = k + p;
        let agrees_below = beyond >= m || usize::from(at(h_min, beyond)) == beyond - 1;
        if (k..m - 1).contains(&i) && agrees_below {
            put(delta3, i, k as u16);
        }
    }
}

/// What stands past the end of the reversed pattern. No byte has this value.
const PAST: u16 = 256;

/// Δ1: every row is filled with m; then each position below m - 1 lowers the row of its byte to
/// its shift, wherever the last shift allows that.
unsafe fn write_delta1(w: &[u8], delta1: &mut [u16]) {
    let m = w.len();
    let table = delta1.get_unchecked_mut(..256 * m);
    table.fill(m as u16);

    let mut reversed = [PAST; 2 * MAX_PATTERN];
    for i in 0..m {
        put(&mut reversed, i, u16::from(at(w, m - 1 - i)));
    }

    // The last position below m - 1 of each byte, and the position before with the same byte, both
    // one up, with 0 for none.
    let mut last = [0_u8; 256];
    let mut link = [0_u8; 129];
    for i in 0..m - 1 {
        let c = usize::from(at(w, i));
        put(&mut link, i + 1, at(&last, c));
        put(&mut last, c, i as u8 + 1);
    }

    for i in 0..m - 1 {
        let c = usize::from(at(w, i));
        if usize::from(at(&last, c)) == i + 1 {
            let row = table.get_unchecked_mut(c * m..c * m + m);
            let mut position = i + 1;
            while position > 0 {
                lower_row(&reversed, m - position, row);
                position = usize::from(at(&link, position));
            }
        }
    }
}

/// Lowers each entry of a row to the shift, where it is larger and the last shift allows it: that
/// is entry s - 1 where w(m-s-1-shift) = w(m-s-1), or s is at least m - shift.
unsafe fn lower_row(reversed: &[u16; 2 * MAX_PATTERN], shift: usize, row: &mut [u16]) {
    let m = row.len();
    let known = reversed.get_unchecked(1..m + 1);
    let moved = reversed.get_unchecked(shift + 1..shift + 1 + m);
    // All entries are below 2^15. As signed numbers they have a least of two in one instruction.
    let shift = shift as i16;
    for ((entry, &known), &moved) in row.iter_mut().zip(known).zip(moved) {
        let lowered = (*entry as i16).min(shift) as u16;
        *entry = if (moved == PAST) | (moved == known) {
            lowered
        } else {
            *entry
        };
    }
}

/// Δ1 by the listing of document 002: for each byte c and shift s, two positions go down along the
/// links of their bytes until they are s apart.
unsafe fn write_delta1_as_listed(w: &[u8], delta1: &mut [u16]) {
    let m = w.len() as isize;
    let mut locc = [-1_i16; 256];
    // link(i) at i + 1, since the listing has a link(-1).
    let mut links = [-1_i16; 129];
    for i in 0..m - 1 {
        let c = usize::from(at(w, i as usize));
        put(&mut links, i as usize + 1, at(&locc, c));
        put(&mut locc, c, i as i16);
    }
    let link = |i: isize| isize::from(at(&links, (i + 1) as usize));

    for c in 0..256 {
        for s in 1..=m {
            let mut i = isize::from(at(&locc, c));
            let mut j = link(m - 1 - s);
            while i - j != s && j >= 0 {
                if i - j > s {
                    i = link(i);
                } else {
                    j = link(j);
                }
            }
            while i - j > s {
                i = link(i);
            }
            put(delta1, c * m as usize + s as usize - 1, (m - i - 1) as u16);
        }
    }
}
