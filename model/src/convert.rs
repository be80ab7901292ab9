//! Occurrences by their meaning, frames and ones.

use crate::ring::byte_at;

/// The frame that is a hold, of the only pattern or of a table's first rule. The frames 0 to 255 are
/// moves.
pub const HOLD: u16 = 256;

/// The positions b below n with w(j) at b + j for each j from 0 to m - 1, ascending.
pub fn occurrences(pattern: &[u8], text: &[u8]) -> Vec<usize> {
    (0..text.len())
        .filter(|b| (0..pattern.len()).all(|j| byte_at(text, b + j) == pattern[j]))
        .collect()
}

/// The positions (b + q) modulo n, in the order of the occurrences b.
pub fn holds(pattern: &[u8], hold: usize, text: &[u8]) -> Vec<usize> {
    occurrences(pattern, text)
        .into_iter()
        .map(|b| (b + hold) % text.len())
        .collect()
}

/// Each byte as a move, then frame (b + q) modulo n as a hold for every occurrence b.
pub fn frames(pattern: &[u8], hold: usize, text: &[u8]) -> Vec<u16> {
    let mut frames: Vec<u16> = text.iter().map(|&byte| u16::from(byte)).collect();
    for position in holds(pattern, hold, text) {
        frames[position] = HOLD;
    }
    frames
}

/// The ones of all bytes of a text.
pub fn ones(text: &[u8]) -> u32 {
    text.iter()
        .map(|&byte| (0..8).filter(|bit| byte >> bit & 1 == 1).count() as u32)
        .sum()
}
