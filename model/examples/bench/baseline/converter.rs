//! Converting a text to frames, and counting ones.

use ruffarmoire_model::answers::{Answer, Refusal};
use ruffarmoire_model::convert::HOLD;
use ruffarmoire_model::{MAX_PATTERN, MAX_TEXT};

use super::matcher::run;
use super::tables::{are_too_short, write_tables};

/// Converts a text to frames.
#[allow(clippy::too_many_arguments)]
pub fn convert(
    hold: u32,
    pattern: &[u8],
    text: &[u8],
    order: &mut [i16],
    delta2: &mut [u16],
    delta1: &mut [u16],
    delta3: &mut [u16],
    found: &mut [u16],
    frames: &mut [u16],
) -> Answer {
    let (m, n) = (pattern.len(), text.len());
    if m == 0 || m > MAX_PATTERN {
        return Refusal::PatternLength.into();
    }
    if hold as usize >= m {
        return Refusal::HoldOffset.into();
    }
    if n > MAX_TEXT {
        return Refusal::TextLength.into();
    }
    if are_too_short(m, order, delta2, delta1, delta3) || found.len() < n || frames.len() < n {
        return Refusal::ShortBuffer.into();
    }
    // SAFETY: all lengths were just checked, and the tables are those of the pattern.
    let mut answer = unsafe {
        write_tables(pattern, order, delta2, delta1, delta3);
        run(pattern, text, order, delta2, delta1, delta3, found)
    };
    for (frame, &byte) in frames.iter_mut().zip(text) {
        *frame = u16::from(byte);
    }
    for &b in &found[..answer.occurrences as usize] {
        let x = usize::from(b) + hold as usize;
        frames[if x < n { x } else { x % n }] = HOLD;
    }
    answer.ones = ones(text);
    answer
}

/// Counts the ones of a text.
pub fn count_ones(text: &[u8]) -> Answer {
    if text.len() > MAX_TEXT {
        return Refusal::TextLength.into();
    }
    Answer {
        ones: ones(text),
        ..Answer::default()
    }
}

pub(super) fn ones(text: &[u8]) -> u32 {
    let words = text.chunks_exact(8);
    let rest: u32 = words.remainder().iter().map(|byte| byte.count_ones()).sum();
    let whole: u32 = words
        .map(|word| u64::from_le_bytes(word.try_into().expect("eight bytes")).count_ones())
        .sum();
    whole + rest
}
