//! Turning a job.

use ruffarmoire_model::answers::{Answer, Refusal, TurnAnswer};
use ruffarmoire_model::{MAX_PATTERN, MAX_TEXT};

/// Each byte with its eight bits in reverse order.
static MIRRORED: [u8; 256] = mirrored_bytes();

const fn mirrored_bytes() -> [u8; 256] {
    let mut mirrored = [0; 256];
    let mut byte = 0;
    while byte < 256 {
        mirrored[byte] = (byte as u8).reverse_bits();
        byte += 1;
    }
    mirrored
}

/// Turns a pattern, its hold offset and a text.
pub fn turn(
    way: u32,
    hold: u32,
    pattern: &[u8],
    text: &[u8],
    turned_pattern: &mut [u8],
    turned_text: &mut [u8],
) -> TurnAnswer {
    try_turn(way, hold, pattern, text, turned_pattern, turned_text).unwrap_or_else(TurnAnswer::from)
}

fn try_turn(
    way: u32,
    hold: u32,
    pattern: &[u8],
    text: &[u8],
    turned_pattern: &mut [u8],
    turned_text: &mut [u8],
) -> Result<TurnAnswer, Refusal> {
    let (m, n) = (pattern.len(), text.len());
    let turn_bytes = match way {
        0 => <[u8]>::copy_from_slice,
        1 => mirror,
        2 => reverse,
        3 => mirror_and_reverse,
        _ => return Err(Refusal::Way),
    };
    if m == 0 || m > MAX_PATTERN {
        return Err(Refusal::PatternLength);
    }
    if hold as usize >= m {
        return Err(Refusal::HoldOffset);
    }
    if n > MAX_TEXT {
        return Err(Refusal::TextLength);
    }
    let turned_pattern = turned_pattern.get_mut(..m).ok_or(Refusal::ShortBuffer)?;
    let turned_text = turned_text.get_mut(..n).ok_or(Refusal::ShortBuffer)?;
    turn_bytes(turned_pattern, pattern);
    turn_bytes(turned_text, text);
    Ok(TurnAnswer {
        answer: Answer::default(),
        q: if way < 2 { hold } else { m as u32 - 1 - hold },
    })
}

fn mirror(turned: &mut [u8], bytes: &[u8]) {
    for (turned, &byte) in turned.iter_mut().zip(bytes) {
        *turned = MIRRORED[usize::from(byte)];
    }
}

fn reverse(turned: &mut [u8], bytes: &[u8]) {
    for (turned, &byte) in turned.iter_mut().zip(bytes.iter().rev()) {
        *turned = byte;
    }
}

/// Mirrors and reverses by an index from the end, which is faster here than an iterator that goes
/// backwards.
fn mirror_and_reverse(turned: &mut [u8], bytes: &[u8]) {
    let n = turned.len();
    let bytes = &bytes[..n];
    for (i, turned) in turned.iter_mut().enumerate() {
        *turned = MIRRORED[usize::from(bytes[n - 1 - i])];
    }
}
