//! Restoring a text: frames put back to bytes.

use crate::answers::Refusal;
use crate::convert::{self, HOLD};

/// The byte of a frame: a hold has the pattern's byte at the hold offset, a move its own. Any other
/// number is no frame.
fn byte(pattern: &[u8], hold: usize, frame: u16) -> Option<u8> {
    if frame == HOLD {
        Some(pattern[hold])
    } else {
        u8::try_from(frame).ok()
    }
}

/// The text that converts to these frames, or refusal 9 where no text does. Every frame of a
/// conversion is a move with the text's byte, or a hold where the text has the pattern's byte at the
/// hold offset; so no other text than the frames put back can convert to them.
pub fn restored(pattern: &[u8], hold: usize, frames: &[u16]) -> Result<Vec<u8>, Refusal> {
    let text: Option<Vec<u8>> = frames
        .iter()
        .map(|&frame| byte(pattern, hold, frame))
        .collect();
    match text {
        Some(text) if convert::frames(pattern, hold, &text) == frames => Ok(text),
        _ => Err(Refusal::NoConversion),
    }
}
