//! Restoring a text: frames put back to bytes, where they are a conversion.

use ruffarmoire_model::answers::{Answer, Refusal};
use ruffarmoire_model::convert::HOLD;
use ruffarmoire_model::{MAX_PATTERN, MAX_TEXT};

/// Restores the text of some frames. All of them are checked before the first byte goes into the
/// buffer.
pub fn restore(hold: u32, pattern: &[u8], frames: &[u16], text: &mut [u8]) -> Answer {
    match try_restore(hold, pattern, frames, text) {
        Ok(()) => Answer::default(),
        Err(refusal) => refusal.into(),
    }
}

fn try_restore(hold: u32, pattern: &[u8], frames: &[u16], text: &mut [u8]) -> Result<(), Refusal> {
    let (m, n) = (pattern.len(), frames.len());
    let hold = hold as usize;
    if m == 0 || m > MAX_PATTERN {
        return Err(Refusal::PatternLength);
    }
    if hold >= m {
        return Err(Refusal::HoldOffset);
    }
    if n > MAX_TEXT {
        return Err(Refusal::TextLength);
    }
    let text = text.get_mut(..n).ok_or(Refusal::ShortBuffer)?;
    let held = pattern[hold];
    let are_frames = frames
        .iter()
        .fold(true, |all, &frame| all & (frame <= HOLD));
    let byte_of = |frame| byte_of(frame, held);
    if !are_frames || !holds_occurrences(pattern, hold, HOLD, frames, byte_of) {
        return Err(Refusal::NoConversion);
    }
    for (byte, &frame) in text.iter_mut().zip(frames) {
        *byte = byte_of(frame);
    }
    Ok(())
}

/// The byte of a frame that is at most 256, with the byte of a hold.
fn byte_of(frame: u16, held: u8) -> u8 {
    if frame == HOLD {
        held
    } else {
        frame as u8
    }
}

/// Whether the frames that are this hold are just those where occurrences of the pattern have theirs,
/// in the text that has this byte for each frame.
pub(super) fn holds_occurrences(
    pattern: &[u8],
    hold: usize,
    own: u16,
    frames: &[u16],
    byte_of: impl Fn(u16) -> u8,
) -> bool {
    let (m, n) = (pattern.len(), frames.len());
    if n == 0 {
        return true;
    }
    let mut walk = Walk::new(pattern);
    let mut ends_at = |frame| walk.ends_an_occurrence(byte_of(frame));
    // The occurrence that has its hold in frame 0 begins q frames before it, over the seam. The walk
    // goes from there to the frame before that occurrence's end; no occurrence ends on the way, which
    // has fewer frames than the pattern has bytes.
    let mut x = (n - hold % n) % n;
    for _ in 1..m {
        ends_at(frames[x]);
        x = if x + 1 < n { x + 1 } else { 0 };
    }
    // From there on an occurrence ends so many frames after its hold, the last of them over the seam.
    let after = (m - 1 - hold) % n;
    let (first, rest) = frames.split_at(after);
    let last = &frames[n - after..];
    rest.iter()
        .zip(frames)
        .chain(first.iter().zip(last))
        .all(|(&frame, &before)| ends_at(frame) == (before == own))
}

/// The search of Knuth, Morris and Pratt, a byte at a time.
pub(super) struct Walk<'a> {
    pattern: &'a [u8],
    /// For each length of a prefix of the pattern, that of the longest shorter prefix that ends where
    /// it does.
    links: [u8; MAX_PATTERN + 1],
    /// The length of the longest prefix of the pattern that ends here.
    matched: usize,
}

impl<'a> Walk<'a> {
    pub fn new(pattern: &'a [u8]) -> Walk<'a> {
        let mut walk = Walk {
            pattern,
            links: [0; MAX_PATTERN + 1],
            matched: 0,
        };
        for (position, &byte) in pattern.iter().enumerate().skip(1) {
            walk.go_on(byte);
            walk.links[position + 1] = walk.matched as u8;
        }
        walk.matched = 0;
        walk
    }

    /// Goes on by a byte, and tells whether an occurrence ends with it.
    pub fn ends_an_occurrence(&mut self, byte: u8) -> bool {
        if self.matched == self.pattern.len() {
            self.matched = self.link();
        }
        self.go_on(byte);
        self.matched == self.pattern.len()
    }

    /// Goes on by a byte where less than the whole pattern ends.
    fn go_on(&mut self, byte: u8) {
        while self.next_byte() != byte {
            if self.matched == 0 {
                return;
            }
            self.matched = self.link();
        }
        self.matched += 1;
    }

    /// The byte of the pattern after what is matched, where that is less than the whole of it.
    fn next_byte(&self) -> u8 {
        debug_assert!(self.matched < self.pattern.len());
        // SAFETY: where the whole pattern is matched, its link is followed first, and a link is shorter.
        unsafe { *self.pattern.get_unchecked(self.matched) }
    }

    /// The link of what is matched, which is at most the whole pattern.
    fn link(&self) -> usize {
        debug_assert!(self.matched < self.links.len());
        // SAFETY: what is matched is at most the pattern, which has at most 128 bytes.
        unsafe { usize::from(*self.links.get_unchecked(self.matched)) }
    }
}
