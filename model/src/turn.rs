//! Turning a job: every byte mirrored, the order of the bytes reversed, or both.

use crate::answers::Refusal;
use crate::job::Job;

/// How a job is turned.
#[derive(Clone, Copy, Debug, PartialEq, Eq)]
pub enum Way {
    /// 0: not at all.
    AsItIs,
    /// 1: every byte mirrored.
    Mirrored,
    /// 2: the order of the bytes reversed.
    Reversed,
    /// 3: every byte mirrored and their order reversed.
    MirroredAndReversed,
}

/// The ways, each at its number.
pub const WAYS: [Way; 4] = [
    Way::AsItIs,
    Way::Mirrored,
    Way::Reversed,
    Way::MirroredAndReversed,
];

impl Way {
    /// The way with this number, or refusal 8.
    pub fn numbered(number: u32) -> Result<Way, Refusal> {
        WAYS.get(number as usize).copied().ok_or(Refusal::Way)
    }

    fn mirrors(self) -> bool {
        self == Way::Mirrored || self == Way::MirroredAndReversed
    }

    fn reverses(self) -> bool {
        self == Way::Reversed || self == Way::MirroredAndReversed
    }
}

/// The byte with its eight bits in reverse order: bit i becomes bit 7 - i.
pub fn mirrored(byte: u8) -> u8 {
    (0..8)
        .filter(|bit| byte >> bit & 1 == 1)
        .map(|bit| 1 << (7 - bit))
        .sum()
}

/// A frame mirrored: a hold stays that hold, and a move has its byte mirrored.
fn mirrored_frame(frame: u16) -> u16 {
    match u8::try_from(frame) {
        Ok(byte) => u16::from(mirrored(byte)),
        Err(_) => frame,
    }
}

/// Entries turned, with what mirrors one of them.
fn turned<T: Copy>(way: Way, entries: &[T], mirrored: impl Fn(T) -> T) -> Vec<T> {
    let mut turned = entries.to_vec();
    if way.mirrors() {
        turned = turned.into_iter().map(mirrored).collect();
    }
    if way.reverses() {
        turned.reverse();
    }
    turned
}

/// The bytes of a pattern or a text turned.
pub fn turned_bytes(way: Way, bytes: &[u8]) -> Vec<u8> {
    turned(way, bytes, mirrored)
}

/// The frames of a job that is turned.
pub fn turned_frames(way: Way, frames: &[u16]) -> Vec<u16> {
    turned(way, frames, mirrored_frame)
}

/// The hold offset of a pattern of m bytes that is turned: where its byte goes.
pub fn turned_hold(way: Way, hold: usize, m: usize) -> usize {
    if way.reverses() {
        m - 1 - hold
    } else {
        hold
    }
}

/// The occurrences of a pattern of m bytes in a text of n that are turned alike, ascending: where the
/// order is reversed, (n - m - b) modulo n for each occurrence b.
pub fn turned_occurrences(way: Way, occurrences: &[usize], m: usize, n: usize) -> Vec<usize> {
    let mut turned = occurrences.to_vec();
    if way.reverses() {
        let (m, n) = (m as isize, n as isize);
        let reversed = |b: usize| (n - m - b as isize).rem_euclid(n) as usize;
        turned = turned.into_iter().map(reversed).collect();
        turned.sort();
    }
    turned
}

/// A job turned.
pub fn turned_job(way: Way, job: &Job) -> Job {
    Job {
        pattern: turned_bytes(way, &job.pattern),
        hold: turned_hold(way, job.hold, job.pattern.len()),
        text: turned_bytes(way, &job.text),
    }
}
