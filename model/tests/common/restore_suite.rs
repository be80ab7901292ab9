//! Everything that is asked of restoring a text, for any implementation of the call. Each call is
//! held to the model: its whole answer, and every entry of the buffer. Both round trips with
//! converting are asked of the implementation's own calls.

use std::collections::{BTreeMap, BTreeSet};
use std::fmt::{self, Display, Formatter};

use ruffarmoire_model::answers::Answer;
use ruffarmoire_model::calls::{self, RestoreOutcome};
use ruffarmoire_model::convert::{self, HOLD};
use ruffarmoire_model::gen::{Random, Shape, SHAPES};
use ruffarmoire_model::job::Job;

use super::converter_suite::{converted, ConverterCalls};
use super::examples::example_jobs;
use super::harness::{expect_front, reserved, shown, Buffer};
use super::rings;
use super::searches::{self, Pair};
use super::words::words;

const A: u8 = 0x06;
const B: u8 = 0x01;
const C: u8 = 0x18;

/// Moves with these bytes.
const MOVE_A: u16 = A as u16;
const MOVE_B: u16 = B as u16;
const MOVE_C: u16 = C as u16;

/// An implementation of restoring a text.
pub trait RestoreCalls {
    fn restore(hold: u32, pattern: &[u8], frames: &[u16], text: &mut [u8]) -> Answer;
}

/// A test program's tests: all of this module on one implementation, which also converts.
macro_rules! restore_suite {
    ($calls:ty) => {
        tests_of!(restore_suite, $calls:
            worked_examples,
            conversions_of_all_short_texts,
            conversions_of_generated_texts,
            holds_around_the_seam,
            texts_shorter_than_the_pattern,
            one_byte_throughout,
            rings_with_one_frame_changed,
            every_number_as_a_frame,
            every_byte_in_every_role,
            all_short_frames,
            done_just_where_some_text_converts,
            short_conversions_with_one_frame_changed,
            longer_conversions_with_one_frame_changed,
            largest_conversions_with_one_frame_changed,
            holds_and_bytes_moved,
            every_hold_offset,
            buffers_around_the_needed_length,
            refusals_at_their_edges,
            order_of_refusals,
            buffer_left_by_another_call,
            lengths_beyond_32_bits,
            converted_and_restored,
            restored_and_converted,
        );
    };
}

/// What the call is handed beside its buffer.
#[derive(Clone, Copy)]
struct Input<'a> {
    hold: u32,
    pattern: &'a [u8],
    frames: &'a [u16],
}

impl<'a> Input<'a> {
    fn new(hold: u32, pattern: &'a [u8], frames: &'a [u16]) -> Input<'a> {
        Input {
            hold,
            pattern,
            frames,
        }
    }

    /// A job's pattern and hold offset, with some frames.
    fn of(job: &'a Job, frames: &'a [u16]) -> Input<'a> {
        Input::new(job.hold as u32, &job.pattern, frames)
    }

    fn model(self, text_length: usize) -> RestoreOutcome {
        calls::restore(self.hold, self.pattern, self.frames, text_length)
    }

    fn call<T: RestoreCalls>(self, text: &mut [u8]) -> Answer {
        T::restore(self.hold, self.pattern, self.frames, text)
    }
}

impl Display for Input<'_> {
    fn fmt(&self, formatter: &mut Formatter) -> fmt::Result {
        let (hold, pattern) = (self.hold, shown(self.pattern));
        let n = self.frames.len();
        let front = &self.frames[..n.min(100)];
        write!(
            formatter,
            "q {hold}, pattern {pattern}, {n} frames {front:X?}"
        )
    }
}

/// Makes a call with a buffer of this length and holds what comes of it to the model.
fn check<T: RestoreCalls>(input: Input, text_length: usize) -> RestoreOutcome {
    let expected = input.model(text_length);
    let context = || format!("{input}, a buffer of {text_length}");
    // Two fillings of the buffer: an entry that is left by chance as it should be is seen in one.
    for seed in [input.frames.len(), input.frames.len() + 101] {
        let before = Buffer::junk(text_length, seed);
        let mut text = before.clone();
        let answer = input.call::<T>(text.lent());
        assert_eq!(answer, expected.answer, "{}", context());
        text.expect(&before.after(&expected.text), "text", &context);
    }
    expected
}

/// The status of a call with the buffer that it needs.
fn status<T: RestoreCalls>(input: Input) -> u32 {
    check::<T>(input, input.frames.len()).answer.status
}

/// The same frames, which have this status with a buffer that is long enough, with longer buffers and
/// with some that are too short.
fn check_other_buffers<T: RestoreCalls>(input: Input, status: u32) {
    let n = input.frames.len();
    for longer in [n + 1, n + 1 + n % 9, 2 * n + 20] {
        assert_eq!(check::<T>(input, longer).answer.status, status);
    }
    for shorter in [n.saturating_sub(1), n / 2, 0] {
        if shorter < n {
            assert_eq!(check::<T>(input, shorter).answer.status, 7);
        }
    }
}

/// The frames of a job.
fn frames_of(job: &Job) -> Vec<u16> {
    convert::frames(&job.pattern, job.hold, &job.text)
}

/// The frames of a job within the limits are put back to its text.
fn check_conversion<T: RestoreCalls>(job: &Job) -> Vec<u16> {
    let frames = frames_of(job);
    let outcome = check::<T>(Input::of(job, &frames), frames.len());
    assert_eq!(outcome.answer, Answer::default());
    assert_eq!(outcome.text, job.text);
    frames
}

/// The text that a call gives for frames within the limits, or its refusal.
fn restored<T: RestoreCalls>(
    hold: usize,
    pattern: &[u8],
    frames: &[u16],
) -> Result<Vec<u8>, Answer> {
    let mut text = vec![0; frames.len()];
    match T::restore(hold as u32, pattern, frames, &mut text) {
        answer if answer == Answer::default() => Ok(text),
        answer => Err(answer),
    }
}

/// The answer for frames that are no conversion.
fn no_conversion() -> Answer {
    Answer {
        status: 9,
        ..Answer::default()
    }
}

pub fn worked_examples<T: RestoreCalls>() {
    for job in example_jobs() {
        let frames = check_conversion::<T>(&job);
        check_other_buffers::<T>(Input::of(&job, &frames), 0);
    }
    let pattern = [A, A, C, A, A];
    let listing = [6, 6, 256, 6, 6, 6, 256, 6, 6];
    let text = [A, A, C, A, A, A, C, A, A];
    assert_eq!(restored::<T>(2, &pattern, &listing), Ok(text.to_vec()));
    assert_eq!(restored::<T>(3, &[A; 4], &[256; 6]), Ok(vec![A; 6]));
    assert_eq!(restored::<T>(1, &[A, A], &[256]), Ok(vec![A]));
    // The hold of the occurrence over the seam.
    let over_the_seam = [256, 6, 6];
    assert_eq!(restored::<T>(1, &[A, C], &over_the_seam), Ok(vec![C, A, A]));
    // An occurrence without its hold, a hold without its occurrence, a number that is no frame.
    for (position, frame) in [
        (2, 0x18),
        (6, 0x18),
        (0, 256),
        (8, 256),
        (2, 257),
        (0, 0x106),
    ] {
        let mut frames = listing;
        frames[position] = frame;
        assert_eq!(restored::<T>(2, &pattern, &frames), Err(no_conversion()));
        check_other_buffers::<T>(Input::new(2, &pattern, &frames), 9);
    }
}

pub fn conversions_of_all_short_texts<T: RestoreCalls>() {
    for (pattern, text) in searches::all_short() {
        for hold in 0..pattern.len() {
            check_conversion::<T>(&Job {
                pattern: pattern.clone(),
                hold,
                text: text.clone(),
            });
        }
    }
}

pub fn conversions_of_generated_texts<T: RestoreCalls>() {
    for job in searches::jobs() {
        let frames = check_conversion::<T>(&job);
        if frames.len() <= 60 {
            check_other_buffers::<T>(Input::of(&job, &frames), 0);
        }
    }
}

/// All hold offsets of a short pattern; of a long one the outermost and one in the middle.
fn some_holds(m: usize) -> impl Iterator<Item = usize> {
    (0..m).filter(move |&hold| m < 20 || hold < 2 || hold == m / 2 || hold >= m - 2)
}

/// The frames of a job with these holds and no others are put back to its text. They are refused with
/// a hold made a move, and with a move made a hold where that is the same byte.
fn check_holds<T: RestoreCalls>(job: &Job, holds: &BTreeSet<usize>) {
    let moves: Vec<u16> = job.text.iter().map(|&byte| byte.into()).collect();
    let mut frames = moves.clone();
    for &position in holds {
        frames[position] = HOLD;
    }
    let outcome = check::<T>(Input::of(job, &frames), frames.len());
    assert_eq!(outcome.answer, Answer::default(), "{job:?}");
    assert_eq!(outcome.text, job.text);
    let held = u16::from(job.pattern[job.hold]);
    for position in 0..frames.len() {
        let frame = frames[position];
        frames[position] = if frame == HOLD { moves[position] } else { HOLD };
        let status = status::<T>(Input::of(job, &frames));
        assert!(
            moves[position] != held || status == 9,
            "{job:?}, {position}"
        );
        frames[position] = frame;
    }
}

/// One occurrence, laid at each position of a ring: its hold is q positions on, counted round.
pub fn holds_around_the_seam<T: RestoreCalls>() {
    for m in [1, 2, 3, 16, 128] {
        // It has B only as its last byte, so it does not overlap itself.
        let mut pattern = vec![A; m];
        pattern[m - 1] = B;
        for n in [m, m + 1, 2 * m, 2 * m + 1] {
            let some = |b: &usize| n < 20 || *b < 2 || b + m + 1 >= n && b % 31 < 2;
            for b in (0..n).filter(some) {
                let mut text = vec![C; n];
                for (j, &byte) in pattern.iter().enumerate() {
                    text[(b + j) % n] = byte;
                }
                for hold in some_holds(m) {
                    let job = Job {
                        pattern: pattern.clone(),
                        hold,
                        text: text.clone(),
                    };
                    check_holds::<T>(&job, &BTreeSet::from([(b + hold) % n]));
                }
            }
        }
    }
}

/// Rings that the pattern goes round more than once, begun anywhere: one hold, on the byte that is the
/// pattern's own at the hold offset. With another byte in the ring any moves are a conversion, and no
/// hold is.
pub fn texts_shorter_than_the_pattern<T: RestoreCalls>() {
    for m in [2, 3, 5, 17, 128] {
        for n in (1..m).filter(|n| *n < 4 || n + 3 >= m || n % 21 == 0) {
            let ring: Vec<u8> = (0..n as u8).collect();
            for b in (0..n).filter(|b| *b < 3 || b + 2 >= n) {
                let pattern: Vec<u8> = ring.iter().copied().cycle().skip(b).take(m).collect();
                for hold in some_holds(m) {
                    let mut job = Job {
                        pattern: pattern.clone(),
                        hold,
                        text: ring.clone(),
                    };
                    check_holds::<T>(&job, &BTreeSet::from([(b + hold) % n]));
                    job.text[n / 2] = 0xFF;
                    check_holds::<T>(&job, &BTreeSet::new());
                }
            }
        }
    }
}

/// A hold for every byte, and not one less.
pub fn one_byte_throughout<T: RestoreCalls>() {
    for m in [1, 2, 3, 64, 127, 128] {
        for n in [1, 2, 63, 64, 65, 127, 128, 129, 300] {
            for hold in some_holds(m) {
                let job = Job {
                    pattern: vec![A; m],
                    hold,
                    text: vec![A; n],
                };
                check_holds::<T>(&job, &(0..n).collect());
                let moves = vec![MOVE_A; n];
                assert_eq!(status::<T>(Input::of(&job, &moves)), 9);
            }
        }
    }
    let job = |m: usize, hold: usize| Job {
        pattern: vec![A; m],
        hold,
        text: vec![A; 16_384],
    };
    for (m, hold) in [(1, 0), (2, 0), (2, 1), (128, 0), (128, 64), (128, 127)] {
        let frames = check_conversion::<T>(&job(m, hold));
        assert_eq!(frames, [HOLD; 16_384]);
    }
}

/// Short rings with each frame changed in turn, and the largest around their seam.
pub fn rings_with_one_frame_changed<T: RestoreCalls>() {
    let mut tally = Tally::default();
    let mut check = |round: usize, (pattern, text): Pair, positions: &[usize]| {
        let hold = [0, pattern.len() - 1, round / 3 % pattern.len()][round % 3];
        let job = Job {
            pattern,
            hold,
            text,
        };
        check_changed::<T>(&job, positions, &mut tally);
    };
    for (round, pair) in rings::short().enumerate() {
        let positions: Vec<usize> = (0..pair.1.len()).skip(round % 3).step_by(3).collect();
        check(round, pair, &positions);
    }
    for (round, pair) in rings::largest().step_by(5).enumerate() {
        let n = pair.1.len();
        check(round, pair, &[0, 1, 64, n - 64, n - 1]);
    }
    tally.expect_both(5_000);
}

/// Where a hold is due, also one over the seam, only a hold or a byte other than the pattern's is taken;
/// where none is, any byte. Nothing above 256 is taken.
pub fn every_number_as_a_frame<T: RestoreCalls>() {
    let expect = |frame: u16, hold: usize, pattern: &[u8], frames: &[u16], due: Option<u8>| {
        let taken = match due {
            Some(byte) => frame <= HOLD && frame != u16::from(byte),
            None => frame < HOLD,
        };
        let outcome = restored::<T>(hold, pattern, frames);
        assert_eq!(outcome.is_ok(), taken, "frame {frame}");
        assert!(taken || outcome == Err(no_conversion()));
    };
    for frame in 0..=u16::MAX {
        expect(frame, 0, &[A], &[frame], Some(A));
        expect(frame, 0, &[A, C], &[frame, MOVE_C], Some(A));
        expect(frame, 1, &[A, C], &[MOVE_A, frame], Some(C));
        expect(frame, 0, &[A, C], &[MOVE_C, frame], Some(A));
        expect(frame, 1, &[A, C], &[frame, MOVE_B, MOVE_A], Some(C));
        expect(frame, 4, &[A, C, A, C, A], &[frame, MOVE_C], Some(A));
        expect(frame, 0, &[A, C], &[frame, MOVE_B], None);
        expect(frame, 1, &[A, C], &[MOVE_C, frame, MOVE_B], None);
        expect(frame, 1, &[A, C], &[MOVE_B, MOVE_B, frame], None);
        expect(frame, 0, &[A, C], &[MOVE_B, MOVE_B, frame], None);
    }
}

/// Each byte as one that occurs in the pattern and the text, and as one that only the text has.
pub fn every_byte_in_every_role<T: RestoreCalls>() {
    let all: Vec<u8> = (0..=255).collect();
    let check_all = |pattern: &[u8], text: &[u8]| {
        for hold in some_holds(pattern.len()) {
            check_conversion::<T>(&Job {
                pattern: pattern.to_vec(),
                hold,
                text: text.to_vec(),
            });
        }
    };
    for &byte in &all {
        let other = byte ^ 0x81;
        check_all(&[byte], &all);
        check_all(&[byte, other], &[byte, other, other, byte, byte, other]);
        let text = [byte, other, byte, byte, other, byte, 0x55, byte, other];
        check_all(&[other, byte, byte], &text);
    }
    for half in all.chunks(128) {
        check_all(half, &all);
    }
}

/// Every pattern over two bytes and every hold offset of it, with frames over some numbers: with each
/// of three bytes, holds and 257, and longer ones with the pattern's bytes and holds.
pub fn all_short_frames<T: RestoreCalls>() {
    let numbers = [MOVE_A, MOVE_C, MOVE_B, HOLD, HOLD + 1];
    let mut seen = BTreeSet::new();
    let mut check_all = |pattern: &[u8], frames: &[u16]| {
        for hold in 0..pattern.len() {
            seen.insert(status::<T>(Input::new(hold as u32, pattern, frames)));
        }
    };
    for pattern in words(&[A, C], 1..4) {
        for frames in words(&numbers, 0..6) {
            check_all(&pattern, &frames);
        }
    }
    for pattern in words(&[A, C], 1..5) {
        for frames in words(&[MOVE_A, MOVE_C, HOLD], 6..8) {
            check_all(&pattern, &frames);
        }
    }
    assert!(seen.iter().eq(&[0, 9]), "{seen:?}");
}

/// Done, with the text that converts to the frames, where there is one; refused by 9 where there is
/// none. All texts over three bytes are converted, of which the pattern has two. A text with another
/// byte converts to frames with another move, so the frames tried here have no other text.
pub fn done_just_where_some_text_converts<T: RestoreCalls>() {
    for pattern in words(&[A, C], 1..5) {
        for hold in 0..pattern.len() {
            for n in 0..6 {
                let texts: BTreeMap<Vec<u16>, Vec<u8>> = words(&[A, B, C], n..n + 1)
                    .map(|text| (convert::frames(&pattern, hold, &text), text))
                    .collect();
                // No two texts have the same frames.
                assert_eq!(texts.len(), 3_usize.pow(n as u32));
                for frames in words(&[MOVE_A, MOVE_B, MOVE_C, HOLD], n..n + 1) {
                    let expected = texts.get(&frames).cloned().ok_or(no_conversion());
                    let outcome = restored::<T>(hold, &pattern, &frames);
                    assert_eq!(outcome, expected, "{pattern:?}, q {hold}, {frames:?}");
                }
            }
        }
    }
}

/// What a frame is changed to: a hold, the pattern's byte at the hold offset and at both ends, other
/// bytes, and numbers that are no frame though some of their bits would be one.
fn other_frames(job: &Job, frame: u16) -> BTreeSet<u16> {
    let byte = frame & 0xFF;
    let pattern = &job.pattern;
    let of_pattern = [pattern[job.hold], pattern[0], pattern[pattern.len() - 1]].map(u16::from);
    let bytes = [0, byte, byte ^ 1, byte ^ 0x80, 255];
    let above = [
        257,
        HOLD + byte,
        HOLD + of_pattern[0],
        511,
        512,
        512 + byte,
        0x8000 + byte,
        0xFF00 + byte,
        u16::MAX,
    ];
    let mut all: BTreeSet<u16> = [&[HOLD], &of_pattern[..], &bytes, &above]
        .concat()
        .into_iter()
        .collect();
    all.remove(&frame);
    all
}

/// How often frames were refused and taken.
#[derive(Default)]
struct Tally {
    refused: usize,
    taken: usize,
}

impl Tally {
    /// Counts a status, which is 0 or 9.
    fn count(&mut self, status: u32) {
        match status {
            0 => self.taken += 1,
            9 => self.refused += 1,
            other => panic!("status {other}"),
        }
    }

    fn expect_both(&self, least: usize) {
        let Tally { refused, taken } = self;
        let enough = *refused >= least && *taken >= least;
        assert!(enough, "{refused} refused, {taken} taken");
    }
}

/// A job's frames with each of these positions changed in turn to every other kind of frame.
fn check_changed<T: RestoreCalls>(job: &Job, positions: &[usize], tally: &mut Tally) {
    let mut frames = frames_of(job);
    for &position in positions {
        let frame = frames[position];
        for other in other_frames(job, frame) {
            frames[position] = other;
            let status = status::<T>(Input::of(job, &frames));
            assert!(other <= HOLD || status == 9);
            tally.count(status);
        }
        frames[position] = frame;
    }
}

/// Positions of a job's frames at which a change may be missed: both ends, around the hold of an
/// occurrence at either end and just over the seam, around the first and the last hold, and some at
/// random.
fn notable_positions(random: &mut Random, job: &Job) -> Vec<usize> {
    let (m, n, q) = (job.pattern.len(), job.text.len(), job.hold);
    let holds: BTreeSet<usize> = convert::holds(&job.pattern, q, &job.text)
        .into_iter()
        .collect();
    let mut around = vec![0, q, (n + q).saturating_sub(m), n.saturating_sub(1)];
    around.extend(holds.first());
    around.extend(holds.last());
    let mut positions: BTreeSet<usize> = around
        .into_iter()
        .flat_map(|position| position.saturating_sub(1)..position + 2)
        .collect();
    positions.extend((0..4).map(|_| random.below(n.max(1))));
    positions
        .into_iter()
        .filter(|&position| position < n)
        .collect()
}

pub fn short_conversions_with_one_frame_changed<T: RestoreCalls>() {
    let mut random = Random::seeded(123);
    let mut tally = Tally::default();
    for round in 0..600 {
        let (m, n) = (random.between(1, 8), random.between(0, 36));
        let job = SHAPES[round % SHAPES.len()].job(&mut random, m, n);
        let positions: Vec<usize> = (0..n).collect();
        check_changed::<T>(&job, &positions, &mut tally);
    }
    tally.expect_both(20_000);
}

pub fn longer_conversions_with_one_frame_changed<T: RestoreCalls>() {
    let mut random = Random::seeded(124);
    let mut tally = Tally::default();
    let jobs = searches::jobs().filter(|job| (61..2_001).contains(&job.text.len()));
    for job in jobs {
        let positions = notable_positions(&mut random, &job);
        check_changed::<T>(&job, &positions, &mut tally);
    }
    tally.expect_both(4_000);
}

pub fn largest_conversions_with_one_frame_changed<T: RestoreCalls>() {
    let mut random = Random::seeded(125);
    let mut tally = Tally::default();
    for shape in SHAPES {
        for m in [2, 128] {
            let job = shape.job(&mut random, m, 16_384);
            let before_the_seam = 16_384 - m + job.hold;
            let positions = [job.hold, before_the_seam, 16_383, random.below(16_384)];
            check_changed::<T>(&job, &positions, &mut tally);
        }
    }
    tally.expect_both(100);
}

/// Two frames that stand side by side exchanged, one frame left out, and one there twice.
pub fn holds_and_bytes_moved<T: RestoreCalls>() {
    let mut random = Random::seeded(126);
    let mut tally = Tally::default();
    for round in 0..600 {
        let (m, n) = (random.between(1, 8), random.between(1, 40));
        let job = SHAPES[round % SHAPES.len()].job(&mut random, m, n);
        let frames = frames_of(&job);
        for position in 0..n {
            let mut exchanged = frames.clone();
            exchanged.swap(position, (position + 1) % n);
            let mut shorter = frames.clone();
            shorter.remove(position);
            let mut longer = frames.clone();
            longer.insert(position, frames[position]);
            for changed in [exchanged, shorter, longer] {
                tally.count(status::<T>(Input::of(&job, &changed)));
            }
        }
    }
    tally.expect_both(1_000);
}

/// Hold offsets below m are taken; m, and such as would fit if some of their bits were dropped, are
/// not, whatever the frames.
pub fn every_hold_offset<T: RestoreCalls>() {
    let mut random = Random::seeded(127);
    for m in [1_u32, 2, 3, 13, 127, 128] {
        let mut job = Shape::Planted.job(&mut random, m as usize, 4 * m as usize);
        for hold in 0..m as usize {
            job.hold = hold;
            check_conversion::<T>(&job);
        }
        for hold in [
            m,
            m + 1,
            127.max(m),
            128,
            255,
            256,
            0x1_0000,
            0x7FFF_FFFF,
            0x8000_0000,
            u32::MAX - 1,
            u32::MAX,
        ] {
            job.hold = (hold & 0x7F).min(m - 1) as usize;
            let frames = frames_of(&job);
            assert_eq!(status::<T>(Input::new(hold, &job.pattern, &frames)), 5);
        }
    }
}

pub fn buffers_around_the_needed_length<T: RestoreCalls>() {
    let mut random = Random::seeded(128);
    for n in 0..70 {
        let m = random.between(1, 5);
        let job = Shape::Planted.job(&mut random, m, n);
        let frames = frames_of(&job);
        let mut spoiled = frames.clone();
        if let Some(last) = spoiled.last_mut() {
            *last = HOLD + 1;
        }
        for length in 0..n + 9 {
            let status = |frames: &[u16]| check::<T>(Input::of(&job, frames), length).answer.status;
            assert_eq!(status(&frames), if length < n { 7 } else { 0 });
            if n > 0 {
                assert_eq!(status(&spoiled), if length < n { 7 } else { 9 });
            }
        }
    }
}

/// m at 0, 128, 129 and beyond, q at m - 1 and m, n at 16,384, 16,385 and beyond, with frames that are
/// a conversion and with such as are none.
pub fn refusals_at_their_edges<T: RestoreCalls>() {
    let pattern = vec![A; 65_537];
    let moves = vec![MOVE_C; 81_920];
    for m in [0_usize, 1, 2, 127, 128, 129, 256, 257, 65_536, 65_537] {
        for n in [0, 1, 16_384, 16_385, 32_768, 65_536, 65_537, 81_920] {
            for hold in [0, m.saturating_sub(1) as u32, m as u32, u32::MAX] {
                let refusal = match (m, n) {
                    (0 | 129.., _) => Some(4),
                    _ if hold as usize >= m => Some(5),
                    (_, 16_385..) => Some(6),
                    _ => None,
                };
                let input = Input::new(hold, &pattern[..m], &moves[..n]);
                assert_eq!(status::<T>(input), refusal.unwrap_or(0));
                for frames in spoiled(input.frames) {
                    let input = Input {
                        frames: &frames,
                        ..input
                    };
                    assert_eq!(status::<T>(input), refusal.unwrap_or(9));
                }
            }
        }
    }
}

/// Some moves with one of them made a number that is no frame: the first, and the last.
fn spoiled(moves: &[u16]) -> Vec<Vec<u16>> {
    let mut all = Vec::new();
    for position in [0, moves.len().saturating_sub(1)] {
        for number in [HOLD + 1, u16::MAX] {
            let mut frames = moves.to_vec();
            if let Some(frame) = frames.get_mut(position) {
                *frame = number;
                all.push(frames);
            }
        }
    }
    all
}

/// The faults of a call, in the order in which they are refused.
const ORDER: [u32; 5] = [4, 5, 6, 7, 9];

/// No fault, each alone, each pair and all other choices of them.
pub fn order_of_refusals<T: RestoreCalls>() {
    for choice in 0..1 << ORDER.len() {
        let faults: BTreeSet<u32> = (0..ORDER.len())
            .filter(|&number| choice >> number & 1 == 1)
            .map(|number| ORDER[number])
            .collect();
        check_faults::<T>(&faults);
    }
}

/// Calls with just these faults are refused by the first.
fn check_faults<T: RestoreCalls>(faults: &BTreeSet<u32>) {
    let has = |status: u32| faults.contains(&status);
    let first = faults.first().copied().unwrap_or(0);
    // A pattern of no byte has no hold offset that is taken.
    let pattern_lengths: &[usize] = match (has(4), has(5)) {
        (false, _) => &[1, 2, 128],
        (true, false) => &[129, 257],
        (true, true) => &[0, 129, 257],
    };
    for &m in pattern_lengths {
        let holds = if has(5) { [m, m + 128] } else { [0, m - 1] };
        for n in if has(6) {
            [16_385, 32_768]
        } else {
            [1, 16_384]
        } {
            let moves = vec![MOVE_C; n];
            let lengths = if has(7) {
                vec![n - 1, 0]
            } else {
                vec![n, n + 3]
            };
            let all_frames = if has(9) { spoiled(&moves) } else { vec![moves] };
            for hold in holds {
                for frames in &all_frames {
                    let pattern = vec![A; m];
                    let input = Input::new(hold as u32, &pattern, frames);
                    for &length in &lengths {
                        assert_eq!(check::<T>(input, length).answer.status, first);
                    }
                }
            }
        }
    }
}

/// The buffer goes from call to call with what the call before left in it.
pub fn buffer_left_by_another_call<T: RestoreCalls>() {
    let mut random = Random::seeded(129);
    let length = 65;
    let mut text = Buffer::junk(length, 0);
    let mut expected = text.clone();
    let mut seen = BTreeSet::new();
    for round in 0..3_000 {
        let (m, n) = (random.between(1, 16), random.between(0, 70));
        let job = SHAPES[round % SHAPES.len()].job(&mut random, m, n);
        let mut frames = frames_of(&job);
        if n > 0 && random.below(3) == 0 {
            frames[random.below(n)] = random.pick(&[HOLD, HOLD + 1, MOVE_A]);
        }
        let hold = if random.below(9) == 0 { m } else { job.hold } as u32;
        let input = Input::new(hold, &job.pattern, &frames);
        let outcome = input.model(length);
        let context = || format!("{input} after others");
        let answer = input.call::<T>(text.lent());
        assert_eq!(answer, outcome.answer, "{}", context());
        expected = expected.after(&outcome.text);
        text.expect(&expected, "text", &context);
        seen.insert(answer.status);
    }
    assert!(seen.iter().eq(&[0, 5, 7, 9]), "{seen:?}");
}

/// Lengths of more than 32 bits: none may be taken for what is left of it in 32.
pub fn lengths_beyond_32_bits<T: RestoreCalls>() {
    const BEYOND: usize = 1 << 32;
    let input = Input::new(1, &[A, A], &[MOVE_A, HOLD, HOLD, MOVE_C]);
    let (m, n) = (input.pattern.len(), input.frames.len());
    let status = |input: Input| check::<T>(input, n).answer.status;
    let pattern = reserved(BEYOND + m);
    pattern[..m].copy_from_slice(input.pattern);
    assert_eq!(status(Input { pattern, ..input }), 4);
    let frames = reserved(BEYOND + n);
    frames[..n].copy_from_slice(input.frames);
    assert_eq!(status(Input { frames, ..input }), 6);

    // A buffer of which nothing would be left in 32 bits is longer than needed, and that is fine.
    let expected = input.model(n);
    assert_eq!(expected.answer, Answer::default());
    let text = reserved(BEYOND);
    assert_eq!(input.call::<T>(text), expected.answer);
    expect_front(text, &expected.text);
}

/// Converted and then restored, a text is what it was.
pub fn converted_and_restored<T: RestoreCalls + ConverterCalls>() {
    for job in searches::jobs() {
        let (_, frames) = converted::<T>(&job);
        let text = restored::<T>(job.hold, &job.pattern, &frames);
        assert!(text == Ok(job.text), "q {}, {:?}", job.hold, job.pattern);
    }
}

/// What is restored converts to the frames that were handed in; any other frames are refused by 9.
fn check_restored<T: RestoreCalls + ConverterCalls>(
    hold: usize,
    pattern: &[u8],
    frames: &[u16],
) -> u32 {
    match restored::<T>(hold, pattern, frames) {
        Ok(text) => {
            let job = Job {
                pattern: pattern.to_vec(),
                hold,
                text,
            };
            assert!(converted::<T>(&job).1 == frames, "{job:?}");
            0
        }
        Err(answer) => {
            assert_eq!(answer, no_conversion());
            9
        }
    }
}

/// Frames at random, and frames of jobs with one of them made another byte or a hold.
pub fn restored_and_converted<T: RestoreCalls + ConverterCalls>() {
    let mut random = Random::seeded(130);
    let mut tally = Tally::default();
    for _ in 0..20_000 {
        let (m, n) = (random.between(1, 4), random.between(0, 9));
        let pattern = random.picked(&[A, C], m);
        let frames: Vec<u16> = (0..n)
            .map(|_| random.pick(&[MOVE_A, MOVE_C, HOLD]))
            .collect();
        tally.count(check_restored::<T>(random.below(m), &pattern, &frames));
    }
    for job in searches::jobs() {
        let mut frames = frames_of(&job);
        let of_pattern = u16::from(random.pick(&job.pattern));
        if !frames.is_empty() {
            let position = random.below(frames.len());
            frames[position] = random.pick(&[of_pattern, MOVE_B, HOLD]);
        }
        tally.count(check_restored::<T>(job.hold, &job.pattern, &frames));
    }
    tally.expect_both(2_000);
}
