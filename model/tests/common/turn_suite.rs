//! Everything that is asked of turning a job, for any implementation of the call. Each call is held
//! to the model: its whole answer, and every entry of both buffers. What is promised of turned jobs
//! is asked of the implementation's own calls.

use std::collections::BTreeSet;
use std::fmt::{self, Display, Formatter};

use ruffarmoire_model::answers::{Answer, TurnAnswer};
use ruffarmoire_model::calls::{self, TableLengths, TurnOutcome};
use ruffarmoire_model::gen::{Random, Shape, SHAPES};
use ruffarmoire_model::job::Job;
use ruffarmoire_model::turn::{turned_frames, WAYS};

use super::converter_suite::{converted, ConverterCalls};
use super::examples::example_jobs;
use super::harness::{expect_front, reserved, shown, Buffer};
use super::lengths::BufferLengths;
use super::matcher_suite::MatcherCalls;
use super::searches;
use super::table_buffers::TableBuffers;

/// An implementation of turning a job.
pub trait TurnCalls {
    fn turn(
        way: u32,
        hold: u32,
        pattern: &[u8],
        text: &[u8],
        turned_pattern: &mut [u8],
        turned_text: &mut [u8],
    ) -> TurnAnswer;
}

/// A test program's tests: all of this module on one implementation, which also searches and
/// converts.
macro_rules! turn_suite {
    ($calls:ty) => {
        tests_of!(turn_suite, $calls:
            worked_examples,
            generated_jobs,
            largest_jobs,
            every_length,
            every_byte_in_every_role,
            every_hold_offset,
            ways_above_3,
            buffers_around_the_needed_lengths,
            refusals_at_their_edges,
            order_of_refusals,
            buffers_left_by_another_call,
            lengths_beyond_32_bits,
            the_same_turn_twice,
            occurrences_of_turned_jobs,
            frames_of_turned_jobs,
        );
    };
}

/// What the call is handed beside its buffers.
#[derive(Clone, Copy)]
struct Input<'a> {
    way: u32,
    hold: u32,
    pattern: &'a [u8],
    text: &'a [u8],
}

impl<'a> Input<'a> {
    fn new(way: u32, hold: u32, pattern: &'a [u8], text: &'a [u8]) -> Input<'a> {
        Input {
            way,
            hold,
            pattern,
            text,
        }
    }

    fn of(way: u32, job: &'a Job) -> Input<'a> {
        Input::new(way, job.hold as u32, &job.pattern, &job.text)
    }

    /// The lengths that its buffers need.
    fn needed(self) -> Lengths {
        Lengths {
            pattern: self.pattern.len(),
            text: self.text.len(),
        }
    }

    fn model(self, lengths: Lengths) -> TurnOutcome {
        let Lengths { pattern, text } = lengths;
        calls::turn(self.way, self.hold, self.pattern, self.text, pattern, text)
    }

    fn call<T: TurnCalls>(self, pattern: &mut [u8], text: &mut [u8]) -> TurnAnswer {
        T::turn(self.way, self.hold, self.pattern, self.text, pattern, text)
    }
}

impl Display for Input<'_> {
    fn fmt(&self, formatter: &mut Formatter) -> fmt::Result {
        let Input { way, hold, .. } = self;
        let (pattern, text) = (shown(self.pattern), shown(self.text));
        write!(
            formatter,
            "way {way}, q {hold}, pattern {pattern}, text {text}"
        )
    }
}

/// The lengths of the buffers for the turned pattern and the turned text.
#[derive(Clone, Copy, Debug)]
struct Lengths {
    pattern: usize,
    text: usize,
}

impl BufferLengths for Lengths {
    fn each(&mut self) -> Vec<&mut usize> {
        vec![&mut self.pattern, &mut self.text]
    }
}

/// Lengths for which each buffer alone is one too short, and for which both have no entry.
fn too_short(needed: Lengths) -> Vec<Lengths> {
    let mut lengths = needed.one_too_short(needed);
    lengths.push(needed.changed(|_| 0));
    lengths
}

/// The caller's buffers.
#[derive(Clone)]
struct Buffers {
    pattern: Buffer<u8>,
    text: Buffer<u8>,
}

impl Buffers {
    fn junk(lengths: Lengths, seed: usize) -> Buffers {
        Buffers {
            pattern: Buffer::junk(lengths.pattern, seed),
            text: Buffer::junk(lengths.text, seed + 7),
        }
    }

    /// The answer of a call that is lent these.
    fn lend<T: TurnCalls>(&mut self, input: Input) -> TurnAnswer {
        input.call::<T>(self.pattern.lent(), self.text.lent())
    }

    /// The buffers after a call with this outcome.
    fn after(self, outcome: &TurnOutcome) -> Buffers {
        Buffers {
            pattern: self.pattern.after(&outcome.turned_pattern),
            text: self.text.after(&outcome.turned_text),
        }
    }

    fn expect(&self, expected: &Buffers, context: &dyn Fn() -> String) {
        self.pattern
            .expect(&expected.pattern, "turned pattern", context);
        self.text.expect(&expected.text, "turned text", context);
    }
}

/// Turns with buffers of these lengths, holds what comes of it to the model, and gives the status.
fn check<T: TurnCalls>(input: Input, lengths: Lengths) -> u32 {
    let expected = input.model(lengths);
    let context = || format!("{input}, buffers {lengths:?}");
    // Two fillings of the buffers: an entry that is left by chance as it should be is seen in one.
    for seed in [input.text.len(), input.text.len() + 101] {
        let before = Buffers::junk(lengths, seed);
        let mut buffers = before.clone();
        let answer = buffers.lend::<T>(input);
        assert_eq!(answer, expected.answer, "{}", context());
        buffers.expect(&before.after(&expected), &context);
    }
    expected.answer.answer.status
}

/// A job within the limits, turned in each way with buffers that are exact, longer, and one too
/// short for each.
fn check_job<T: TurnCalls>(job: &Job) {
    for way in 0..4 {
        let input = Input::of(way, job);
        let needed = input.needed();
        let longer = needed.changed(|length| length + 1 + length % 9);
        assert_eq!(check::<T>(input, needed), 0);
        assert_eq!(check::<T>(input, longer), 0);
        for short in too_short(needed) {
            assert_eq!(check::<T>(input, short), 7);
        }
        for short in longer.one_too_short(needed) {
            assert_eq!(check::<T>(input, short), 7);
        }
    }
}

/// The job that a call gives for one within the limits.
fn turned<T: TurnCalls>(way: u32, job: &Job) -> Job {
    let (mut pattern, mut text) = (vec![0; job.pattern.len()], vec![0; job.text.len()]);
    let answer = Input::of(way, job).call::<T>(&mut pattern, &mut text);
    assert_eq!(answer.answer, Answer::default());
    Job {
        pattern,
        hold: answer.q as usize,
        text,
    }
}

pub fn worked_examples<T: TurnCalls>() {
    for job in example_jobs() {
        check_job::<T>(&job);
    }
    let job = |pattern: [u8; 3], hold: usize, text: [u8; 3]| Job {
        pattern: pattern.to_vec(),
        hold,
        text: text.to_vec(),
    };
    let jobs = [
        job([0x06, 0x06, 0x18], 0, [0x01, 0x06, 0x18]),
        job([0x60, 0x60, 0x18], 0, [0x80, 0x60, 0x18]),
        job([0x18, 0x06, 0x06], 2, [0x18, 0x06, 0x01]),
        job([0x18, 0x60, 0x60], 2, [0x18, 0x60, 0x80]),
    ];
    for (way, expected) in jobs.iter().enumerate() {
        assert_eq!(turned::<T>(way as u32, &jobs[0]), *expected);
    }
    // A way whose last byte is a way, and q as m in every way.
    let input = Input::new(256, 0, &[0x06], &[0x06]);
    assert_eq!(check::<T>(input, input.needed()), 8);
    for way in 0..4 {
        let input = Input::new(way, 1, &[0x06], &[0x06]);
        assert_eq!(check::<T>(input, input.needed()), 5);
    }
}

pub fn generated_jobs<T: TurnCalls>() {
    let mut random = Random::seeded(111);
    for round in 0..400 {
        let (most_m, most_n) = if round % 4 == 0 { (128, 700) } else { (12, 40) };
        let (m, n) = (random.between(1, most_m), random.between(0, most_n));
        check_job::<T>(&SHAPES[round % SHAPES.len()].job(&mut random, m, n));
    }
}

pub fn largest_jobs<T: TurnCalls>() {
    let mut random = Random::seeded(112);
    for (m, n) in [
        (1, 16_384),
        (2, 16_383),
        (127, 16_383),
        (128, 16_384),
        (128, 0),
    ] {
        for shape in [Shape::AnyBytes, Shape::Planted] {
            check_job::<T>(&shape.job(&mut random, m, n));
        }
    }
}

/// Every length of a pattern, with texts that are empty, shorter, as long and longer; and every
/// length of a text up to some hundred, and around powers of two.
pub fn every_length<T: TurnCalls>() {
    let mut random = Random::seeded(113);
    for m in 1..=128 {
        for n in [0, 1, m - 1, m, m + 1, 3 * m] {
            check_job::<T>(&Shape::AnyBytes.job(&mut random, m, n));
        }
    }
    let around = (9..14).flat_map(|power| (1 << power) - 2..(1 << power) + 3);
    for n in (0..300).chain(around) {
        check_job::<T>(&Shape::AnyBytes.job(&mut random, 3, n));
    }
}

/// Each byte in the pattern and in the text, alone and at each position of eight.
pub fn every_byte_in_every_role<T: TurnCalls>() {
    let all: Vec<u8> = (0..=255).collect();
    for half in all.chunks(128) {
        check_job::<T>(&Job {
            pattern: half.to_vec(),
            hold: 127,
            text: all.clone(),
        });
    }
    for &byte in &all {
        check_job::<T>(&Job {
            pattern: vec![byte],
            hold: 0,
            text: vec![byte ^ 0x5A],
        });
        for position in 0..8 {
            let (mut pattern, mut text) = (vec![0x35; 8], vec![0xA7; 8]);
            pattern[position] = byte;
            text[7 - position] = byte;
            for way in 0..4 {
                let input = Input::new(way, position as u32, &pattern, &text);
                assert_eq!(check::<T>(input, input.needed()), 0);
            }
        }
    }
}

/// Hold offsets below m are taken; m, and such as would fit if some of their bits were dropped, are
/// not.
pub fn every_hold_offset<T: TurnCalls>() {
    let mut random = Random::seeded(114);
    for m in [1, 2, 3, 13, 127, 128] {
        let (pattern, text) = Shape::AnyBytes.pattern_and_text(&mut random, m, 20);
        let m = m as u32;
        for way in 0..4 {
            let status = |hold: u32| {
                let input = Input::new(way, hold, &pattern, &text);
                check::<T>(input, input.needed())
            };
            for hold in 0..m {
                assert_eq!(status(hold), 0);
            }
            for hold in [
                m,
                m + 1,
                127.max(m),
                128,
                255,
                256,
                0x1_0000,
                0x7FFF_FFFF,
                0x8000_0000,
                u32::MAX - 1,
                u32::MAX,
            ] {
                assert_eq!(status(hold), 5);
            }
        }
    }
}

/// 4 and above, and such as would be a way if some of their bits were dropped.
pub fn ways_above_3<T: TurnCalls>() {
    let mut random = Random::seeded(115);
    let ways = (4..70).chain((6..32).flat_map(|bit| (0..4).map(move |way| 1 << bit | way)));
    for way in ways.chain([0x7FFF_FFFF, u32::MAX - 1, u32::MAX]) {
        for (m, n) in [(1, 0), (5, 9), (128, 40)] {
            let job = Shape::AnyBytes.job(&mut random, m, n);
            let input = Input::of(way, &job);
            assert_eq!(check::<T>(input, input.needed()), 8);
        }
    }
}

pub fn buffers_around_the_needed_lengths<T: TurnCalls>() {
    let mut random = Random::seeded(116);
    for (m, n) in [(1, 0), (1, 1), (2, 5), (5, 2), (6, 6)] {
        let job = Shape::AnyBytes.job(&mut random, m, n);
        for way in 0..4 {
            let input = Input::of(way, &job);
            let needed = input.needed();
            for lengths in needed.choices(|_| (0..12).collect()) {
                let status = if lengths.are_enough(needed) { 0 } else { 7 };
                assert_eq!(check::<T>(input, lengths), status);
            }
        }
    }
}

/// The way at 3 and 4, m at 0, 128, 129 and beyond, q at m - 1 and m, n at 16,384, 16,385 and
/// beyond.
pub fn refusals_at_their_edges<T: TurnCalls>() {
    let bytes = Random::seeded(117).bytes(65_536 + 16_384);
    for m in [0_usize, 1, 2, 127, 128, 129, 256, 257, 65_536, 65_537] {
        for n in [0, 1, 16_384, 16_385, 32_768, 65_536, 65_537, 81_920] {
            for hold in [0, m.saturating_sub(1) as u32, m as u32, u32::MAX] {
                for way in [0, 3, 4, u32::MAX] {
                    let input = Input::new(way, hold, &bytes[..m], &bytes[..n]);
                    let status = match (m, n) {
                        _ if way > 3 => 8,
                        (0 | 129.., _) => 4,
                        _ if hold as usize >= m => 5,
                        (_, 16_385..) => 6,
                        _ => 0,
                    };
                    assert_eq!(check::<T>(input, input.needed()), status);
                }
            }
        }
    }
}

/// No fault, each alone, each pair and all other choices of them: 8, 4, 5, 6, 7 is the order.
pub fn order_of_refusals<T: TurnCalls>() {
    const ORDER: [u32; 5] = [8, 4, 5, 6, 7];
    let bytes = Random::seeded(118).bytes(32_768);
    for choice in 0..1 << ORDER.len() {
        let has = |status: u32| {
            let number = ORDER.iter().position(|&other| other == status);
            number.is_some_and(|number| choice >> number & 1 == 1)
        };
        let first = ORDER.into_iter().find(|&status| has(status)).unwrap_or(0);
        let ways: &[u32] = if has(8) {
            &[4, 5, u32::MAX]
        } else {
            &[0, 1, 2, 3]
        };
        // A pattern of no byte has no hold offset that is taken.
        let lengths: &[usize] = match (has(4), has(5)) {
            (false, _) => &[1, 2, 128],
            (true, false) => &[129, 257],
            (true, true) => &[0, 129, 257],
        };
        let text_lengths = if has(6) {
            [16_385, 32_768]
        } else {
            [1, 16_384]
        };
        for &m in lengths {
            let holds = if has(5) {
                [m as u32, u32::MAX]
            } else {
                [0, m as u32 - 1]
            };
            for n in text_lengths {
                for hold in holds {
                    for &way in ways {
                        let input = Input::new(way, hold, &bytes[..m], &bytes[..n]);
                        let needed = input.needed();
                        let buffers = if has(7) {
                            too_short(needed)
                        } else {
                            vec![needed]
                        };
                        for lengths in buffers {
                            assert_eq!(check::<T>(input, lengths), first);
                        }
                    }
                }
            }
        }
    }
}

/// The buffers go from call to call with what the call before left in them.
pub fn buffers_left_by_another_call<T: TurnCalls>() {
    let mut random = Random::seeded(119);
    let lengths = Lengths {
        pattern: 14,
        text: 65,
    };
    let mut buffers = Buffers::junk(lengths, 0);
    let mut expected = buffers.clone();
    for round in 0..2_000 {
        let (m, n) = (random.between(0, 16), random.between(0, 70));
        let (pattern, text) = SHAPES[round % SHAPES.len()].pattern_and_text(&mut random, m, n);
        let (way, hold) = (random.below(5) as u32, random.below(m + 1) as u32);
        let input = Input::new(way, hold, &pattern, &text);
        let outcome = input.model(lengths);
        let context = || format!("{input} after others");
        assert_eq!(buffers.lend::<T>(input), outcome.answer, "{}", context());
        expected = expected.after(&outcome);
        buffers.expect(&expected, &context);
    }
}

/// Lengths of more than 32 bits: none may be taken for what is left of it in 32.
pub fn lengths_beyond_32_bits<T: TurnCalls>() {
    const BEYOND: usize = 1 << 32;
    let input = Input::new(3, 1, &[0x06, 0x06, 0x01], &[0x06, 0x06, 0x06, 0x18]);
    let (m, n) = (input.pattern.len(), input.text.len());
    let needed = input.needed();
    let long = reserved(BEYOND + n);
    long[..m].copy_from_slice(input.pattern);
    let pattern = &long[..BEYOND + m];
    assert_eq!(check::<T>(Input { pattern, ..input }, needed), 4);
    long[..n].copy_from_slice(input.text);
    let text = &*long;
    assert_eq!(check::<T>(Input { text, ..input }, needed), 6);

    // Buffers of which nothing would be left in 32 bits are longer than needed, and that is fine.
    let expected = input.model(needed);
    let (pattern, text) = (reserved(BEYOND), reserved(BEYOND));
    assert_eq!(input.call::<T>(pattern, text), expected.answer);
    expect_front(pattern, &expected.turned_pattern);
    expect_front(text, &expected.turned_text);
}

/// The same turn twice gives back the pattern, the hold offset and the text.
pub fn the_same_turn_twice<T: TurnCalls>() {
    for job in searches::jobs() {
        for way in 0..4 {
            assert_eq!(turned::<T>(way, &turned::<T>(way, &job)), job);
        }
    }
}

/// The occurrences that a search finds.
fn occurrences<T: MatcherCalls>(job: &Job) -> Vec<u16> {
    let (m, n) = (job.pattern.len(), job.text.len());
    let [mut tables, _] = TableBuffers::fillings(m, TableLengths::needed(m));
    let mut found = vec![0; n];
    let answer = T::search(&job.pattern, &job.text, tables.lent(), &mut found);
    assert_eq!(answer.status, 0);
    found.truncate(answer.occurrences as usize);
    found
}

/// Turned alike, a pattern and a text have the same occurrences where the order stays, and where it
/// is reversed (n - m - b) modulo n for each occurrence b, ascending again.
pub fn occurrences_of_turned_jobs<T: TurnCalls + MatcherCalls>() {
    let mut times = 0;
    let mut over_the_seam = 0;
    for job in searches::jobs() {
        let (m, n) = (job.pattern.len() as i32, job.text.len() as i32);
        let found = occurrences::<T>(&job);
        let reversed = |&b: &u16| (n - m - i32::from(b)).rem_euclid(n) as u16;
        let from_the_end: BTreeSet<u16> = found.iter().map(reversed).collect();
        let from_the_end = Vec::from_iter(from_the_end);
        for (way, expected) in [&found, &found, &from_the_end, &from_the_end]
            .into_iter()
            .enumerate()
        {
            let turned = turned::<T>(way as u32, &job);
            assert_eq!(&occurrences::<T>(&turned), expected, "way {way}, {job:?}");
        }
        times += usize::from(found != from_the_end);
        over_the_seam += usize::from(found.iter().any(|&b| i32::from(b) + m > n));
    }
    assert!(times > 1_000, "only {times} jobs with other occurrences");
    assert!(
        over_the_seam > 500,
        "only {over_the_seam} jobs with some over the seam"
    );
}

/// A turned job converts to the turned frames, with as many occurrences and ones, the same period and
/// the same bound, and its text has as many ones when they are counted alone.
pub fn frames_of_turned_jobs<T: TurnCalls + ConverterCalls>() {
    for job in searches::jobs() {
        let (answer, frames) = converted::<T>(&job);
        let counted = T::count_ones(&job.text);
        for (number, way) in WAYS.into_iter().enumerate() {
            let turned = turned::<T>(number as u32, &job);
            let (turned_answer, found) = converted::<T>(&turned);
            assert_eq!(found, turned_frames(way, &frames), "{way:?}, {job:?}");
            let expected = Answer {
                comparisons: turned_answer.comparisons,
                ..answer
            };
            assert_eq!(turned_answer, expected);
            assert_eq!(T::count_ones(&turned.text), counted);
        }
    }
}
