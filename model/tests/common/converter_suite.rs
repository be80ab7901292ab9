//! Everything that is asked of converting and of counting ones, for any implementation of the two
//! calls.

use std::marker::PhantomData;

use ruffarmoire_model::answers::Answer;
use ruffarmoire_model::calls::{self, Outcome, TableLengths};
use ruffarmoire_model::convert::HOLD;
use ruffarmoire_model::gen::{Random, SHAPES};
use ruffarmoire_model::job::Job;

use super::examples::example_jobs;
use super::harness::{reserved, shown};
use super::searching::{check_exact, check_examples, Input, Lengths, Lent, SearchingCall};
use super::table_buffers::{LentTables, TableBuffers};

/// An implementation of converting and of counting ones.
pub trait ConverterCalls {
    fn convert(
        hold: u32,
        pattern: &[u8],
        text: &[u8],
        tables: LentTables,
        found: &mut [u16],
        frames: &mut [u16],
    ) -> Answer;

    fn count_ones(text: &[u8]) -> Answer;
}

/// A test program's tests: all of this module on one implementation.
macro_rules! converter_suite {
    ($calls:ty) => {
        searching_tests!(crate::common::converter_suite::Convert<$calls>);
        bound_tests!(crate::common::converter_suite::Convert<$calls>);
        tests_of!(searching, crate::common::converter_suite::Convert<$calls>: every_hold_offset,);
        tests_of!(converter_suite, $calls:
            worked_examples,
            holds_around_the_seam,
            ones_of_short_texts,
            ones_of_every_length,
            ones_begun_anywhere,
            ones_around_a_word,
            ones_of_long_texts,
            ones_at_the_edge,
        );
    };
}

/// Converting as a call that searches.
pub struct Convert<T>(PhantomData<T>);

impl<T: ConverterCalls> SearchingCall for Convert<T> {
    type Answer = Answer;

    const TAKES_HOLD: bool = true;
    const TAKES_FRAMES: bool = true;

    fn call(input: Input, lent: Lent) -> Answer {
        let Input {
            hold,
            pattern,
            text,
        } = input;
        T::convert(hold, pattern, text, lent.tables, lent.found, lent.frames)
    }

    fn model(input: Input, lengths: Lengths) -> (Answer, Outcome) {
        let Input {
            hold,
            pattern,
            text,
        } = input;
        let frames = lengths.frames.expect("it takes frames");
        let outcome = calls::convert(hold, pattern, text, lengths.tables, lengths.found, frames);
        (outcome.answer, outcome)
    }
}

/// The answer of a conversion of a job within the limits, and its frames.
pub fn converted<T: ConverterCalls>(job: &Job) -> (Answer, Vec<u16>) {
    let (m, n) = (job.pattern.len(), job.text.len());
    let [mut tables, _] = TableBuffers::fillings(m, TableLengths::needed(m));
    let (mut found, mut frames) = (vec![0; n], vec![0; n]);
    let answer = T::convert(
        job.hold as u32,
        &job.pattern,
        &job.text,
        tables.lent(),
        &mut found,
        &mut frames,
    );
    assert_eq!(answer.status, 0);
    (answer, frames)
}

/// Counts ones and holds the answer to the model.
fn check_ones<T: ConverterCalls>(text: &[u8]) -> Answer {
    let expected = calls::count_ones(text);
    assert_eq!(T::count_ones(text), expected, "ones of {}", shown(text));
    expected
}

pub fn worked_examples<T: ConverterCalls>() {
    check_examples::<Convert<T>>();
    for job in example_jobs() {
        check_ones::<T>(&job.text);
    }
    const A: u8 = 0x06;
    const C: u8 = 0x18;
    let listing = [A, A, C, A, A, A, C, A, A];
    let outcome = check_exact::<Convert<T>>(Input::new(2, &[A, A, C, A, A], &listing));
    let expected = Answer {
        status: 0,
        occurrences: 2,
        comparisons: 13,
        ones: 18,
        period: 3,
        bound: 21,
    };
    assert_eq!(outcome.answer, expected);
    assert_eq!(outcome.frames, [6, 6, 256, 6, 6, 6, 256, 6, 6]);
    // Holds marked in the text while searching would hide the occurrences after the first.
    let outcome = check_exact::<Convert<T>>(Input::new(1, &[A; 2], &[A, A, A, C]));
    assert_eq!(outcome.frames, [6, 256, 256, 0x18]);
    let outcome = check_exact::<Convert<T>>(Input::new(3, &[A; 4], &[A; 6]));
    assert_eq!(outcome.frames, [256; 6]);
    // The hold goes round with the pattern.
    let outcome = check_exact::<Convert<T>>(Input::new(1, &[A, C], &[C, A, A]));
    assert_eq!(
        (outcome.occurrences, outcome.frames),
        (vec![2], vec![256, 6, 6])
    );
    let outcome = check_exact::<Convert<T>>(Input::new(4, &[A, C, A, C, A], &[A, C]));
    assert_eq!(
        (outcome.occurrences, outcome.frames),
        (vec![0], vec![256, 0x18])
    );
    // Rings that differ only where no comparison is made have the same occurrences and holds.
    for text in [[A, A, C], [0x01, A, C]] {
        let outcome = check_exact::<Convert<T>>(Input::new(1, &[A, C], &text));
        assert_eq!(
            (outcome.answer.comparisons, outcome.occurrences),
            (3, vec![1])
        );
        assert_eq!(outcome.frames, [text[0].into(), 6, 256]);
    }
    assert_eq!(check_ones::<T>(&[0xFF, 0x00]).ones, 8);
    // More ones than 16 bits hold.
    let text = [0xFF; 8_192];
    assert_eq!(check_ones::<T>(&text).ones, 65_536);
    let outcome = check_exact::<Convert<T>>(Input::new(0, &[A], &text));
    assert_eq!(outcome.answer.ones, 65_536);
}

/// A conversion with one hold, at this position.
fn expect_one_hold<T: ConverterCalls>(pattern: &[u8], hold: usize, text: &[u8], position: usize) {
    let mut expected: Vec<u16> = text.iter().map(|&byte| byte.into()).collect();
    expected[position] = HOLD;
    let job = Job {
        pattern: pattern.to_vec(),
        hold,
        text: text.to_vec(),
    };
    let (answer, frames) = converted::<T>(&job);
    assert_eq!((answer.occurrences, frames), (1, expected), "{job:?}");
}

/// One occurrence with each hold offset, laid at each position of rings of every length from the
/// pattern's to three times that: its hold is q positions on, counted round. And a pattern that goes
/// round its ring more than once, which has its hold on the byte that is its own at the hold offset.
pub fn holds_around_the_seam<T: ConverterCalls>() {
    for m in [1, 2, 3, 7] {
        let pattern: Vec<u8> = (1..=m as u8).collect();
        for n in m..=3 * m {
            for b in 0..n {
                let mut text = vec![0xE7; n];
                for (j, &byte) in pattern.iter().enumerate() {
                    text[(b + j) % n] = byte;
                }
                for hold in 0..m {
                    let x = b + hold;
                    let position = if x < n { x } else { x - n };
                    expect_one_hold::<T>(&pattern, hold, &text, position);
                }
            }
        }
    }
    for n in 1..9 {
        let text: Vec<u8> = (0..n as u8).collect();
        for (m, b) in (n + 1..4 * n + 2).flat_map(|m| (0..n).map(move |b| (m, b))) {
            let pattern: Vec<u8> = text.iter().copied().cycle().skip(b).take(m).collect();
            for hold in 0..m {
                expect_one_hold::<T>(&pattern, hold, &text, pattern[hold].into());
            }
        }
    }
}

pub fn ones_of_short_texts<T: ConverterCalls>() {
    let mut random = Random::seeded(76);
    check_ones::<T>(&[]);
    for first in 0..=255 {
        check_ones::<T>(&[first]);
        check_ones::<T>(&[first; 9]);
        for second in 0..=255 {
            check_ones::<T>(&[first, second]);
        }
    }
    for length in 0..200 {
        check_ones::<T>(&random.bytes(length));
        check_ones::<T>(&vec![0xFF; length]);
        // One byte that is not 0, at each position.
        let mut text = vec![0; length];
        for position in 0..length {
            text[position] = 1 << (position % 8);
            assert_eq!(check_ones::<T>(&text).ones, 1);
            text[position] = 0;
        }
    }
}

pub fn ones_of_every_length<T: ConverterCalls>() {
    let bytes = Random::seeded(79).bytes(16_384 + 7);
    for length in 0..=16_384 {
        // Each number of words is begun at another position of a word, with every rest.
        check_ones::<T>(&bytes[length / 8 % 8..][..length]);
    }
}

/// Short texts that begin at every position of a memory line.
pub fn ones_begun_anywhere<T: ConverterCalls>() {
    let bytes = Random::seeded(80).bytes(64 + 160);
    for start in 0..64 {
        for length in 0..=160 {
            check_ones::<T>(&bytes[start..][..length]);
        }
    }
}

/// One byte unlike all others, at each position around the end of the last word.
pub fn ones_around_a_word<T: ConverterCalls>() {
    for words in [
        0_usize, 1, 2, 3, 31, 32, 33, 255, 256, 1_024, 2_046, 2_047, 2_048,
    ] {
        for length in (8 * words..=8 * words + 7).filter(|&length| length <= 16_384) {
            for position in (8 * words).saturating_sub(9)..length {
                for (byte, others) in [(0x00, 0xFF), (0xFF, 0x00), (0x80, 0x01), (0x01, 0x80)] {
                    let mut text = vec![others; length];
                    text[position] = byte;
                    check_ones::<T>(&text);
                }
            }
        }
    }
}

pub fn ones_of_long_texts<T: ConverterCalls>() {
    let mut random = Random::seeded(77);
    for round in 0..300 {
        let length = random.between(0, 16_384);
        let (_, text) = SHAPES[round % SHAPES.len()].pattern_and_text(&mut random, 3, length);
        // Begun at any position of a word.
        check_ones::<T>(&text[(round % 8).min(length)..]);
    }
}

pub fn ones_at_the_edge<T: ConverterCalls>() {
    assert_eq!(check_ones::<T>(&[0xFF; 16_384]).ones, 131_072);
    assert_eq!(check_ones::<T>(&[0x00; 16_384]), Answer::default());
    let bytes = Random::seeded(78).bytes(81_920);
    for n in [16_383, 16_384] {
        assert_eq!(check_ones::<T>(&bytes[..n]).status, 0);
    }
    for n in [16_385, 16_386, 32_768, 65_535, 65_536, 65_537, 81_920] {
        assert_eq!(check_ones::<T>(&bytes[..n]).status, 6);
    }
    // None may be taken for what is left of its length in 32 bits.
    assert_eq!(check_ones::<T>(reserved((1 << 32) + 4)).status, 6);
}
