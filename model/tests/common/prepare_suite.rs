//! Everything that is asked of preparing a pattern, for any implementation of the call. Each call is
//! held to the model: its whole answer, and every entry of every buffer.

use ruffarmoire_model::answers::Answer;
use ruffarmoire_model::calls::{self, Outcome, TableLengths};
use ruffarmoire_model::gen::{Random, Shape, SHAPES};

use super::bounds;
use super::harness::{reserved, shown};
use super::lengths::BufferLengths;
use super::repeats;
use super::table_buffers::{longer, LentTables, TableBuffers};
use super::words::{broken_runs, period, structured_words, words};

/// An implementation of preparing a pattern.
pub trait PrepareCalls {
    fn prepare(pattern: &[u8], tables: LentTables) -> Answer;
}

/// A test program's tests: all of this module on one implementation.
macro_rules! prepare_suite {
    ($calls:ty) => {
        tests_of!(prepare_suite, $calls:
            worked_examples,
            periods,
            all_short_patterns,
            generated_patterns,
            structured_patterns,
            long_repeats,
            every_length,
            longest_patterns,
            every_byte_in_every_role,
            buffers_around_the_needed_lengths,
            refused_lengths,
            tables_left_by_another_pattern,
            lengths_beyond_32_bits,
        );
    };
}

/// Prepares a pattern with buffers of these lengths and holds the outcome to the model.
fn check_prepare<T: PrepareCalls>(pattern: &[u8], lengths: TableLengths) -> Outcome {
    let expected = calls::prepare(pattern, lengths);
    for before in TableBuffers::fillings(pattern.len(), lengths) {
        let mut buffers = before.clone();
        let answer = T::prepare(pattern, buffers.lent());
        let context = || format!("preparing {}, buffers {lengths:?}", shown(pattern));
        assert_eq!(answer, expected.answer, "{}", context());
        buffers.expect(&before.after(&expected), &context);
    }
    expected
}

/// What preparing a pattern with this period answers.
fn answer(period: u32) -> Answer {
    Answer {
        period,
        ..Answer::default()
    }
}

/// A pattern within the limits, with buffers that are exact, longer, and one too short for each.
fn check_pattern<T: PrepareCalls>(pattern: &[u8]) {
    let m = pattern.len();
    let needed = TableLengths::needed(m);
    let exact = check_prepare::<T>(pattern, needed);
    assert_eq!(exact.answer, answer(period(pattern)));
    assert_eq!(check_prepare::<T>(pattern, longer(m)), exact);
    for lengths in needed.one_too_short(needed) {
        assert_eq!(check_prepare::<T>(pattern, lengths).answer.status, 7);
    }
}

pub fn worked_examples<T: PrepareCalls>() {
    const A: u8 = 0x06;
    const B: u8 = 0x01;
    const C: u8 = 0x18;
    let expect = |pattern: &[u8], period: u32, order: &[i16], delta2: &[usize]| {
        check_pattern::<T>(pattern);
        let outcome = check_prepare::<T>(pattern, TableLengths::needed(pattern.len()));
        assert_eq!(outcome.answer, answer(period));
        assert_eq!(outcome.order, order);
        assert_eq!(outcome.delta2, delta2);
    };
    expect(
        &[A, A, C, A, A],
        3,
        &[4, 3, 0, 1, 2, -1],
        &[0, 1, 3, 3, 3, 3],
    );
    expect(
        &[C, B, A, A, A],
        5,
        &[4, 2, 3, 0, 1, -1],
        &[0, 1, 5, 5, 5, 5],
    );
    expect(
        &[C, C, A, A, A, A],
        6,
        &[5, 2, 3, 4, 0, 1, -1],
        &[0, 1, 3, 6, 6, 6, 6],
    );
    expect(
        &[A, C, C, B, C, C],
        6,
        &[5, 4, 3, 0, 1, 2, -1],
        &[0, 1, 3, 6, 6, 6, 6],
    );
    let outcome = check_prepare::<T>(&[A, A, C, A, A], TableLengths::needed(5));
    let shift = |s: usize| outcome.delta1[usize::from(C) * 5 + s - 1];
    assert_eq!([shift(1), shift(2), shift(5)], [2, 5, 2]);
    assert_eq!(outcome.delta3, [0; 5]);
    let repeated = [A, A, C, A, A, C, A, A, C, A, A];
    check_pattern::<T>(&repeated);
    let outcome = check_prepare::<T>(&repeated, TableLengths::needed(11));
    assert_eq!(outcome.answer, answer(3));
    assert_eq!(outcome.delta3, [0, 0, 0, 0, 0, 0, 0, 0, 9, 7, 0]);
}

/// The period, and 0 for all that preparing does not work out.
pub fn periods<T: PrepareCalls>() {
    for search in bounds::written_out() {
        let needed = TableLengths::needed(search.pattern.len());
        let outcome = check_prepare::<T>(&search.pattern, needed);
        assert_eq!(outcome.answer, answer(search.period));
    }
    // Every period of a long pattern: one byte that is not 0, and again a period on.
    for m in [127, 128] {
        for period in 1..=m {
            let pattern: Vec<u8> = (0..m).map(|i| u8::from(i % period == 0)).collect();
            let outcome = check_prepare::<T>(&pattern, TableLengths::needed(m));
            assert_eq!(outcome.answer, answer(period as u32));
        }
    }
}

/// Every pattern of up to 6 bytes over three, and of up to 10 over two.
pub fn all_short_patterns<T: PrepareCalls>() {
    for pattern in words(&[0x06, 0x18, 0x01], 1..7) {
        check_prepare::<T>(&pattern, TableLengths::needed(pattern.len()));
    }
    for pattern in words(&[0x00, 0xFF], 1..11) {
        check_prepare::<T>(&pattern, TableLengths::needed(pattern.len()));
    }
}

pub fn generated_patterns<T: PrepareCalls>() {
    let mut random = Random::seeded(41);
    for round in 0..600 {
        let m = random.between(1, if round % 6 == 0 { 60 } else { 16 });
        let (pattern, _) = SHAPES[round % SHAPES.len()].pattern_and_text(&mut random, m, 0);
        check_pattern::<T>(&pattern);
    }
}

/// Patterns that repeat themselves on many scales.
pub fn structured_patterns<T: PrepareCalls>() {
    let mut random = Random::seeded(42);
    for word in structured_words(300) {
        for _ in 0..12 {
            let m = random.between(1, 48);
            let from = random.below(word.len() - m);
            check_prepare::<T>(&word[from..from + m], TableLengths::needed(m));
        }
    }
}

/// Patterns of every period that has room for three, with all kinds of buffers; and every short one.
pub fn long_repeats<T: PrepareCalls>() {
    for pattern in repeats::patterns().chain(repeats::all_short()) {
        check_pattern::<T>(&pattern);
    }
}

pub fn every_length<T: PrepareCalls>() {
    let mut random = Random::seeded(43);
    for m in 1..=128 {
        let (pattern, _) = SHAPES[m % SHAPES.len()].pattern_and_text(&mut random, m, 0);
        check_prepare::<T>(&pattern, TableLengths::needed(m));
    }
}

pub fn longest_patterns<T: PrepareCalls>() {
    let mut random = Random::seeded(44);
    for m in [127, 128] {
        let needed = TableLengths::needed(m);
        for shape in SHAPES {
            for lengths in [needed, longer(m)] {
                let (pattern, _) = shape.pattern_and_text(&mut random, m, 0);
                check_prepare::<T>(&pattern, lengths);
                for short in lengths.one_too_short(needed) {
                    assert_eq!(check_prepare::<T>(&pattern, short).answer.status, 7);
                }
            }
        }
    }
    // Each byte once; runs with a break.
    let risen: Vec<u8> = (128..=255).collect();
    check_prepare::<T>(&risen, TableLengths::needed(128));
    for pattern in broken_runs(&mut random, 128) {
        check_prepare::<T>(&pattern, TableLengths::needed(128));
    }
    for period in [1, 2, 3, 43, 64, 127] {
        let root = random.bytes(period);
        let pattern: Vec<u8> = root.iter().copied().cycle().take(128).collect();
        check_prepare::<T>(&pattern, TableLengths::needed(128));
    }
}

/// Each byte alone, first, last, and twice with another between.
pub fn every_byte_in_every_role<T: PrepareCalls>() {
    for byte in 0..=255 {
        let other = byte ^ 0x81;
        check_prepare::<T>(&[byte], TableLengths::needed(1));
        check_prepare::<T>(&[byte, byte], TableLengths::needed(2));
        check_prepare::<T>(&[byte, other, other], TableLengths::needed(3));
        check_prepare::<T>(&[other, other, byte], TableLengths::needed(3));
        check_prepare::<T>(&[byte, other, byte, other], TableLengths::needed(4));
    }
}

pub fn buffers_around_the_needed_lengths<T: PrepareCalls>() {
    let mut random = Random::seeded(45);
    for m in [1, 2, 5] {
        let (pattern, _) = Shape::FewBytes.pattern_and_text(&mut random, m, 0);
        let needed = TableLengths::needed(m);
        let around = |length: usize| {
            let mut given: Vec<usize> = (0..m + 4).collect();
            given.extend([length - 1, length, length + 1, length + 256]);
            given
        };
        for lengths in needed.choices(around) {
            let status = if lengths.are_enough(needed) { 0 } else { 7 };
            assert_eq!(check_prepare::<T>(&pattern, lengths).answer.status, status);
        }
    }
}

/// Patterns of no byte and of more than 128, whatever the buffers.
pub fn refused_lengths<T: PrepareCalls>() {
    let mut random = Random::seeded(46);
    let enough = TableLengths::needed(128);
    let none = enough.changed(|_| 0);
    for m in [0, 129, 130, 255, 256, 257, 384, 65_536, 65_537, 65_664] {
        let pattern = random.bytes(m);
        for lengths in [none, enough, TableLengths::needed(m % 256)] {
            assert_eq!(check_prepare::<T>(&pattern, lengths).answer.status, 4);
        }
        if m < 400 {
            let lengths = TableLengths::needed(m);
            assert_eq!(check_prepare::<T>(&pattern, lengths).answer.status, 4);
        }
    }
}

/// The buffers go from call to call with what the pattern before left in them.
pub fn tables_left_by_another_pattern<T: PrepareCalls>() {
    let mut random = Random::seeded(47);
    let lengths = longer(24);
    let [mut buffers, _] = TableBuffers::fillings(24, lengths);
    let mut expected = buffers.clone();
    for round in 0..200 {
        let m = random.between(1, 24);
        let (pattern, _) = SHAPES[round % SHAPES.len()].pattern_and_text(&mut random, m, 0);
        let outcome = calls::prepare(&pattern, lengths);
        let answer = T::prepare(&pattern, buffers.lent());
        let context = || format!("preparing {} after others", shown(&pattern));
        assert_eq!(answer, outcome.answer, "{}", context());
        expected = expected.after(&outcome);
        buffers.expect(&expected, &context);
    }
}

/// Lengths of more than 32 bits: none may be taken for what is left of it in 32.
pub fn lengths_beyond_32_bits<T: PrepareCalls>() {
    const BEYOND: usize = 1 << 32;
    let pattern = [0x06, 0x06, 0x18, 0x06, 0x06];
    let m = pattern.len();
    let needed = TableLengths::needed(m);
    let long = reserved(BEYOND + m);
    long[..m].copy_from_slice(&pattern);
    assert_eq!(check_prepare::<T>(long, needed).answer.status, 4);

    // Buffers of which nothing would be left in 32 bits are longer than needed, and that is fine.
    let mut tables = LentTables::reserved(BEYOND);
    let expected = calls::prepare(&pattern, needed);
    assert_eq!(T::prepare(&pattern, tables.lent()), expected.answer);
    tables.expect_front(&expected);
}
