//! What is asked of every call that searches, for any implementation of it. Each call is held to
//! the model: its whole answer, and every entry of every buffer.
//!
//! Such a call takes a pattern and a text, the buffers for the tables and one for the occurrences.
//! Some take a hold offset too, and some a buffer for frames.

use std::collections::BTreeSet;
use std::fmt::{self, Debug, Display, Formatter};

use ruffarmoire_model::answers::Answer;
use ruffarmoire_model::calls::{Outcome, TableLengths};
use ruffarmoire_model::convert;
use ruffarmoire_model::gen::{Random, Shape};
use ruffarmoire_model::ring::{started_later, turned_back};
use ruffarmoire_model::steps::search_with;
use ruffarmoire_model::tables::Tables;

use super::bounds;
use super::examples::example_jobs;
use super::explanations::LastTables;
use super::facts;
use super::harness::{expect_front, reserved, shown, Buffer};
use super::lengths::BufferLengths;
use super::repeats;
use super::rings;
use super::searches::{self, Pair};
use super::table_buffers::{entries, longer, LentTables, TableBuffers};
use super::words::{period, words};

/// A call that searches.
pub trait SearchingCall {
    /// What it answers.
    type Answer: Debug + PartialEq;

    /// Whether it takes a hold offset.
    const TAKES_HOLD: bool;

    /// Whether it takes a buffer for frames.
    const TAKES_FRAMES: bool;

    fn call(input: Input, lent: Lent) -> Self::Answer;

    /// What the model answers, and what it leaves in buffers of these lengths.
    fn model(input: Input, lengths: Lengths) -> (Self::Answer, Outcome);
}

/// The tests of every call that searches.
macro_rules! searching_tests {
    ($call:ty) => {
        tests_of!(searching, $call:
            all_short_texts,
            short_texts,
            longer_texts,
            largest_texts,
            structured_texts,
            texts_about_as_long_as_the_pattern,
            rings_of_every_length,
            longer_rings,
            largest_rings,
            long_repeats_broken_at_every_position,
            long_repeats_that_share_their_ends,
            long_repeats_at_random,
            largest_long_repeats,
            every_byte_in_every_role,
            buffers_around_the_needed_lengths,
            refusals_at_their_edges,
            order_of_refusals,
            buffers_left_by_another_call,
            lengths_beyond_32_bits,
        );
    };
}

/// The tests of a call that answers the comparisons, the period and the bound.
macro_rules! bound_tests {
    ($call:ty) => {
        tests_of!(searching, $call:
            periods_and_bounds,
            comparisons_within_the_bound,
            occurrences_as_far_on_as_each_shift,
            all_short_long_repeats,
            long_repeats_with_any_end,
            rings_by_their_patterns,
            rings_that_agree_where_compared,
            short_rings_started_at_every_byte,
            longer_rings_started_at_every_byte,
            largest_rings_started_elsewhere,
        );
    };
}

/// What a call is handed beside its buffers. One that takes no hold offset leaves it alone.
#[derive(Clone, Copy)]
pub struct Input<'a> {
    pub hold: u32,
    pub pattern: &'a [u8],
    pub text: &'a [u8],
}

impl<'a> Input<'a> {
    pub fn new(hold: u32, pattern: &'a [u8], text: &'a [u8]) -> Input<'a> {
        Input {
            hold,
            pattern,
            text,
        }
    }

    /// The lengths that its buffers need.
    fn needed<T: SearchingCall>(self) -> Lengths {
        Lengths::needed::<T>(self.pattern.len(), self.text.len())
    }
}

impl Display for Input<'_> {
    fn fmt(&self, formatter: &mut Formatter) -> fmt::Result {
        let (pattern, text) = (shown(self.pattern), shown(self.text));
        write!(formatter, "pattern {pattern}, q {}, text {text}", self.hold)
    }
}

/// The buffers as a call is lent them. One that takes no frames leaves those alone.
pub struct Lent<'a> {
    pub tables: LentTables<'a>,
    pub found: &'a mut [u16],
    pub frames: &'a mut [u16],
}

/// The lengths of the buffers, with none for frames where the call takes no frames.
#[derive(Clone, Copy, Debug)]
pub struct Lengths {
    pub tables: TableLengths,
    pub found: usize,
    pub frames: Option<usize>,
}

impl BufferLengths for Lengths {
    fn each(&mut self) -> Vec<&mut usize> {
        let mut each = self.tables.each();
        each.push(&mut self.found);
        each.extend(&mut self.frames);
        each
    }
}

impl Lengths {
    /// The lengths that a pattern of m bytes and a text of n need.
    fn needed<T: SearchingCall>(m: usize, n: usize) -> Lengths {
        Lengths {
            tables: TableLengths::needed(m),
            found: n,
            frames: T::TAKES_FRAMES.then_some(n),
        }
    }

    fn longer<T: SearchingCall>(m: usize, n: usize) -> Lengths {
        Lengths {
            tables: longer(m),
            found: n + 9,
            frames: T::TAKES_FRAMES.then_some(n + 6),
        }
    }
}

/// The caller's buffers.
#[derive(Clone)]
pub struct Buffers {
    pub tables: TableBuffers,
    pub found: Buffer<u16>,
    pub frames: Buffer<u16>,
}

impl Buffers {
    /// Two fillings for a pattern of m bytes and a text of n: an entry that is left by chance as it
    /// should be is seen in one of them.
    pub fn fillings(m: usize, n: usize, lengths: Lengths) -> [Buffers; 2] {
        let [junk, wrong] = TableBuffers::fillings(m, lengths.tables);
        [(junk, n), (wrong, n + 101)].map(|(tables, seed)| Buffers {
            tables,
            found: Buffer::junk(lengths.found, seed),
            frames: Buffer::junk(lengths.frames.unwrap_or(0), seed + 7),
        })
    }

    pub fn lent(&mut self) -> Lent<'_> {
        Lent {
            tables: self.tables.lent(),
            found: self.found.lent(),
            frames: self.frames.lent(),
        }
    }

    /// The buffers after a call with this outcome.
    pub fn after(self, outcome: &Outcome) -> Buffers {
        Buffers {
            tables: self.tables.after(outcome),
            found: self.found.after(&entries(&outcome.occurrences)),
            frames: self.frames.after(&outcome.frames),
        }
    }

    pub fn expect(&self, expected: &Buffers, context: &dyn Fn() -> String) {
        self.frames.expect(&expected.frames, "frames", context);
        self.found.expect(&expected.found, "found", context);
        self.tables.expect(&expected.tables, context);
    }
}

/// Makes a call with buffers of these lengths and holds what comes of it to the model.
fn check<T: SearchingCall>(input: Input, lengths: Lengths) -> Outcome {
    let (answer, outcome) = T::model(input, lengths);
    let context = || format!("{input}, buffers {lengths:?}");
    for before in Buffers::fillings(input.pattern.len(), input.text.len(), lengths) {
        let mut buffers = before.clone();
        assert_eq!(T::call(input, buffers.lent()), answer, "{}", context());
        buffers.expect(&before.after(&outcome), &context);
    }
    outcome
}

/// A call within the limits with the buffers that it needs.
pub fn check_exact<T: SearchingCall>(input: Input) -> Outcome {
    let outcome = check::<T>(input, input.needed::<T>());
    assert_eq!(outcome.answer.status, 0);
    outcome
}

/// The same with longer buffers, and with each one too short beside others that are exact or, for
/// every other length of the text, longer.
fn check_other_buffers<T: SearchingCall>(input: Input) {
    let (m, n) = (input.pattern.len(), input.text.len());
    let (needed, longer) = (input.needed::<T>(), Lengths::longer::<T>(m, n));
    assert_eq!(check::<T>(input, longer).answer.status, 0);
    for short in [needed, longer][n % 2].one_too_short(needed) {
        assert_eq!(check::<T>(input, short).answer.status, 7);
    }
}

/// The jobs of document 01's examples, with all kinds of buffers.
pub fn check_examples<T: SearchingCall>() {
    for job in example_jobs() {
        let input = Input::new(job.hold as u32, &job.pattern, &job.text);
        check_exact::<T>(input);
        check_other_buffers::<T>(input);
    }
}

/// Some patterns and texts, with the first hold offset, the last, and any, in turn.
fn for_each<R>(pairs: impl Iterator<Item = Pair>, mut check: impl FnMut(Input) -> R) {
    for (round, (pattern, text)) in pairs.enumerate() {
        let m = pattern.len();
        let hold = [0, m - 1, round / 3 % m][round % 3] as u32;
        check(Input::new(hold, &pattern, &text));
    }
}

pub fn all_short_texts<T: SearchingCall>() {
    for_each(searches::all_short(), check_exact::<T>);
}

pub fn short_texts<T: SearchingCall>() {
    for_each(searches::short(), |input| {
        check_exact::<T>(input);
        check_other_buffers::<T>(input);
    });
}

pub fn longer_texts<T: SearchingCall>() {
    for_each(searches::longer(), check_exact::<T>);
}

pub fn largest_texts<T: SearchingCall>() {
    for_each(searches::largest(), check_exact::<T>);
    let (pattern, text) = Shape::Periodic.pattern_and_text(&mut Random::seeded(61), 128, 16_384);
    check_other_buffers::<T>(Input::new(127, &pattern, &text));
}

pub fn structured_texts<T: SearchingCall>() {
    for_each(searches::structured(), check_exact::<T>);
}

pub fn texts_about_as_long_as_the_pattern<T: SearchingCall>() {
    for_each(searches::about_as_long(), check_exact::<T>);
}

/// Every length from 0 to three times the pattern's, lengths below the pattern's that it goes round more
/// than once, and nets.
pub fn rings_of_every_length<T: SearchingCall>() {
    let mut round = 0;
    for_each(rings::short(), |input| {
        check_exact::<T>(input);
        if round % 5 == 0 {
            check_other_buffers::<T>(input);
        }
        round += 1;
    });
}

pub fn longer_rings<T: SearchingCall>() {
    for_each(rings::longer(), check_exact::<T>);
}

/// Occurrences over the seam of the largest texts, with the hold before it and after it.
pub fn largest_rings<T: SearchingCall>() {
    for (pattern, text) in rings::largest() {
        let last = pattern.len() as u32 - 1;
        for &hold in holds::<T>(&[0, last]) {
            check_exact::<T>(Input::new(hold, &pattern, &text));
        }
    }
}

pub fn long_repeats_broken_at_every_position<T: SearchingCall>() {
    for_each(repeats::broken(), check_exact::<T>);
}

pub fn long_repeats_that_share_their_ends<T: SearchingCall>() {
    for_each(repeats::copies(), check_exact::<T>);
}

pub fn long_repeats_at_random<T: SearchingCall>() {
    for_each(repeats::mixed(), |input| {
        check_exact::<T>(input);
        check_other_buffers::<T>(input);
    });
}

pub fn largest_long_repeats<T: SearchingCall>() {
    for_each(repeats::largest(), check_exact::<T>);
}

/// Each byte as one that occurs in the pattern and the text, and as one that only the text has.
pub fn every_byte_in_every_role<T: SearchingCall>() {
    let all: Vec<u8> = (0..=255).collect();
    let check = |pattern: &[u8], text: &[u8]| {
        let last = pattern.len() as u32 - 1;
        check_exact::<T>(Input::new(last, pattern, text));
    };
    for &byte in &all {
        let other = byte ^ 0x81;
        check(&[byte], &all);
        check(&[byte, other], &[byte, other, other, byte, byte, other]);
        let text = [byte, other, byte, byte, other, byte, 0x55, byte, other];
        check(&[other, byte, byte], &text);
    }
    for half in all.chunks(128) {
        check(half, &all);
    }
}

pub fn buffers_around_the_needed_lengths<T: SearchingCall>() {
    let mut random = Random::seeded(62);
    let around = |length: usize| vec![length.saturating_sub(1), length, length + 1];
    for (m, n) in [(1, 0), (1, 1), (2, 5), (3, 3), (4, 2)] {
        let (pattern, text) = Shape::Planted.pattern_and_text(&mut random, m, n);
        let input = Input::new(0, &pattern, &text);
        let needed = input.needed::<T>();
        for lengths in needed.choices(around) {
            let status = if lengths.are_enough(needed) { 0 } else { 7 };
            assert_eq!(check::<T>(input, lengths).answer.status, status);
        }
    }
}

/// These hold offsets where the call takes one, and else only 0.
fn holds<T: SearchingCall>(holds: &[u32]) -> &[u32] {
    if T::TAKES_HOLD {
        holds
    } else {
        &[0]
    }
}

/// m at 0, 128, 129 and beyond, q at m - 1 and m, n at 16,384, 16,385 and beyond.
pub fn refusals_at_their_edges<T: SearchingCall>() {
    let bytes = Random::seeded(63).bytes(65_536 + 16_384);
    for m in [0_usize, 1, 127, 128, 129, 256, 257, 384, 65_536, 65_537] {
        for n in [0, 1, 16_384, 16_385, 32_768, 65_536, 65_537, 81_920] {
            let (pattern, text) = (&bytes[..m], &bytes[..n]);
            let lengths = Lengths::needed::<T>(m.min(384), n);
            for &hold in holds::<T>(&[0, m.saturating_sub(1) as u32, m as u32, u32::MAX]) {
                let status = match (m, n) {
                    (0 | 129.., _) => 4,
                    _ if hold as usize >= m => 5,
                    (_, 16_385..) => 6,
                    _ => 0,
                };
                let answer = check::<T>(Input::new(hold, pattern, text), lengths).answer;
                assert_eq!(answer.status, status);
            }
        }
    }
}

/// Several faults at once: 4, 5, 6, 7 is the order.
pub fn order_of_refusals<T: SearchingCall>() {
    let bytes = Random::seeded(64).bytes(16_385);
    let mut seen = BTreeSet::new();
    for m in [0, 1, 3, 128, 129] {
        for n in [0, 2, 16_384, 16_385] {
            let (pattern, text) = (&bytes[..m], &bytes[..n]);
            for &hold in holds::<T>(&[0, m as u32, u32::MAX]) {
                let input = Input::new(hold, pattern, text);
                for lengths in faulty_lengths(input.needed::<T>()) {
                    seen.insert(check::<T>(input, lengths).answer.status);
                }
            }
        }
    }
    let with_hold: &[u32] = if T::TAKES_HOLD { &[5] } else { &[] };
    let expected = [&[0, 4], with_hold, &[6, 7]].concat();
    assert!(seen.iter().eq(&expected), "{seen:?}");
}

/// The needed lengths, each buffer alone one too short, all of them, and all of no entries.
pub fn faulty_lengths(needed: Lengths) -> Vec<Lengths> {
    let mut lengths = needed.one_too_short(needed);
    lengths.push(needed);
    lengths.push(needed.changed(|length| length.saturating_sub(1)));
    lengths.push(needed.changed(|_| 0));
    lengths
}

/// The buffers go from call to call with what the call before left in them.
pub fn buffers_left_by_another_call<T: SearchingCall>() {
    let lengths = Lengths::longer::<T>(12, 60);
    let [mut buffers, _] = Buffers::fillings(12, 60, lengths);
    let mut expected = buffers.clone();
    for_each(searches::short(), |input| {
        let (answer, outcome) = T::model(input, lengths);
        let context = || format!("{input} after others");
        assert_eq!(T::call(input, buffers.lent()), answer, "{}", context());
        expected = expected.clone().after(&outcome);
        buffers.expect(&expected, &context);
    });
}

/// Lengths of more than 32 bits: none may be taken for what is left of it in 32.
pub fn lengths_beyond_32_bits<T: SearchingCall>() {
    const BEYOND: usize = 1 << 32;
    let input = Input::new(1, &[0x06, 0x06], &[0x06, 0x06, 0x06, 0x18]);
    let (m, n) = (input.pattern.len(), input.text.len());
    let needed = input.needed::<T>();
    let status = |input: Input| check::<T>(input, needed).answer.status;
    let long = reserved(BEYOND + n);
    long[..m].copy_from_slice(input.pattern);
    let pattern = &long[..BEYOND + m];
    assert_eq!(status(Input { pattern, ..input }), 4);
    long[..n].copy_from_slice(input.text);
    let text = &*long;
    assert_eq!(status(Input { text, ..input }), 6);

    // Buffers of which nothing would be left in 32 bits are longer than needed, and that is fine.
    let mut tables = LentTables::reserved(BEYOND);
    let (found, frames) = (reserved(BEYOND), reserved(BEYOND));
    let (answer, outcome) = T::model(input, needed);
    let lent = Lent {
        tables: tables.lent(),
        found,
        frames,
    };
    assert_eq!(T::call(input, lent), answer);
    tables.expect_front(&outcome);
    expect_front(found, &entries(&outcome.occurrences));
    expect_front(frames, &outcome.frames);
}

/// Hold offsets below m are taken; m, and such as would fit if some of their bits were dropped, are
/// not. This is for a call that takes one.
pub fn every_hold_offset<T: SearchingCall>() {
    let mut random = Random::seeded(65);
    for (shape, m, n) in [
        (Shape::Planted, 1, 50),
        (Shape::Planted, 2, 50),
        (Shape::Planted, 5, 50),
        (Shape::Planted, 13, 50),
        (Shape::Overlapping, 128, 2_000),
    ] {
        let (pattern, text) = shape.pattern_and_text(&mut random, m, n);
        let m = m as u32;
        // All of a short pattern, the outermost of a long one.
        for hold in (0..m).filter(|hold| *hold < 13 || *hold >= m - 2) {
            check_exact::<T>(Input::new(hold, &pattern, &text));
        }
        for hold in [
            m,
            m + 1,
            127.max(m),
            128,
            255,
            256,
            0x1_0000,
            0x7FFF_FFFF,
            0x8000_0000,
            u32::MAX - 1,
            u32::MAX,
        ] {
            let input = Input::new(hold, &pattern, &text);
            assert_eq!(check::<T>(input, input.needed::<T>()).answer.status, 5);
        }
    }
}

pub fn periods_and_bounds<T: SearchingCall<Answer = Answer>>() {
    for search in bounds::written_out() {
        let last = search.pattern.len() as u32 - 1;
        let input = Input::new(last, &search.pattern, &search.text);
        let answer = check_exact::<T>(input).answer;
        assert_eq!(
            (answer.period, answer.bound),
            (search.period, search.bound),
            "{input}"
        );
    }
}

/// The answer of a call within the limits. Its comparisons are at most its bound, which is 0 just where
/// the text is empty.
fn answer_within_the_bound<T: SearchingCall<Answer = Answer>>(
    input: Input,
    buffers: &mut Buffers,
) -> Answer {
    let answer = T::call(input, buffers.lent());
    assert_eq!(answer.status, 0, "{input}");
    assert_eq!(answer.period, period(input.pattern), "{input}");
    assert!(answer.comparisons <= answer.bound, "{answer:?}, {input}");
    let is_empty = input.text.is_empty();
    assert_eq!(answer.bound == 0, is_empty, "{answer:?}, {input}");
    answer
}

/// Every pattern of up to 6 bytes with every text of up to 11, over two bytes, each with the comparisons
/// of the model's steps; and the generated ones. The buffers go from call to call.
pub fn comparisons_within_the_bound<T: SearchingCall<Answer = Answer>>() {
    const TWO: [u8; 2] = [0x06, 0x18];
    let [mut buffers, _] = Buffers::fillings(128, 16_384, Lengths::needed::<T>(128, 16_384));
    let (mut met, mut met_by_long_repeats) = ([0; 6], [0; 6]);
    for pattern in words(&TWO, 1..7) {
        let tables = Tables::of(&pattern);
        let is_long_repeat = pattern.len() >= 3 * period(&pattern) as usize;
        for text in words(&TWO, 0..12) {
            let input = Input::new(0, &pattern, &text);
            let answer = answer_within_the_bound::<T>(input, &mut buffers);
            let comparisons = search_with(&tables, &pattern, &text).comparisons.len();
            assert_eq!(answer.comparisons as usize, comparisons, "{input}");
            let is_met = answer.bound > 0 && answer.comparisons == answer.bound;
            met[pattern.len() - 1] += usize::from(is_met);
            met_by_long_repeats[pattern.len() - 1] += usize::from(is_met && is_long_repeat);
        }
    }
    assert_eq!(met, bounds::MET);
    assert_eq!(met_by_long_repeats, bounds::MET_BY_LONG_REPEATS);
    for job in searches::jobs() {
        let input = Input::new(job.hold as u32, &job.pattern, &job.text);
        answer_within_the_bound::<T>(input, &mut buffers);
    }
}

/// Searches some texts for a pattern with these tables: the comparisons are those of the model's steps
/// and within the bound, the occurrences are those of the definition, and so are the frames where the
/// call takes them, with each hold offset in turn. The buffers go from call to call.
fn check_texts<T: SearchingCall<Answer = Answer>>(
    tables: &Tables,
    pattern: &[u8],
    texts: impl IntoIterator<Item = Vec<u8>>,
    buffers: &mut Buffers,
) {
    check_exact::<T>(Input::new(0, pattern, &[]));
    for (round, text) in texts.into_iter().enumerate() {
        let hold = round % pattern.len();
        let input = Input::new(hold as u32, pattern, &text);
        let answer = T::call(input, buffers.lent());
        let found = &buffers.found.lent()[..answer.occurrences as usize];
        let occurrences = convert::occurrences(pattern, &text);
        assert_eq!(found, entries(&occurrences), "{input}");
        if T::TAKES_FRAMES {
            let frames = &buffers.frames.lent()[..text.len()];
            assert_eq!(frames, convert::frames(pattern, hold, &text), "{input}");
        }
        let steps = search_with(tables, pattern, &text);
        let expected = Answer {
            status: 0,
            occurrences: found.len() as u32,
            comparisons: steps.comparisons.len() as u32,
            ones: answer.ones,
            period: period(pattern),
            bound: bounds::bound_by_parts(pattern, text.len(), found.len()) as u32,
        };
        assert_eq!(answer, expected, "{input}");
        assert!(answer.comparisons <= answer.bound, "{input}");
    }
}

/// Every pattern of up to 8 bytes over two, and longer ones, in texts with an occurrence just as far on
/// as a shift goes.
pub fn occurrences_as_far_on_as_each_shift<T: SearchingCall<Answer = Answer>>() {
    let [mut buffers, _] = Buffers::fillings(128, 384, Lengths::longer::<T>(128, 384));
    let short = words(&[0x06, 0x18], 1..9);
    for pattern in short.chain(facts::patterns().step_by(3)) {
        let tables = Tables::of(&pattern);
        let texts = facts::texts_of_shifts(&tables, &pattern);
        check_texts::<T>(&tables, &pattern, texts, &mut buffers);
    }
}

/// Buffers for the short patterns and texts of the tests below.
fn short_buffers<T: SearchingCall>() -> Buffers {
    let [buffers, _] = Buffers::fillings(11, 30, Lengths::longer::<T>(11, 30));
    buffers
}

/// Every pattern of up to 8 bytes over two that has at least three periods, with every text of up to
/// 12.
pub fn all_short_long_repeats<T: SearchingCall<Answer = Answer>>() {
    let mut buffers = short_buffers::<T>();
    for pattern in repeats::all_short().filter(|pattern| pattern.len() <= 8) {
        let tables = Tables::of(&pattern);
        let texts = words(&[0x06, 0x18], 0..13);
        check_texts::<T>(&tables, &pattern, texts, &mut buffers);
    }
}

/// Every pattern of up to 11 bytes over two that has at least three periods, in texts that begin with
/// it and go on in every way.
pub fn long_repeats_with_any_end<T: SearchingCall<Answer = Answer>>() {
    let mut buffers = short_buffers::<T>();
    for pattern in repeats::all_short() {
        let tables = Tables::of(&pattern);
        let texts = repeats::with_any_end(&pattern);
        check_texts::<T>(&tables, &pattern, texts, &mut buffers);
    }
}

/// Rings of every length up to three times that of long patterns, and all nets.
pub fn rings_by_their_patterns<T: SearchingCall<Answer = Answer>>() {
    let [mut buffers, _] = Buffers::fillings(128, 384, Lengths::longer::<T>(128, 384));
    for (pattern, texts) in rings::families() {
        check_texts::<T>(&Tables::of(&pattern), &pattern, texts, &mut buffers);
    }
}

/// What a call within the limits answers, and the occurrences and frames that it leaves; no frames where
/// it takes none.
fn searched<T: SearchingCall<Answer = Answer>>(
    input: Input,
    buffers: &mut Buffers,
) -> (Answer, Vec<usize>, Vec<u16>) {
    let answer = T::call(input, buffers.lent());
    assert_eq!(answer.status, 0, "{input}");
    let found = &buffers.found.lent()[..answer.occurrences as usize];
    let found = found.iter().map(|&b| b.into()).collect();
    let frames = if T::TAKES_FRAMES {
        buffers.frames.lent()[..input.text.len()].to_vec()
    } else {
        Vec::new()
    };
    (answer, found, frames)
}

/// What demand 3 compares in two searches: the answer but for the ones, the occurrences, and where the
/// call takes frames, the holds.
fn decided<T: SearchingCall<Answer = Answer>>(
    input: Input,
    buffers: &mut Buffers,
) -> (Answer, Vec<usize>, Vec<usize>) {
    let (answer, found, frames) = searched::<T>(input, buffers);
    let holds: Vec<usize> = (0..frames.len())
        .filter(|&x| frames[x] == convert::HOLD)
        .collect();
    if T::TAKES_FRAMES {
        // Each occurrence has a hold of its own.
        assert_eq!(holds.len(), found.len(), "{input}");
    }
    (Answer { ones: 0, ..answer }, found, holds)
}

/// Demand 3: two rings of equal length that agree on every byte that is compared in the first have the
/// same comparisons, occurrences and holds. A byte is compared at any of the positions that show it.
pub fn rings_that_agree_where_compared<T: SearchingCall<Answer = Answer>>() {
    let mut random = Random::seeded(70);
    let [mut buffers, _] = Buffers::fillings(128, 16_384, Lengths::needed::<T>(128, 16_384));
    let mut tables = LastTables::default();
    let mut different = 0;
    let all = rings::short()
        .chain(searches::short())
        .chain(rings::longer())
        .chain(rings::largest().step_by(3));
    for_each(all, |input| {
        let (pattern, n) = (input.pattern, input.text.len());
        let mut free = vec![true; n];
        for made in search_with(tables.of(pattern), pattern, input.text).comparisons {
            free[made.text_position % n] = false;
        }
        let mut text = input.text.to_vec();
        for (byte, _) in text.iter_mut().zip(free).filter(|(_, free)| *free) {
            *byte = random.pick(&[pattern[0], pattern[pattern.len() - 1], !*byte]);
        }
        let other = Input {
            text: &text,
            ..input
        };
        let first = decided::<T>(input, &mut buffers);
        assert_eq!(decided::<T>(other, &mut buffers), first, "{input}, {other}");
        different += usize::from(text != input.text);
    });
    assert!(different > 1_000, "only {different} rings differed");
}

/// Each ring is searched as it is and started later; `later` gives by how many bytes, for a ring of n. It
/// has the same occurrences, turned back around it and again ascending, and where the call takes frames,
/// the same started as much later; of the answer only the comparisons may differ, within the bound. Gives
/// how often they do.
fn check_started_later<T: SearchingCall<Answer = Answer>>(
    rings: impl Iterator<Item = Pair>,
    later: impl Fn(usize) -> Vec<usize>,
) -> usize {
    let [mut buffers, _] = Buffers::fillings(128, 16_384, Lengths::needed::<T>(128, 16_384));
    let mut different = 0;
    for_each(rings, |input| {
        let n = input.text.len();
        let (answer, found, frames) = searched::<T>(input, &mut buffers);
        for r in later(n) {
            let text = started_later(input.text, r);
            let other = Input {
                text: &text,
                ..input
            };
            let (answer_there, found_there, frames_there) = searched::<T>(other, &mut buffers);
            let context = || format!("started {r} later: {input}");
            assert_eq!(found_there, turned_back(&found, n, r), "{}", context());
            if T::TAKES_FRAMES {
                assert_eq!(frames_there, started_later(&frames, r), "{}", context());
            }
            let expected = Answer {
                comparisons: answer_there.comparisons,
                ..answer
            };
            assert_eq!(answer_there, expected, "{}", context());
            assert!(expected.comparisons <= expected.bound, "{}", context());
            different += usize::from(expected.comparisons != answer.comparisons);
        }
    });
    different
}

/// Every pattern of 1 to 4 bytes in every ring of up to 9, over two bytes, and short ones of every shape,
/// started at each of their bytes and after the last, which is the ring as it was.
pub fn short_rings_started_at_every_byte<T: SearchingCall<Answer = Answer>>() {
    let all = searches::all_short()
        .chain(searches::short())
        .chain(rings::short());
    let different = check_started_later::<T>(all, |n| (0..=n).collect());
    assert!(different > 100_000, "only {different} counts differed");
}

pub fn longer_rings_started_at_every_byte<T: SearchingCall<Answer = Answer>>() {
    let all = searches::longer()
        .step_by(8)
        .chain(searches::about_as_long())
        .chain(rings::longer());
    let different = check_started_later::<T>(all, |n| (0..=n).collect());
    assert!(different > 1_000, "only {different} counts differed");
}

/// The largest rings, started at their second byte, at their last and at some between.
pub fn largest_rings_started_elsewhere<T: SearchingCall<Answer = Answer>>() {
    let all = searches::largest().step_by(3).chain(rings::largest());
    let different = check_started_later::<T>(all, |n| vec![1, 2, 127, n / 2, n - 128, n - 1]);
    assert!(different > 10, "only {different} counts differed");
}
