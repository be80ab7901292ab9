//! Everything that is asked of explaining a position, for any implementation of the call. Each call is
//! held to the model: its whole answer, and every entry of every buffer. Each explanation is also held
//! to what it means, by the comparisons of the search; what searching finds and what preparing leaves
//! are asked of the implementation's own calls.

use std::collections::BTreeSet;
use std::fmt::{self, Display, Formatter};

use ruffarmoire_model::answers::{Answer, ExplainAnswer};
use ruffarmoire_model::calls::{self, ExplainOutcome, Outcome, TableLengths};
use ruffarmoire_model::explain::{explanation, Explanation};
use ruffarmoire_model::gen::{Random, Shape};
use ruffarmoire_model::steps::{search_with, Search};
use ruffarmoire_model::tables::Tables;

use super::examples::example_jobs;
use super::explanations::{Compared, LastTables, Seen};
use super::harness::{reserved, shown};
use super::lengths::BufferLengths;
use super::matcher_suite::MatcherCalls;
use super::prepare_suite::PrepareCalls;
use super::repeats;
use super::rings;
use super::searches::{self, Pair};
use super::table_buffers::{longer, LentTables, TableBuffers};
use super::words::words;

const A: u8 = 0x06;
const B: u8 = 0x01;
const C: u8 = 0x18;

/// An implementation of explaining a position.
pub trait ExplainCalls {
    fn explain(position: u32, pattern: &[u8], text: &[u8], tables: LentTables) -> ExplainAnswer;
}

/// A test program's tests: all of this module on one implementation, which also searches and prepares.
macro_rules! explain_suite {
    ($calls:ty) => {
        tests_of!(explain_suite, $calls:
            worked_examples,
            every_position_of_all_short_texts,
            every_position_of_short_texts,
            every_position_over_few_and_many_bytes,
            every_position_of_structured_texts,
            every_position_of_texts_about_as_long_as_the_pattern,
            every_position_of_broken_long_repeats,
            every_position_of_long_repeats_with_any_end,
            positions_of_longer_texts,
            positions_of_long_repeats_at_random,
            positions_of_largest_texts,
            every_position_of_some_largest_texts,
            every_byte_in_every_role,
            listed_just_where_searching_finds,
            tables_as_preparing_leaves_them,
            buffers_around_the_needed_lengths,
            every_position_of_rings,
            positions_of_longer_rings,
            positions_of_largest_rings,
            last_position_and_those_beyond,
            empty_texts,
            refusals_at_their_edges,
            order_of_refusals,
            tables_left_by_another_call,
            lengths_beyond_32_bits,
        );
    };
}

/// What the call is handed beside its buffers.
#[derive(Clone, Copy)]
struct Input<'a> {
    position: u32,
    pattern: &'a [u8],
    text: &'a [u8],
}

impl<'a> Input<'a> {
    fn new(position: u32, pattern: &'a [u8], text: &'a [u8]) -> Input<'a> {
        Input {
            position,
            pattern,
            text,
        }
    }

    fn call<T: ExplainCalls>(self, tables: LentTables) -> ExplainAnswer {
        T::explain(self.position, self.pattern, self.text, tables)
    }

    fn model(self, lengths: TableLengths) -> ExplainOutcome {
        calls::explain(self.position, self.pattern, self.text, lengths)
    }
}

impl Display for Input<'_> {
    fn fmt(&self, formatter: &mut Formatter) -> fmt::Result {
        let (pattern, text) = (shown(self.pattern), shown(self.text));
        write!(
            formatter,
            "b {}, pattern {pattern}, text {text}",
            self.position
        )
    }
}

/// Makes a call with buffers of these lengths and holds what comes of it to the model.
fn check<T: ExplainCalls>(input: Input, lengths: TableLengths) -> ExplainAnswer {
    let expected = input.model(lengths);
    let context = || format!("{input}, buffers {lengths:?}");
    for before in TableBuffers::fillings(input.pattern.len(), lengths) {
        let mut buffers = before.clone();
        let answer = input.call::<T>(buffers.lent());
        assert_eq!(answer, expected.answer, "{}", context());
        buffers.expect(&before.after(&expected.left), &context);
    }
    expected.answer
}

/// The status of a call with the buffers that its pattern needs.
fn status<T: ExplainCalls>(input: Input) -> u32 {
    let needed = TableLengths::needed(input.pattern.len());
    check::<T>(input, needed).answer.status
}

/// A call within the limits with buffers that are exact, longer, and one too short for each.
fn check_all_buffers<T: ExplainCalls>(input: Input) {
    let m = input.pattern.len();
    let needed = TableLengths::needed(m);
    let exact = check::<T>(input, needed);
    assert_eq!(exact.answer, Answer::default());
    assert_eq!(check::<T>(input, longer(m)), exact);
    let others = [needed, longer(m)][input.text.len() % 2];
    for short in others.one_too_short(needed) {
        assert_eq!(check::<T>(input, short).answer.status, 7);
    }
}

/// A pattern and a text, with all that explaining one of its positions is held to.
struct Job<'a> {
    pattern: &'a [u8],
    text: &'a [u8],
    /// The model's search.
    done: Search,
    compared: Compared<'a>,
    /// What the buffers hold before a call, in two fillings, and after it.
    before: [TableBuffers; 2],
    after: [TableBuffers; 2],
}

impl<'a> Job<'a> {
    fn new(tables: &Tables, pattern: &'a [u8], text: &'a [u8]) -> Job<'a> {
        let done = search_with(tables, pattern, text);
        let compared = Compared::of(pattern, text, &done.comparisons);
        let left = Outcome {
            order: tables.order.clone(),
            delta1: tables.delta1.clone(),
            delta2: tables.delta2.clone(),
            delta3: tables.delta3.clone(),
            ..Outcome::default()
        };
        let before = TableBuffers::fillings(pattern.len(), longer(pattern.len()));
        Job {
            pattern,
            text,
            done,
            compared,
            after: before.clone().map(|buffers| buffers.after(&left)),
            before,
        }
    }

    /// Explains a position below n.
    fn check<T: ExplainCalls>(&self, b: usize, seen: &mut Seen) {
        let input = Input::new(b as u32, self.pattern, self.text);
        let context = || input.to_string();
        // Positions next to each other find the buffers filled otherwise.
        let mut buffers = self.before[b % 2].clone();
        let answer = input.call::<T>(buffers.lent());
        let expected = explanation(&self.done, self.pattern, self.text, b);
        assert_eq!(answer, expected.into(), "{}", context());
        buffers.expect(&self.after[b % 2], &context);
        let told = Explanation::try_from(answer).expect("every position has an explanation");
        seen.add(self.compared.check(b, told));
    }
}

/// Explains every position of some texts. Tells what was seen.
fn check_every_position<T: ExplainCalls>(pairs: impl Iterator<Item = Pair>) -> Seen {
    let mut seen = Seen::default();
    let mut tables = LastTables::default();
    for (pattern, text) in pairs {
        let job = Job::new(tables.of(&pattern), &pattern, &text);
        for b in 0..job.compared.positions() {
            job.check::<T>(b, &mut seen);
        }
    }
    seen
}

/// Explains some positions of each text: the first two, the last two and others at random, so many at
/// most.
fn check_some_positions<T: ExplainCalls>(pairs: impl Iterator<Item = Pair>, most: usize) -> Seen {
    let mut random = Random::seeded(151);
    let mut seen = Seen::default();
    let mut tables = LastTables::default();
    for (pattern, text) in pairs {
        let job = Job::new(tables.of(&pattern), &pattern, &text);
        let count = job.compared.positions();
        if count == 0 {
            continue;
        }
        let others = (4..most).map(|_| random.below(count));
        let chosen: BTreeSet<usize> = others.chain([0, 1, count - 1, count.max(2) - 2]).collect();
        for b in chosen.into_iter().filter(|&b| b < count) {
            job.check::<T>(b, &mut seen);
        }
    }
    seen
}

/// The outcome, the place, the position shifted from and the kind, for every position.
fn expect<T: ExplainCalls>(pattern: &[u8], text: &[u8], expected: &[[u32; 4]]) {
    assert_eq!(expected.len(), text.len());
    for (b, &[outcome, place, from, kind]) in expected.iter().enumerate() {
        let input = Input::new(b as u32, pattern, text);
        check_all_buffers::<T>(input);
        let answer = check::<T>(input, TableLengths::needed(pattern.len()));
        let told = ExplainAnswer {
            answer: Answer::default(),
            outcome,
            place,
            from,
            kind,
        };
        assert_eq!(answer, told, "{input}");
    }
    for b in [text.len() as u32, text.len() as u32 + 1, u32::MAX] {
        assert_eq!(status::<T>(Input::new(b, pattern, text)), 10);
    }
}

pub fn worked_examples<T: ExplainCalls>() {
    const LISTED: [u32; 4] = [1, 0, 0, 0];
    let pattern = [A, A, C, A, A];
    let listing = [A, A, C, A, A, A, C, A, A];
    expect::<T>(
        &pattern,
        &listing,
        &[
            LISTED,
            [3, 2, 0, 3],
            [3, 2, 0, 3],
            [2, 3, 0, 0],
            LISTED,
            [3, 2, 4, 3],
            [3, 0, 4, 3],
            [2, 4, 0, 0],
            [3, 3, 7, 1],
        ],
    );
    expect::<T>(&[A], &[A], &[LISTED]);
    expect::<T>(&[A; 4], &[A; 6], &[LISTED; 6]);
    expect::<T>(&[A], &[A, C, A], &[LISTED, [2, 0, 0, 0], LISTED]);
    // The pattern goes round its ring.
    expect::<T>(&[A, A], &[A], &[LISTED]);
    expect::<T>(&[A, A, C, C], &[C, C], &[[2, 0, 0, 0], [3, 1, 0, 2]]);
    // The comparison at 0 saw the byte that lies at 3 too, but does not count there.
    expect::<T>(
        &[A, A],
        &[B, A, B],
        &[[2, 0, 0, 0], [2, 1, 0, 0], [3, 0, 1, 1]],
    );
    // The last byte differs: once by the order, twice in a repeat.
    expect::<T>(
        &[A, C],
        &[A, B, A, C],
        &[[2, 1, 0, 0], [3, 0, 0, 1], LISTED, [3, 0, 2, 3]],
    );
    expect::<T>(
        &[A; 4],
        &[A, A, A, A, C, A, A, A, A],
        &[
            LISTED,
            [2, 3, 0, 0],
            [3, 2, 1, 4],
            [3, 1, 1, 4],
            [3, 0, 1, 4],
            LISTED,
            LISTED,
            LISTED,
            LISTED,
        ],
    );
    expect::<T>(
        &[C, A, C, A, C, A],
        &[C, A, C, A, C, A, C, C, A, C, A, C, A],
        &[
            LISTED,
            [3, 4, 0, 3],
            [2, 5, 0, 0],
            [3, 2, 2, 4],
            [3, 3, 2, 4],
            [3, 0, 2, 4],
            [3, 1, 2, 4],
            LISTED,
            [3, 4, 7, 3],
            LISTED,
            [3, 2, 9, 3],
            LISTED,
            [3, 0, 11, 3],
        ],
    );
    // All of a repeat agrees.
    expect::<T>(
        &[C, A, C, A, C, A],
        &[C, A, C, A, C, A, C, A, C],
        &[
            LISTED,
            [3, 4, 0, 3],
            LISTED,
            [3, 2, 2, 3],
            [2, 5, 0, 0],
            [3, 0, 4, 4],
            [3, 3, 4, 4],
            [3, 0, 4, 4],
            [3, 1, 4, 4],
        ],
    );
    // Positions 4 and 2 agree and 3 differs.
    expect::<T>(
        &[C, B, A, A, A],
        &[C, C, A, B, A, C, B, A, A, A],
        &[
            [2, 3, 0, 0],
            [3, 1, 0, 2],
            [3, 0, 0, 2],
            [3, 1, 0, 2],
            [3, 0, 0, 2],
            LISTED,
            [3, 1, 5, 3],
            [3, 0, 5, 3],
            [3, 1, 5, 3],
            [3, 0, 5, 3],
        ],
    );
    // Every position of document 01's examples, and the first two beyond.
    for job in example_jobs() {
        let n = job.text.len();
        for b in 0..n + 2 {
            let input = Input::new(b as u32, &job.pattern, &job.text);
            assert_eq!(status::<T>(input), if b < n { 0 } else { 10 });
        }
    }
}

/// Every pattern of up to 4 bytes with every text of up to 9 over two, and of up to 3 with up to 6 over
/// three.
pub fn every_position_of_all_short_texts<T: ExplainCalls>() {
    const THREE: [u8; 3] = [A, B, C];
    let over_three = words(&THREE, 1..4)
        .flat_map(|pattern| words(&THREE, 0..7).map(move |text| (pattern.clone(), text)));
    check_every_position::<T>(searches::all_short().chain(over_three));
}

pub fn every_position_of_short_texts<T: ExplainCalls>() {
    check_every_position::<T>(searches::short()).expect_every_case(1);
    for (pattern, text) in searches::short().step_by(5) {
        if let Some(last) = text.len().checked_sub(1) {
            check_all_buffers::<T>(Input::new(last as u32, &pattern, &text));
        }
    }
}

/// At random over 1, 2, 3, 4 and all 256 bytes.
pub fn every_position_over_few_and_many_bytes<T: ExplainCalls>() {
    let mut random = Random::seeded(152);
    let pairs = (0..4_000).map(|round| {
        let bytes = [1, 2, 3, 4, 256][round % 5];
        let (m, n) = (random.between(1, 10), random.between(0, 50));
        let mut over =
            |length: usize| -> Vec<u8> { (0..length).map(|_| random.below(bytes) as u8).collect() };
        (over(m), over(n))
    });
    check_every_position::<T>(pairs);
}

pub fn every_position_of_structured_texts<T: ExplainCalls>() {
    check_every_position::<T>(searches::structured());
}

pub fn every_position_of_texts_about_as_long_as_the_pattern<T: ExplainCalls>() {
    check_every_position::<T>(searches::about_as_long());
}

/// Runs of a period broken at each position in turn. Every kind of explanation is among them.
pub fn every_position_of_broken_long_repeats<T: ExplainCalls>() {
    check_every_position::<T>(repeats::short_broken()).expect_every_case(30);
}

pub fn every_position_of_long_repeats_with_any_end<T: ExplainCalls>() {
    let pairs = repeats::all_short()
        .enumerate()
        .flat_map(|(round, pattern)| {
            let texts: Vec<Pair> = repeats::with_any_end(&pattern)
                .skip(round)
                .step_by(67)
                .map(|text| (pattern.clone(), text))
                .collect();
            texts
        });
    check_every_position::<T>(pairs);
}

pub fn positions_of_longer_texts<T: ExplainCalls>() {
    check_some_positions::<T>(searches::longer(), 300);
}

pub fn positions_of_long_repeats_at_random<T: ExplainCalls>() {
    check_some_positions::<T>(repeats::mixed(), 120).expect_every_case(1);
}

pub fn positions_of_largest_texts<T: ExplainCalls>() {
    check_some_positions::<T>(searches::largest(), 120);
    check_some_positions::<T>(repeats::largest(), 120);
    let (pattern, text) = Shape::Periodic.pattern_and_text(&mut Random::seeded(153), 128, 16_384);
    for b in [0, 8_000, 16_256, 16_257, 16_383] {
        check_all_buffers::<T>(Input::new(b, &pattern, &text));
    }
}

/// All 16,384 positions: of random texts, of a run with breaks, and of one byte throughout.
pub fn every_position_of_some_largest_texts<T: ExplainCalls>() {
    let mut random = Random::seeded(154);
    let any = (random.bytes(128), random.bytes(16_384));
    let few = (
        random.picked(&[A, B, C], 128),
        random.picked(&[A, B, C], 16_384),
    );
    let broken = repeats::run_with_breaks(&mut random, 5, 128);
    let equal = (vec![A; 128], vec![A; 16_384]);
    let seen = check_every_position::<T>([any, few, broken, equal].into_iter());
    assert_eq!(seen.count(), 4 * 16_384);
}

/// Each byte as one that occurs in the pattern and the text, and as one that only the text has.
pub fn every_byte_in_every_role<T: ExplainCalls>() {
    let all: Vec<u8> = (0..=255).collect();
    let pairs = (0..=255_u8).flat_map(|byte| {
        let other = byte ^ 0x81;
        let text = [byte, other, byte, byte, other, byte, 0x55, byte, other];
        [
            (vec![byte], all.clone()),
            (vec![byte, other], text.to_vec()),
            (vec![other, byte, byte], text.to_vec()),
        ]
    });
    let halves = all.chunks(128).map(|half| (half.to_vec(), all.clone()));
    check_every_position::<T>(pairs.chain(halves));
}

/// The positions that are listed are those that searching leaves.
pub fn listed_just_where_searching_finds<T: ExplainCalls + MatcherCalls>() {
    let pairs = searches::short().chain(searches::structured());
    for (pattern, text) in pairs.chain(rings::short()) {
        let [mut buffers, _] = TableBuffers::fillings(pattern.len(), longer(pattern.len()));
        let mut found = vec![0; text.len()];
        let searched = T::search(&pattern, &text, buffers.lent(), &mut found);
        found.truncate(searched.occurrences as usize);
        let listed: Vec<u16> = (0..text.len())
            .filter(|&b| {
                let input = Input::new(b as u32, &pattern, &text);
                input.call::<T>(buffers.lent()).outcome == 1
            })
            .map(|b| b as u16)
            .collect();
        assert_eq!(
            listed,
            found,
            "pattern {}, text {}",
            shown(&pattern),
            shown(&text)
        );
    }
}

/// The tables are left as preparing leaves them, in buffers that are longer than needed and held the
/// same before.
pub fn tables_as_preparing_leaves_them<T: ExplainCalls + PrepareCalls>() {
    for (pattern, mut text) in searches::short().chain(searches::longer()) {
        text.extend(&pattern);
        let b = 7 * pattern.len() % text.len();
        let input = Input::new(b as u32, &pattern, &text);
        for before in TableBuffers::fillings(pattern.len(), longer(pattern.len())) {
            let (mut explained, mut prepared) = (before.clone(), before);
            let answer = input.call::<T>(explained.lent());
            assert_eq!(answer.answer, Answer::default());
            assert_eq!(T::prepare(&pattern, prepared.lent()).status, 0);
            explained.expect(&prepared, &|| input.to_string());
        }
    }
}

pub fn buffers_around_the_needed_lengths<T: ExplainCalls>() {
    let mut random = Random::seeded(155);
    let around = |length: usize| vec![0, length - 1, length, length + 1];
    for (m, n) in [(1, 0), (1, 1), (2, 5), (3, 3), (4, 2), (6, 20)] {
        let (pattern, text) = Shape::Planted.pattern_and_text(&mut random, m, n);
        let needed = TableLengths::needed(m);
        for lengths in needed.choices(around) {
            for b in [0, n / 2, n.saturating_sub(1), n] {
                let status = match lengths.are_enough(needed) {
                    false => 7,
                    true if b >= n => 10,
                    true => 0,
                };
                let answer = check::<T>(Input::new(b as u32, &pattern, &text), lengths);
                assert_eq!(answer.answer.status, status);
            }
        }
    }
}

/// Rings of every length up to three times the pattern's, also shorter than it, and nets over the
/// seam. Every kind of explanation is among them.
pub fn every_position_of_rings<T: ExplainCalls>() {
    check_every_position::<T>(rings::short()).expect_every_case(30);
    for (pattern, text) in rings::short()
        .filter(|(_, text)| !text.is_empty())
        .step_by(9)
    {
        let b = text.len() - 1;
        check_all_buffers::<T>(Input::new(b as u32, &pattern, &text));
    }
}

pub fn positions_of_longer_rings<T: ExplainCalls>() {
    check_some_positions::<T>(rings::longer(), 60);
}

/// The last 200 positions, from most of which the pattern goes over the seam.
pub fn positions_of_largest_rings<T: ExplainCalls>() {
    let mut seen = Seen::default();
    let mut tables = LastTables::default();
    for (pattern, text) in rings::largest() {
        let job = Job::new(tables.of(&pattern), &pattern, &text);
        for b in text.len() - 200..text.len() {
            job.check::<T>(b, &mut seen);
        }
    }
}

/// n - 1 is taken and n refused, and so is every position beyond, also such as would be taken if some
/// of its bits were dropped, if its sum with m were, or if it were counted round the ring.
pub fn last_position_and_those_beyond<T: ExplainCalls>() {
    let mut random = Random::seeded(156);
    for (m, n) in [
        (1, 1),
        (1, 50),
        (2, 1),
        (2, 50),
        (5, 3),
        (5, 5),
        (5, 50),
        (128, 1),
        (128, 127),
        (128, 128),
        (128, 1_000),
        (1, 16_384),
        (3, 16_384),
        (128, 16_384),
    ] {
        let (pattern, text) = Shape::Planted.pattern_and_text(&mut random, m, n);
        let (m, n) = (m as u32, n as u32);
        let last = n - 1;
        for b in [
            0,
            last / 2,
            n.saturating_sub(m),
            last.saturating_sub(1),
            last,
        ] {
            assert_eq!(status::<T>(Input::new(b.min(last), &pattern, &text)), 0);
        }
        for b in [
            n,
            n + 1,
            last + m,
            n + m,
            2 * n,
            2 * n + 1,
            0x1_0000 - 0x1_0000 % n,
            0x4000 + last,
            0x8000 + last,
            0x1_0000,
            0x1_0000 + last,
            0x7FFF_FFFF,
            0x8000_0000,
            0x8000_0000 + last,
            u32::MAX - m,
            u32::MAX - m + 1,
            u32::MAX - m / 2,
            u32::MAX - 1,
            u32::MAX,
        ] {
            assert_eq!(status::<T>(Input::new(b, &pattern, &text)), 10, "b {b}");
        }
    }
}

/// No position is taken, not even the first.
pub fn empty_texts<T: ExplainCalls>() {
    let mut random = Random::seeded(157);
    for m in [1, 2, 3, 17, 128] {
        let pattern = random.picked(&[A, C], m);
        for b in [0, 1, m as u32, u32::MAX - m as u32 + 1, u32::MAX] {
            assert_eq!(status::<T>(Input::new(b, &pattern, &[])), 10);
        }
    }
}

/// m at 0, 128, 129 and beyond, n at 16,384, 16,385 and beyond, b at n - m, n - 1, n and beyond.
pub fn refusals_at_their_edges<T: ExplainCalls>() {
    let bytes = Random::seeded(158).bytes(65_536 + 16_384);
    for m in [0_usize, 1, 127, 128, 129, 256, 257, 384, 65_536, 65_537] {
        for n in [0, 1, 127, 16_384, 16_385, 32_768, 65_536, 65_537, 81_920] {
            let (pattern, text) = (&bytes[..m], &bytes[..n]);
            let lengths = TableLengths::needed(m.min(384));
            for b in around_the_end(m, n) {
                let status = match (m, n) {
                    (0 | 129.., _) => 4,
                    (_, 16_385..) => 6,
                    _ if b as usize >= n => 10,
                    _ => 0,
                };
                let answer = check::<T>(Input::new(b, pattern, text), lengths);
                assert_eq!(answer.answer.status, status, "m {m}, n {n}, b {b}");
            }
        }
    }
}

/// The first position, the last from which a pattern of m bytes ends before the seam of a text of n, the
/// one after it, the last, and some beyond.
fn around_the_end(m: usize, n: usize) -> [u32; 7] {
    let before_the_seam = n.saturating_sub(m) as u32;
    let n = n as u32;
    let last = n.saturating_sub(1);
    [
        0,
        before_the_seam,
        before_the_seam + 1,
        last,
        n,
        n + 1,
        u32::MAX,
    ]
}

/// Several faults at once: 4, 6, 7, 10 is the order. Each two of them are met together, and all four.
pub fn order_of_refusals<T: ExplainCalls>() {
    let bytes = Random::seeded(159).bytes(16_385);
    let mut met = BTreeSet::new();
    for m in [0, 1, 3, 128, 129] {
        for n in [0, 2, 128, 16_384, 16_385] {
            let (pattern, text) = (&bytes[..m], &bytes[..n]);
            let needed = TableLengths::needed(m);
            let mut all_lengths = needed.one_too_short(needed);
            all_lengths.push(needed);
            all_lengths.push(needed.changed(|length| length.saturating_sub(1)));
            all_lengths.push(needed.changed(|_| 0));
            for lengths in all_lengths {
                for b in around_the_end(m, n) {
                    let faults = [
                        (4, m == 0 || m > 128),
                        (6, n > 16_384),
                        (7, !lengths.are_enough(needed)),
                        (10, b as usize >= n),
                    ];
                    let held: Vec<u32> = faults
                        .into_iter()
                        .filter_map(|(status, holds)| holds.then_some(status))
                        .collect();
                    let answer = check::<T>(Input::new(b, pattern, text), lengths);
                    let status = held.first().copied().unwrap_or(0);
                    assert_eq!(answer.answer.status, status, "m {m}, n {n}, b {b}");
                    met.insert(held);
                }
            }
        }
    }
    // Every set of faults, and none.
    assert_eq!(met.len(), 16, "{met:?}");
}

/// The buffers go from call to call with what the call before left in them.
pub fn tables_left_by_another_call<T: ExplainCalls>() {
    let lengths = longer(12);
    let [mut buffers, _] = TableBuffers::fillings(12, lengths);
    let mut expected = buffers.clone();
    for (round, (pattern, text)) in searches::short().enumerate() {
        // Now and then the position beyond the last.
        let input = Input::new((round % (text.len() + 1)) as u32, &pattern, &text);
        let outcome = input.model(lengths);
        let context = || format!("{input} after others");
        let answer = input.call::<T>(buffers.lent());
        assert_eq!(answer, outcome.answer, "{}", context());
        expected = expected.clone().after(&outcome.left);
        buffers.expect(&expected, &context);
    }
}

/// Lengths of more than 32 bits: none may be taken for what is left of it in 32.
pub fn lengths_beyond_32_bits<T: ExplainCalls>() {
    const BEYOND: usize = 1 << 32;
    let input = Input::new(1, &[A, A], &[A, A, A, C]);
    let (m, n) = (input.pattern.len(), input.text.len());
    let needed = TableLengths::needed(m);
    let status = |input: Input| check::<T>(input, needed).answer.status;
    let long = reserved(BEYOND + n);
    long[..m].copy_from_slice(input.pattern);
    let pattern = &long[..BEYOND + m];
    assert_eq!(status(Input { pattern, ..input }), 4);
    long[..n].copy_from_slice(input.text);
    let text = &*long;
    assert_eq!(status(Input { text, ..input }), 6);

    // Buffers of which nothing would be left in 32 bits are longer than needed, and that is fine.
    let mut tables = LentTables::reserved(BEYOND);
    let expected = input.model(needed);
    assert_eq!(input.call::<T>(tables.lent()), expected.answer);
    tables.expect_front(&expected.left);
}
