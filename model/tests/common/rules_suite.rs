//! Everything that is asked of searching, converting and pricing with a table of rules, for any
//! implementation of these calls. Each call is held to the model: its whole answer, every entry of every
//! buffer, and the table, which stays as it was. What the calls for one pattern give is asked of the
//! implementation's own.

use std::collections::BTreeSet;
use std::fmt::Debug;
use std::marker::PhantomData;

use ruffarmoire_model::answers::{Answer, ExplainAnswer, PriceAnswer, RuleAnswer, RulesAnswer};
use ruffarmoire_model::calls::{Outcome, TableLengths};
use ruffarmoire_model::gen::{Random, SHAPES};
use ruffarmoire_model::price::cost;
use ruffarmoire_model::ring::{started_later, turned_back};
use ruffarmoire_model::rule_calls;
use ruffarmoire_model::rules::{Rule, TableBytes};
use ruffarmoire_model::steps::search;
use ruffarmoire_model::turn::{turned_bytes, turned_frames, turned_hold, turned_occurrences, WAYS};

use super::converter_suite::ConverterCalls;
use super::harness::{expect_front, reserved, shown};
use super::lengths::BufferLengths;
use super::matcher_suite::MatcherCalls;
use super::price_suite::PriceCalls;
use super::repeats::FOREIGN;
use super::rule_tables::{self, are_apart, claims, needed, rule, table_of, Job};
use super::searches;
use super::searching::{faulty_lengths, Buffers, Lengths, Lent};
use super::table_buffers::{entries, LentTables};

const A: u8 = 0x06;
const B: u8 = 0x01;
const C: u8 = 0x18;

/// An implementation of the calls that take a table of rules.
pub trait RulesCalls {
    fn search_rules(
        rules: &TableBytes,
        text: &[u8],
        tables: LentTables,
        found: &mut [u16],
    ) -> RulesAnswer;

    fn convert_rules(
        rules: &TableBytes,
        text: &[u8],
        tables: LentTables,
        found: &mut [u16],
        frames: &mut [u16],
    ) -> RulesAnswer;

    fn price_rules(
        rules: &TableBytes,
        text: &[u8],
        tables: LentTables,
        found: &mut [u16],
    ) -> PriceAnswer;

    fn restore_rules(rules: &TableBytes, frames: &[u16], text: &mut [u8]) -> Answer;

    fn explain_rule(
        number: u32,
        position: u32,
        rules: &TableBytes,
        text: &[u8],
        tables: LentTables,
    ) -> ExplainAnswer;

    fn edit_rule(number: u32, hold: u32, pattern: &[u8], rules: &mut TableBytes) -> Answer;
}

/// A test program's tests: all of this module on one implementation, which also has the calls for one
/// pattern.
macro_rules! rules_suite {
    ($calls:ty) => {
        mod search_rules {
            table_tests!(crate::common::rules_suite::SearchRules<$calls>);
        }
        mod convert_rules {
            table_tests!(crate::common::rules_suite::ConvertRules<$calls>);
        }
        mod price_rules {
            table_tests!(crate::common::rules_suite::PriceRules<$calls>);
        }
        tests_of!(rules_suite, $calls:
            worked_examples,
            answers_and_buffers_rule_after_rule,
            frames_name_their_rules,
            claimed_twice_by_meaning,
            rules_that_cannot_meet,
            rings_that_agree_where_a_rule_compares,
            rings_started_elsewhere,
            tables_turned_alike,
            price_by_the_frames,
            one_rule_beside_one_pattern,
        );
    };
}

/// The tests of every call that searches with a whole table.
macro_rules! table_tests {
    ($call:ty) => {
        tests_of!(rules_suite, $call:
            tables_by_hand,
            all_short_tables,
            short_tables,
            longer_tables,
            largest_tables,
            noise_does_not_matter,
            buffers_around_the_needed_lengths,
            refusals_at_their_edges,
            first_faulty_rule,
            order_of_refusals,
            buffers_left_by_another_call,
            lengths_beyond_32_bits,
        );
    };
}

/// A call that searches with a whole table.
pub trait TableCall {
    /// What it answers.
    type Answer: Debug + PartialEq;

    /// Whether it takes a buffer for frames.
    const TAKES_FRAMES: bool;

    fn call(table: &TableBytes, text: &[u8], lent: Lent) -> Self::Answer;

    /// What the model answers, and what it leaves in buffers of these lengths.
    fn model(table: &TableBytes, text: &[u8], lengths: Lengths) -> (Self::Answer, Outcome);
}

/// Searching with a table.
pub struct SearchRules<T>(PhantomData<T>);

impl<T: RulesCalls> TableCall for SearchRules<T> {
    type Answer = RulesAnswer;

    const TAKES_FRAMES: bool = false;

    fn call(table: &TableBytes, text: &[u8], lent: Lent) -> RulesAnswer {
        T::search_rules(table, text, lent.tables, lent.found)
    }

    fn model(table: &TableBytes, text: &[u8], lengths: Lengths) -> (RulesAnswer, Outcome) {
        let outcome = rule_calls::search_rules(table, text, lengths.tables, lengths.found);
        (outcome.answer, outcome.left)
    }
}

/// Converting with a table.
pub struct ConvertRules<T>(PhantomData<T>);

impl<T: RulesCalls> TableCall for ConvertRules<T> {
    type Answer = RulesAnswer;

    const TAKES_FRAMES: bool = true;

    fn call(table: &TableBytes, text: &[u8], lent: Lent) -> RulesAnswer {
        T::convert_rules(table, text, lent.tables, lent.found, lent.frames)
    }

    fn model(table: &TableBytes, text: &[u8], lengths: Lengths) -> (RulesAnswer, Outcome) {
        let frames = lengths.frames.expect("it takes frames");
        let outcome = rule_calls::convert_rules(table, text, lengths.tables, lengths.found, frames);
        (outcome.answer, outcome.left)
    }
}

/// Pricing with a table.
pub struct PriceRules<T>(PhantomData<T>);

impl<T: RulesCalls> TableCall for PriceRules<T> {
    type Answer = PriceAnswer;

    const TAKES_FRAMES: bool = false;

    fn call(table: &TableBytes, text: &[u8], lent: Lent) -> PriceAnswer {
        T::price_rules(table, text, lent.tables, lent.found)
    }

    fn model(table: &TableBytes, text: &[u8], lengths: Lengths) -> (PriceAnswer, Outcome) {
        let outcome = rule_calls::price_rules(table, text, lengths.tables, lengths.found);
        (outcome.answer, outcome.left)
    }
}

/// The lengths that a call with these rules and a text of n bytes needs.
fn lengths_for<K: TableCall>(rules: &[Rule], n: usize) -> Lengths {
    Lengths {
        tables: needed(rules),
        found: n,
        frames: K::TAKES_FRAMES.then_some(n),
    }
}

/// Lengths that are longer, each by another number.
fn longer(mut lengths: Lengths) -> Lengths {
    for (more, length) in [1, 39, 300, 5, 9, 6].into_iter().zip(lengths.each()) {
        *length += more;
    }
    lengths
}

/// Makes a call with buffers of these lengths and holds what comes of it to the model. Tells the status.
fn check<K: TableCall>(table: &TableBytes, text: &[u8], lengths: Lengths) -> u32 {
    let (answer, outcome) = K::model(table, text, lengths);
    let context = || {
        let rules = &table[..130 * usize::from(table[0].min(4)) + 1];
        format!("{rules:X?}, text {}, buffers {lengths:?}", shown(text))
    };
    let before = *table;
    // Tables that look right and are wrong have the first pattern's length.
    let m = usize::from(table[1]).max(1);
    for filled in Buffers::fillings(m, text.len(), lengths) {
        let mut buffers = filled.clone();
        let given = K::call(table, text, buffers.lent());
        assert_eq!(given, answer, "{}", context());
        assert!(*table == before, "the table: {}", context());
        buffers.expect(&filled.after(&outcome), &context);
    }
    outcome.answer.status
}

/// A call with the buffers that it needs.
fn check_exact<K: TableCall>(Job { rules, text }: &Job) -> u32 {
    let table = table_of(rules, text.len() as u64);
    check::<K>(&table, text, lengths_for::<K>(rules, text.len()))
}

/// The same with longer buffers, and with each one too short beside others that are exact or, for every
/// other length of the text, longer. A buffer is tested before claims are.
fn check_other_buffers<K: TableCall>(Job { rules, text }: &Job, status: u32) {
    let table = table_of(rules, 1 + text.len() as u64);
    let needed = lengths_for::<K>(rules, text.len());
    let longer = longer(needed);
    assert_eq!(check::<K>(&table, text, longer), status);
    for short in [needed, longer][text.len() % 2].one_too_short(needed) {
        assert_eq!(check::<K>(&table, text, short), 7);
    }
}

/// How often tables were taken, and refused by 12.
#[derive(Default)]
struct Tally {
    taken: usize,
    refused: usize,
}

impl Tally {
    fn count(&mut self, status: u32) {
        match status {
            0 => self.taken += 1,
            12 => self.refused += 1,
            other => panic!("status {other}"),
        }
    }

    fn expect_both(&self, least: usize) {
        let Tally { taken, refused } = self;
        let enough = *taken >= least && *refused >= least;
        assert!(enough, "{taken} taken, {refused} refused");
    }
}

/// Equal rules, rules that contain each other, rules that meet at the seam or beside it, rings shorter than
/// every pattern, and the empty ring; each pair in both orders.
pub fn tables_by_hand<K: TableCall>() {
    for (mut job, claimed_twice) in rule_tables::by_hand() {
        let status = if claimed_twice { 12 } else { 0 };
        for _ in 0..2 {
            assert_eq!(check_exact::<K>(&job), status, "{job:?}");
            check_other_buffers::<K>(&job, status);
            job.rules.reverse();
        }
    }
}

pub fn all_short_tables<K: TableCall>() {
    let mut tally = Tally::default();
    for job in rule_tables::all_short() {
        tally.count(check_exact::<K>(&job));
    }
    tally.expect_both(4_000);
}

pub fn short_tables<K: TableCall>() {
    let mut tally = Tally::default();
    for job in rule_tables::short() {
        let status = check_exact::<K>(&job);
        check_other_buffers::<K>(&job, status);
        tally.count(status);
    }
    tally.expect_both(100);
}

pub fn longer_tables<K: TableCall>() {
    let mut tally = Tally::default();
    for job in rule_tables::longer() {
        tally.count(check_exact::<K>(&job));
    }
    tally.expect_both(5);
}

/// 16 rules of 128 bytes in texts of 16,384.
pub fn largest_tables<K: TableCall>() {
    for (job, status) in rule_tables::largest() {
        assert_eq!(check_exact::<K>(&job), status);
    }
    let (job, status) = &rule_tables::largest()[1];
    check_other_buffers::<K>(job, *status);
}

/// Whatever a table has past its patterns and past its last rule, the call gives the same.
pub fn noise_does_not_matter<K: TableCall>() {
    for (round, Job { rules, text }) in rule_tables::short().step_by(7).enumerate() {
        let lengths = lengths_for::<K>(&rules, text.len());
        let first = table_of(&rules, 0);
        let expected = K::model(&first, &text, lengths);
        for noise in [1, 2 + round as u64] {
            let table = table_of(&rules, noise);
            assert!(table != first || rules.len() == 16);
            assert_eq!(K::model(&table, &text, lengths), expected);
            check::<K>(&table, &text, lengths);
        }
    }
}

/// Every choice of buffers that are one too short, exact and one too long, for one rule and for three.
pub fn buffers_around_the_needed_lengths<K: TableCall>() {
    let three = [rule(&[A, C], 1), rule(&[B], 0), rule(&[C, C, A], 2)];
    let around = |length: usize| vec![length.saturating_sub(1), length, length + 1];
    for (rules, text) in [
        (&three[..1], &[A, C, A, A][..]),
        (&three[..], &[A, C, C, A]),
        (&three[..], &[]),
    ] {
        let table = table_of(rules, 5);
        let needed = lengths_for::<K>(rules, text.len());
        for lengths in needed.choices(around) {
            let status = if lengths.are_enough(needed) { 0 } else { 7 };
            assert_eq!(check::<K>(&table, text, lengths), status);
        }
    }
    // The sizes of all rules but the last, and of one rule as often as there are rules.
    let table = table_of(&three, 6);
    for too_few in [
        &three[..2],
        &three[1..],
        &[three[1].clone(), three[1].clone()],
    ] {
        let lengths = lengths_for::<K>(too_few, 4);
        assert_eq!(check::<K>(&table, &[A, C, C, A], lengths), 7);
    }
}

/// The count at 0, 1, 16, 17 and beyond, a rule's length at 0, 128, 129 and beyond, its hold offset at
/// m - 1, m and beyond, n at 16,384, 16,385 and beyond; with any bytes past the patterns.
pub fn refusals_at_their_edges<K: TableCall>() {
    let rules: Vec<Rule> = (0..16).map(|index| rule(&[index, A], 0)).collect();
    let lengths = |n: usize| Lengths {
        tables: TableLengths::needed(16 * 128),
        found: n,
        frames: K::TAKES_FRAMES.then_some(n),
    };
    for count in 0..=255 {
        let mut table = table_of(&rules, 7);
        table[0] = count;
        let expected = if (1..=16).contains(&count) { 0 } else { 11 };
        assert_eq!(check::<K>(&table, &[B, C], lengths(2)), expected);
    }
    for number in [1, 2, 9, 16] {
        for m in [0, 1, 2, 127, 128, 129, 130, 192, 255] {
            for hold in [0, m / 2, m.max(1) - 1, m, 127, 128, 255] {
                let mut table = table_of(&rules, 8);
                table[130 * (number - 1) + 1] = m;
                table[130 * (number - 1) + 2] = hold;
                let expected = match (m, hold) {
                    (0 | 129.., _) => 4,
                    _ if hold >= m => 5,
                    _ => 0,
                };
                // The slot's noise has no byte of this text.
                table[130 * (number - 1) + 3..][..128].fill(FOREIGN);
                let text = [B, C];
                assert_eq!(check::<K>(&table, &text, lengths(2)), expected);
                // Past the count it does not matter.
                table[0] = number as u8 - 1;
                let expected = if number == 1 { 11 } else { 0 };
                assert_eq!(check::<K>(&table, &text, lengths(2)), expected);
            }
        }
    }
    let bytes = vec![FOREIGN; 81_920];
    for n in [0, 1, 16_384, 16_385, 32_768, 65_536, 65_537, 81_920] {
        let expected = if n > 16_384 { 6 } else { 0 };
        let table = table_of(&rules[..2], 9);
        assert_eq!(check::<K>(&table, &bytes[..n], lengths(n)), expected);
    }
}

/// Two faulty rules: the first of them is told, and of one rule 4 before 5.
pub fn first_faulty_rule<K: TableCall>() {
    let rules: Vec<Rule> = (0..16).map(|index| rule(&[index, A], 1)).collect();
    // The length and the hold offset of a rule, and by what it is refused.
    let faults = [
        (0, 0, 4),
        (129, 0, 4),
        (129, 129, 4),
        (255, 255, 4),
        (2, 2, 5),
        (1, 255, 5),
    ];
    let numbers = [1, 2, 3, 8, 15, 16];
    for first in numbers {
        for second in numbers {
            for (m, hold, told) in faults {
                for (other_m, other_hold, other) in faults {
                    let mut table = table_of(&rules, 10);
                    let slot = |number: usize| 130 * (number - 1) + 1;
                    table[slot(second)..][..2].copy_from_slice(&[other_m, other_hold]);
                    table[slot(first)..][..2].copy_from_slice(&[m, hold]);
                    let expected = if first <= second { told } else { other };
                    let lengths = lengths_for::<K>(&rules, 2);
                    assert_eq!(check::<K>(&table, &[B, C], lengths), expected);
                }
            }
        }
    }
}

/// The faults of a call, in the order in which they are refused.
const ORDER: [u32; 6] = [11, 4, 5, 6, 7, 12];

/// No fault, each alone, each pair and all other choices of them.
pub fn order_of_refusals<K: TableCall>() {
    for choice in 0..1 << ORDER.len() {
        let has = |status: u32| {
            let place = ORDER.iter().position(|&other| other == status);
            place.is_some_and(|place| choice >> place & 1 == 1)
        };
        let first = ORDER.into_iter().find(|&status| has(status)).unwrap_or(0);
        // Rules 1 and 2 are equal where a byte is to be claimed twice.
        let second = if has(12) { [A, A] } else { [C, C] };
        let rules = [
            rule(&[A, A], 1),
            rule(&second, 1),
            rule(&[B], 0),
            rule(&[B, B], 0),
        ];
        let counts: &[u8] = if has(11) { &[0, 17, 255] } else { &[4] };
        let text_lengths = if has(6) {
            [16_385, 32_768]
        } else {
            [2, 16_384]
        };
        for &count in counts {
            for n in text_lengths {
                let mut table = table_of(&rules, 11);
                table[0] = count;
                // A rule that has 4 comes before or after one that has 5; then both are one rule.
                for (long, held) in [(3, 3), (3, 4), (1, 4)] {
                    let mut table = table;
                    if has(4) {
                        table[130 * (long - 1) + 1] = 129;
                    }
                    if has(5) {
                        table[130 * (held - 1) + 2] = 200;
                    }
                    let mut text = vec![FOREIGN; n];
                    text[..2].fill(A);
                    let needed = lengths_for::<K>(&rules, n);
                    let all_lengths = if has(7) {
                        let mut faulty = faulty_lengths(needed);
                        faulty.retain(|lengths| !lengths.are_enough(needed));
                        faulty
                    } else {
                        vec![needed, longer(needed)]
                    };
                    for lengths in all_lengths {
                        assert_eq!(check::<K>(&table, &text, lengths), first);
                    }
                }
            }
        }
    }
}

/// The buffers go from call to call with what the call before left in them.
pub fn buffers_left_by_another_call<K: TableCall>() {
    let largest: Vec<Rule> = (0..16).map(|_| rule(&[A; 6], 0)).collect();
    let mut lengths = longer(lengths_for::<K>(&largest, 40));
    lengths.found = 36;
    let [mut buffers, _] = Buffers::fillings(6, 40, lengths);
    let mut expected = buffers.clone();
    let mut seen = BTreeSet::new();
    for (round, Job { rules, text }) in rule_tables::short().enumerate() {
        let mut table = table_of(&rules, round as u64);
        if round % 11 == 0 {
            table[0] = 0;
        }
        let (answer, outcome) = K::model(&table, &text, lengths);
        let context = || format!("{rules:?}, text {} after others", shown(&text));
        assert_eq!(
            K::call(&table, &text, buffers.lent()),
            answer,
            "{}",
            context()
        );
        expected = expected.after(&outcome);
        buffers.expect(&expected, &context);
        seen.insert(outcome.answer.status);
    }
    assert!(seen.iter().eq(&[0, 7, 11, 12]), "{seen:?}");
}

/// Lengths of more than 32 bits: none may be taken for what is left of it in 32.
pub fn lengths_beyond_32_bits<K: TableCall>() {
    const BEYOND: usize = 1 << 32;
    let rules = [rule(&[A, A], 1), rule(&[C, A], 0)];
    let text = [A, A, A, C];
    let table = table_of(&rules, 12);
    let needed = lengths_for::<K>(&rules, text.len());
    let long = reserved(BEYOND + text.len());
    long[..4].copy_from_slice(&text);
    assert_eq!(check::<K>(&table, long, needed), 6);

    // Buffers of which nothing would be left in 32 bits are longer than needed, and that is fine.
    let mut tables = LentTables::reserved(BEYOND);
    let (found, frames) = (reserved(BEYOND), reserved(BEYOND));
    let (answer, outcome) = K::model(&table, &text, needed);
    assert_eq!(outcome.answer.status, 0);
    let lent = Lent {
        tables: tables.lent(),
        found,
        frames,
    };
    assert_eq!(K::call(&table, &text, lent), answer);
    tables.expect_front(&outcome);
    expect_front(found, &entries(&outcome.occurrences));
    expect_front(frames, &outcome.frames);
}

/// What a call with a table leaves, for the tests of what it means.
#[derive(Debug, PartialEq)]
pub struct Left {
    pub answer: RulesAnswer,
    /// The occurrences of each rule.
    pub found: Vec<Vec<usize>>,
    /// The frames of a conversion.
    pub frames: Vec<u16>,
}

/// The occurrences that stand rule after rule, each rule's own.
fn by_rule(answer: &RulesAnswer, rules: usize, found: &[u16]) -> Vec<Vec<usize>> {
    let mut rest = found;
    let mut all = Vec::new();
    for told in &answer.rules[..rules] {
        let (own, others) = rest.split_at(told.occurrences as usize);
        all.push(own.iter().map(|&b| b.into()).collect());
        rest = others;
    }
    all
}

/// What a call leaves that is handed a table of these rules, and a text within the limits; or else 12.
fn left<K: TableCall<Answer = RulesAnswer>>(
    table: &TableBytes,
    rules: &[Rule],
    text: &[u8],
) -> Result<Left, u32> {
    let lengths = lengths_for::<K>(rules, text.len());
    let [mut buffers, _] = Buffers::fillings(1, text.len(), lengths);
    let answer = K::call(table, text, buffers.lent());
    if answer.status != 0 {
        assert_eq!(answer, refused(12));
        return Err(12);
    }
    Ok(Left {
        found: by_rule(&answer, rules.len(), buffers.found.lent()),
        frames: buffers.frames.lent().to_vec(),
        answer,
    })
}

/// What a conversion leaves.
pub fn converted<T: RulesCalls>(rules: &[Rule], text: &[u8]) -> Result<Left, u32> {
    left::<ConvertRules<T>>(&table_of(rules, 13), rules, text)
}

/// What a conversion leaves that is handed this table of these rules.
pub fn converted_by<T: RulesCalls>(
    table: &TableBytes,
    rules: &[Rule],
    text: &[u8],
) -> Result<Left, u32> {
    left::<ConvertRules<T>>(table, rules, text)
}

/// What a search leaves.
fn searched<T: RulesCalls>(rules: &[Rule], text: &[u8]) -> Result<Left, u32> {
    left::<SearchRules<T>>(&table_of(rules, 14), rules, text)
}

/// The answer of a call that is refused.
fn refused(status: u32) -> RulesAnswer {
    RulesAnswer {
        status,
        ..RulesAnswer::default()
    }
}

/// What an answer tells of a rule, written out.
fn told(occurrences: u32, comparisons: u32, period: u32, bound: u32, unmatched: u32) -> RuleAnswer {
    RuleAnswer {
        occurrences,
        comparisons,
        period,
        bound,
        unmatched,
    }
}

pub fn worked_examples<T: RulesCalls>() {
    // Document 01's listing as rule 1, beside two other rules.
    let listing = [A, A, C, A, A, A, C, A, A];
    let rules = [
        rule(&[A, A, C, A, A], 2),
        rule(&[A, A, A], 1),
        rule(&[A, C, C], 0),
    ];
    let left = converted::<T>(&rules, &listing).expect("apart");
    let mut expected = RulesAnswer {
        status: 0,
        ones: 18,
        ..RulesAnswer::default()
    };
    expected.rules[0] = told(2, 13, 3, 21, 0);
    expected.rules[1] = told(3, 9, 1, 19, 0);
    expected.rules[2] = told(0, 6, 3, 19, 1);
    assert_eq!(left.answer, expected);
    assert_eq!(left.found, [vec![0, 4], vec![3, 7, 8], vec![]]);
    assert_eq!(left.frames, [512, 6, 256, 6, 512, 6, 256, 6, 512]);
    // The same rules the other way about.
    let other = [rules[1].clone(), rules[0].clone()];
    let left = converted::<T>(&other, &listing).expect("apart");
    assert_eq!(left.found, [vec![3, 7, 8], vec![0, 4]]);
    assert_eq!(left.frames, [256, 6, 512, 6, 256, 6, 512, 6, 256]);
    // 134 pence with two holds, 40 more for each of three others.
    let lengths = lengths_for::<PriceRules<T>>(&rules, 9);
    let [mut buffers, _] = Buffers::fillings(1, 9, lengths);
    let priced = PriceRules::<T>::call(&table_of(&rules, 15), &listing, buffers.lent());
    assert_eq!((priced.answer, priced.pence), (Answer::default(), 254));
    // Rule 16 has the frame 4,096.
    let many: Vec<Rule> = (0..16).map(|byte| rule(&[byte], 0)).collect();
    let text: Vec<u8> = (0..18).collect();
    let left = converted::<T>(&many, &text).expect("apart");
    let numbered = (1..17).map(|number| 256 * number);
    assert_eq!(left.frames, Vec::from_iter(numbered.chain([16, 17])));
    // The hold of the listing's first occurrence is claimed by a rule of one byte too.
    let twice = [rules[0].clone(), rule(&[C], 0)];
    assert_eq!(converted::<T>(&twice, &listing).err(), Some(12));
    assert_eq!(searched::<T>(&twice, &listing).err(), Some(12));
    assert_eq!(converted::<T>(&twice, &[]).err(), None);
    // Every rule is unmatched in the empty ring.
    let left = searched::<T>(&rules, &[]).expect("an empty ring");
    let none = [
        told(0, 0, 3, 0, 1),
        told(0, 0, 1, 0, 1),
        told(0, 0, 3, 0, 1),
    ];
    assert_eq!(
        left.answer.rules[..4],
        [&none[..], &[told(0, 0, 0, 0, 0)]].concat()
    );
}

/// Jobs of all kinds in which no byte is claimed twice.
fn taken() -> impl Iterator<Item = Job> {
    let by_hand = rule_tables::by_hand().into_iter().map(|(job, _)| job);
    let all = rule_tables::short()
        .chain(by_hand)
        .chain(rule_tables::longer());
    all.filter(|job| are_apart(&job.rules, &job.text)).chain([
        rule_tables::net(128, 16_384, 5),
        rule_tables::net(16, 1_024, 9),
    ])
}

/// The answer, the tables and the occurrences of each rule are those of a search for its pattern, one
/// after another.
pub fn answers_and_buffers_rule_after_rule<T: RulesCalls + MatcherCalls>() {
    let mut unmatched = [0; 2];
    for Job { rules, text } in taken() {
        let n = text.len();
        let lengths = longer(lengths_for::<SearchRules<T>>(&rules, n));
        let [mut whole, _] = Buffers::fillings(1, n, lengths);
        let mut parts = whole.clone();
        let table = table_of(&rules, 16);
        let answer = SearchRules::<T>::call(&table, &text, whole.lent());
        let mut expected = RulesAnswer::default();
        let Lent { tables, found, .. } = parts.lent();
        let LentTables {
            mut order,
            mut delta2,
            mut delta1,
            mut delta3,
        } = tables;
        let mut found = found;
        for (rule, told) in rules.iter().zip(&mut expected.rules) {
            let m = rule.pattern.len();
            // A search for one pattern takes n entries for occurrences.
            let mut own = vec![0; n];
            let lent = LentTables {
                order,
                delta2,
                delta1,
                delta3,
            };
            let searched = T::search(&rule.pattern, &text, lent, &mut own);
            assert_eq!(searched.status, 0);
            let h = searched.occurrences as usize;
            found[..h].copy_from_slice(&own[..h]);
            *told = RuleAnswer {
                occurrences: searched.occurrences,
                comparisons: searched.comparisons,
                period: searched.period,
                bound: searched.bound,
                unmatched: u32::from(h == 0),
            };
            unmatched[usize::from(h == 0)] += 1;
            assert!(searched.comparisons <= searched.bound);
            (order, delta2) = (&mut order[m + 1..], &mut delta2[m + 1..]);
            (delta1, delta3) = (&mut delta1[256 * m..], &mut delta3[m..]);
            found = &mut found[h..];
        }
        let context = || format!("{rules:?}, text {}", shown(&text));
        assert_eq!(answer, expected, "{}", context());
        whole.expect(&parts, &context);
    }
    assert!(unmatched.iter().all(|&times| times > 500), "{unmatched:?}");
}

/// A frame is 256 times the number of the rule that claims its byte, and the byte where none does. The
/// occurrences are at most n.
pub fn frames_name_their_rules<T: RulesCalls>() {
    for Job { rules, text } in taken() {
        let left = converted::<T>(&rules, &text).expect("apart");
        let mut expected: Vec<u16> = text.iter().map(|&byte| byte.into()).collect();
        for (rule, number) in rules.iter().zip(1..) {
            for position in claims(rule, &text) {
                expected[position] = 256 * number;
            }
        }
        assert_eq!(left.frames, expected, "{rules:?}");
        let ones: u32 = text.iter().map(|byte| byte.count_ones()).sum();
        assert_eq!(left.answer.ones, ones);
        assert!(left.found.concat().len() <= text.len());
    }
}

/// Searching, converting and pricing give 12 just where two rules claim one byte.
pub fn claimed_twice_by_meaning<T: RulesCalls>() {
    let mut tally = Tally::default();
    let by_hand = rule_tables::by_hand().into_iter().map(|(job, _)| job);
    for Job { rules, text } in rule_tables::short()
        .chain(by_hand)
        .chain(rule_tables::longer())
    {
        let expected = if are_apart(&rules, &text) {
            None
        } else {
            Some(12)
        };
        assert_eq!(converted::<T>(&rules, &text).err(), expected);
        assert_eq!(searched::<T>(&rules, &text).err(), expected);
        let lengths = lengths_for::<PriceRules<T>>(&rules, text.len());
        let [mut buffers, _] = Buffers::fillings(1, text.len(), lengths);
        let priced = PriceRules::<T>::call(&table_of(&rules, 17), &text, buffers.lent());
        assert_eq!(priced.answer.status, expected.unwrap_or(0));
        tally.count(expected.unwrap_or(0));
    }
    tally.expect_both(100);
}

/// Rules that differ somewhere that both cover, laid with their hold offsets on one byte, are never refused
/// by 12, whatever the ring.
pub fn rules_that_cannot_meet<T: RulesCalls>() {
    let mut random = Random::seeded(164);
    let mut times = 0;
    while times < 400 {
        let m = [random.between(1, 5), random.between(1, 5)];
        let two = m.map(|m| rule(&random.picked(&[A, C], m), random.below(m)));
        let at = |rule: &Rule, d: isize| {
            let place = usize::try_from(rule.hold as isize + d).ok()?;
            rule.pattern.get(place).copied()
        };
        let differs = |d| match (at(&two[0], d), at(&two[1], d)) {
            (Some(one), Some(other)) => one != other,
            _ => false,
        };
        if !(-4..5).any(differs) {
            continue;
        }
        times += 1;
        for n in 0..12 {
            let text = random.picked(&[A, C], n);
            assert!(searched::<T>(&two, &text).is_ok(), "{two:?}, {text:?}");
        }
    }
}

/// Demand 3, rule by rule: of two rings that agree on every byte that one rule's search of the first
/// compares, both taken, that rule has the same comparisons, occurrences and holds; whatever the others do,
/// and whether the ring is searched or converted.
pub fn rings_that_agree_where_a_rule_compares<T: RulesCalls>() {
    let mut random = Random::seeded(165);
    let (mut different, mut others_differ) = (0, 0);
    for Job { rules, text } in taken().filter(|job| job.rules.len() < 16) {
        let n = text.len();
        let first = searched::<T>(&rules, &text).expect("apart");
        for (index, own) in rules.iter().enumerate() {
            let mut free = vec![true; n];
            for made in search(&own.pattern, &text).comparisons {
                free[made.text_position % n] = false;
            }
            let mut other = text.clone();
            for (byte, _) in other.iter_mut().zip(free).filter(|(_, free)| *free) {
                *byte = random.pick(&[own.pattern[0], !*byte, *byte, FOREIGN]);
            }
            let found = converted::<T>(&rules, &other);
            assert_eq!(found.is_ok(), are_apart(&rules, &other));
            let Ok(second) = found else { continue };
            let context = || format!("rule {}, {rules:?}, {text:?}, {other:?}", index + 1);
            assert_eq!(
                first.answer.rules[index],
                second.answer.rules[index],
                "{}",
                context()
            );
            assert_eq!(first.found[index], second.found[index], "{}", context());
            let holds: BTreeSet<usize> = (0..n)
                .filter(|&x| second.frames[x] == 256 * (index as u16 + 1))
                .collect();
            assert_eq!(holds, claims(own, &text), "{}", context());
            different += usize::from(text != other);
            others_differ += usize::from(first.answer.rules != second.answer.rules);
        }
    }
    assert!(different > 500, "only {different} rings differed");
    assert!(others_differ > 100, "only {others_differ} others did");
}

/// A ring started r bytes later has each rule's occurrences turned back, the frames started as much later
/// with the rules' numbers kept, and 12 just where the first does.
pub fn rings_started_elsewhere<T: RulesCalls>() {
    let mut tally = Tally::default();
    let by_hand = rule_tables::by_hand().into_iter().map(|(job, _)| job);
    let nets = [rule_tables::net(16, 320, 9)];
    for Job { rules, text } in rule_tables::short().step_by(2).chain(by_hand).chain(nets) {
        let n = text.len();
        let first = converted::<T>(&rules, &text);
        tally.count(*first.as_ref().err().unwrap_or(&0));
        let often = n / 12 + 1;
        for r in (0..=n).step_by(often) {
            let later = started_later(&text, r);
            let second = converted::<T>(&rules, &later);
            let context = || format!("started {r} later: {rules:?}, {text:?}");
            let (first, second) = match (&first, &second) {
                (Ok(first), Ok(second)) => (first, second),
                (first, second) => {
                    assert_eq!(first.as_ref().err(), second.as_ref().err(), "{}", context());
                    continue;
                }
            };
            assert_eq!(
                second.frames,
                started_later(&first.frames, r),
                "{}",
                context()
            );
            let mut expected = first.answer;
            for (index, told) in expected.rules.iter_mut().enumerate().take(rules.len()) {
                let turned = turned_back(&first.found[index], n.max(1), r);
                assert_eq!(second.found[index], turned, "{}", context());
                told.comparisons = second.answer.rules[index].comparisons;
                assert!(told.comparisons <= told.bound, "{}", context());
            }
            assert_eq!(second.answer, expected, "{}", context());
        }
    }
    tally.expect_both(40);
}

/// All rules and the ring turned alike have each rule's occurrences turned, the frames turned with the
/// rules' numbers kept, and 12 just where the first does.
pub fn tables_turned_alike<T: RulesCalls>() {
    let mut tally = Tally::default();
    let by_hand = rule_tables::by_hand().into_iter().map(|(job, _)| job);
    let nets = [rule_tables::net(16, 320, 9)];
    for Job { rules, text } in rule_tables::short().chain(by_hand).chain(nets) {
        let first = converted::<T>(&rules, &text);
        tally.count(*first.as_ref().err().unwrap_or(&0));
        for way in WAYS {
            let turned_rule = |own: &Rule| Rule {
                pattern: turned_bytes(way, &own.pattern),
                hold: turned_hold(way, own.hold, own.pattern.len()),
            };
            let turned: Vec<Rule> = rules.iter().map(turned_rule).collect();
            let second = converted::<T>(&turned, &turned_bytes(way, &text));
            let context = || format!("{way:?}, {rules:?}, {text:?}");
            let (first, second) = match (&first, &second) {
                (Ok(first), Ok(second)) => (first, second),
                (first, second) => {
                    assert_eq!(first.as_ref().err(), second.as_ref().err(), "{}", context());
                    continue;
                }
            };
            assert_eq!(
                second.frames,
                turned_frames(way, &first.frames),
                "{}",
                context()
            );
            let mut expected = first.answer;
            for (index, own) in rules.iter().enumerate() {
                let (m, n) = (own.pattern.len(), text.len());
                let found = turned_occurrences(way, &first.found[index], m, n);
                assert_eq!(second.found[index], found, "{}", context());
                expected.rules[index].comparisons = second.answer.rules[index].comparisons;
            }
            assert_eq!(second.answer, expected, "{}", context());
        }
    }
    tally.expect_both(80);
}

/// A price is what the model reckons over the frames that converting leaves.
pub fn price_by_the_frames<T: RulesCalls>() {
    let mut random = Random::seeded(166);
    let around_the_rebate = (4_094..4_099).map(|n| {
        let (_, text) = SHAPES[n % SHAPES.len()].pattern_and_text(&mut random, 4, n);
        let two = [&text[..2], &text[2..5]].map(|pattern| rule(pattern, 1));
        Job {
            rules: two.to_vec(),
            text,
        }
    });
    for Job { rules, text } in taken().chain(around_the_rebate) {
        let lengths = lengths_for::<PriceRules<T>>(&rules, text.len());
        let [mut buffers, _] = Buffers::fillings(1, text.len(), lengths);
        let priced = PriceRules::<T>::call(&table_of(&rules, 18), &text, buffers.lent());
        let expected = match converted::<T>(&rules, &text) {
            Ok(left) => PriceAnswer {
                answer: Answer::default(),
                pence: cost(&text, &left.frames),
            },
            Err(status) => PriceAnswer {
                answer: Answer {
                    status,
                    ..Answer::default()
                },
                pence: 0,
            },
        };
        assert_eq!(priced, expected, "{rules:?}, text {}", shown(&text));
    }
}

/// A table of one rule gives and leaves what the calls for one pattern do.
pub fn one_rule_beside_one_pattern<T>()
where
    T: RulesCalls + MatcherCalls + ConverterCalls + PriceCalls,
{
    for job in searches::jobs() {
        let own = rule(&job.pattern, job.hold);
        let (hold, pattern, text) = (job.hold as u32, &job.pattern, &job.text);
        let (m, n) = (pattern.len(), text.len());
        let table = table_of(std::slice::from_ref(&own), m as u64);
        let context = || format!("pattern {}, text {}", shown(pattern), shown(text));
        let lengths = longer(lengths_for::<ConvertRules<T>>(&[own], n));
        for before in Buffers::fillings(m, n, lengths) {
            let (mut one, mut other) = (before.clone(), before.clone());
            let lent = one.lent();
            let searched = T::search(pattern, text, lent.tables, lent.found);
            let by_table = SearchRules::<T>::call(&table, text, other.lent());
            assert_eq!(by_table, as_one_rule(searched), "{}", context());
            one.expect(&other, &context);

            let (mut one, mut other) = (before.clone(), before.clone());
            let lent = one.lent();
            let converted = T::convert(hold, pattern, text, lent.tables, lent.found, lent.frames);
            let by_table = ConvertRules::<T>::call(&table, text, other.lent());
            assert_eq!(by_table, as_one_rule(converted), "{}", context());
            one.expect(&other, &context);

            let (mut one, mut other) = (before.clone(), before.clone());
            let lent = one.lent();
            let priced = T::price(hold, pattern, text, lent.tables, lent.found);
            let by_table = PriceRules::<T>::call(&table, text, other.lent());
            assert_eq!(by_table, priced, "{}", context());
            one.expect(&other, &context);
        }
    }
}

/// The answer of a call for one pattern as that of a table of one rule.
fn as_one_rule(answer: Answer) -> RulesAnswer {
    assert_eq!(answer.status, 0);
    let mut rules = RulesAnswer {
        ones: answer.ones,
        ..RulesAnswer::default()
    };
    rules.rules[0] = RuleAnswer {
        occurrences: answer.occurrences,
        comparisons: answer.comparisons,
        period: answer.period,
        bound: answer.bound,
        unmatched: u32::from(answer.occurrences == 0),
    };
    rules
}
