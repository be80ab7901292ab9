//! Everything that is asked of explaining a position for one rule of a table, for any implementation of
//! the call. Each call is held to the model: its whole answer, every entry of every buffer, and the table.
//! What the call for one pattern gives is asked of the implementation's own.

use std::collections::BTreeSet;

use ruffarmoire_model::answers::{Answer, ExplainAnswer};
use ruffarmoire_model::calls::TableLengths;
use ruffarmoire_model::gen::Random;
use ruffarmoire_model::rule_calls;
use ruffarmoire_model::rules::{Rule, TableBytes};

use super::explain_suite::ExplainCalls;
use super::harness::{reserved, shown};
use super::lengths::BufferLengths;
use super::repeats::FOREIGN;
use super::rule_tables::{self, rule, table_of, Job};
use super::rules_suite::RulesCalls;
use super::table_buffers::{longer, LentTables, TableBuffers};

const A: u8 = 0x06;
const B: u8 = 0x01;
const C: u8 = 0x18;

/// A test program's tests: all of this module on one implementation, which also explains for one pattern.
macro_rules! explain_rule_suite {
    ($calls:ty) => {
        tests_of!(explain_rule_suite, $calls:
            worked_examples,
            every_rule_and_position_of_short_texts,
            rules_and_positions_of_longer_texts,
            rules_and_positions_of_largest_texts,
            each_rule_beside_its_pattern,
            bytes_claimed_twice_do_not_matter,
            buffers_of_the_rules_own_sizes,
            numbers_of_rules,
            refusals_at_their_edges,
            order_of_refusals,
            lengths_beyond_32_bits,
        );
    };
}

/// What the call is handed beside its buffers.
#[derive(Clone, Copy)]
struct Input<'a> {
    number: u32,
    position: u32,
    table: &'a TableBytes,
    text: &'a [u8],
}

impl<'a> Input<'a> {
    fn new(number: u32, position: u32, table: &'a TableBytes, text: &'a [u8]) -> Input<'a> {
        Input {
            number,
            position,
            table,
            text,
        }
    }
}

/// Makes a call with buffers of these lengths and holds what comes of it to the model.
fn check<T: RulesCalls>(input: Input, lengths: TableLengths) -> ExplainAnswer {
    let Input {
        number,
        position,
        table,
        text,
    } = input;
    let expected = rule_calls::explain_rule(number, position, table, text, lengths);
    let context = || {
        let rules = &table[..130 * usize::from(table[0].min(4)) + 1];
        let text = shown(text);
        format!("rule {number}, b {position}, {rules:X?}, text {text}, buffers {lengths:?}")
    };
    let before = *table;
    for filled in TableBuffers::fillings(3, lengths) {
        let mut buffers = filled.clone();
        let answer = T::explain_rule(number, position, table, text, buffers.lent());
        assert_eq!(answer, expected.answer, "{}", context());
        assert!(*table == before, "the table: {}", context());
        buffers.expect(&filled.after(&expected.left), &context);
    }
    expected.answer
}

/// The lengths that a rule needs.
fn needed(own: &Rule) -> TableLengths {
    TableLengths::needed(own.pattern.len())
}

/// Explains some positions of a text for each of these rules, with buffers that are exact or longer.
fn check_job<T: RulesCalls>(Job { rules, text }: &Job, positions: &[usize]) {
    let table = table_of(rules, text.len() as u64);
    for (own, number) in rules.iter().zip(1..) {
        for &b in positions {
            let lengths = [needed(own), longer(own.pattern.len())][b % 2];
            let input = Input::new(number, b as u32, &table, text);
            let told = check::<T>(input, lengths);
            let expected = if b < text.len() { 0 } else { 10 };
            assert_eq!(told.answer.status, expected);
        }
    }
}

pub fn worked_examples<T: RulesCalls>() {
    let rules = [rule(&[A, A, C, A, A], 2), rule(&[A], 0), rule(&[C, C], 1)];
    let table = table_of(&rules, 1);
    let listing = [A, A, C, A, A, A, C, A, A];
    let told = |number: u32, position: u32| {
        let own = &rules[number as usize - 1];
        let told = check::<T>(Input::new(number, position, &table, &listing), needed(own));
        assert_eq!(told.answer, Answer::default());
        [told.outcome, told.place, told.from, told.kind]
    };
    assert_eq!(told(1, 0), [1, 0, 0, 0]);
    assert_eq!(told(1, 1), [3, 2, 0, 3]);
    assert_eq!(told(1, 3), [2, 3, 0, 0]);
    assert_eq!(told(1, 8), [3, 3, 7, 1]);
    // A rule of one byte is laid everywhere.
    assert_eq!(told(2, 1), [1, 0, 0, 0]);
    assert_eq!(told(2, 2), [2, 0, 0, 0]);
    // The last byte of the third rule differs at 0, which rules 1 out too.
    assert_eq!(told(3, 0), [2, 1, 0, 0]);
    assert_eq!(told(3, 1), [3, 0, 0, 1]);
}

pub fn every_rule_and_position_of_short_texts<T: RulesCalls>() {
    let by_hand = rule_tables::by_hand().into_iter().map(|(job, _)| job);
    for (round, mut job) in rule_tables::short().step_by(3).chain(by_hand).enumerate() {
        job.rules.truncate(4 + round % 13);
        let n = job.text.len();
        let all: Vec<usize> = (0..n).step_by(n / 9 + 1).chain([n, n + 1]).collect();
        check_job::<T>(&job, &all);
    }
}

pub fn rules_and_positions_of_longer_texts<T: RulesCalls>() {
    let mut random = Random::seeded(181);
    for job in rule_tables::longer().step_by(3) {
        let n = job.text.len();
        let any = random.below(n.max(1));
        check_job::<T>(&job, &[0, any, n.max(1) - 1, n]);
    }
}

pub fn rules_and_positions_of_largest_texts<T: RulesCalls>() {
    for (job, _) in rule_tables::largest().into_iter().step_by(3) {
        check_job::<T>(&job, &[9_000, 16_383]);
    }
}

/// The answer and the tables are those of an explanation for the rule's pattern.
pub fn each_rule_beside_its_pattern<T: RulesCalls + ExplainCalls>() {
    let mut random = Random::seeded(182);
    let mut seen = BTreeSet::new();
    for Job { rules, text } in rule_tables::short().chain(rule_tables::longer()) {
        let table = table_of(&rules, 2);
        for (own, number) in rules.iter().zip(1..) {
            let position = random.below(text.len() + 1) as u32;
            let lengths = longer(own.pattern.len());
            let [mut one, _] = TableBuffers::fillings(3, lengths);
            let mut other = one.clone();
            let by_pattern = T::explain(position, &own.pattern, &text, one.lent());
            let by_table = T::explain_rule(number, position, &table, &text, other.lent());
            assert_eq!(by_table, by_pattern);
            one.expect(&other, &|| format!("{own:?}, text {}", shown(&text)));
            seen.insert(by_table.outcome);
        }
    }
    assert!(seen.iter().eq(&[0, 1, 2, 3]), "{seen:?}");
}

/// An explanation is for one rule: 12 is not asked for.
pub fn bytes_claimed_twice_do_not_matter<T: RulesCalls>() {
    let equal: Vec<Rule> = (0..16).map(|_| rule(&[A, A], 1)).collect();
    check_job::<T>(
        &Job {
            rules: equal,
            text: vec![A, A, A, C],
        },
        &[0, 1, 2, 3, 4],
    );
}

/// The buffers need the sizes of the named rule, not those of the others or their sum.
pub fn buffers_of_the_rules_own_sizes<T: RulesCalls>() {
    let rules = [
        rule(&[A; 128], 3),
        rule(&[A, C], 1),
        rule(&[B], 0),
        rule(&[C; 7], 0),
    ];
    let table = table_of(&rules, 3);
    let text = [A, C, A, A];
    let around = |length: usize| vec![length - 1, length, length + 1];
    for (number, own) in (1..).zip(&rules) {
        let own = needed(own);
        let input = Input::new(number, 1, &table, &text);
        for lengths in own.choices(around) {
            let status = if lengths.are_enough(own) { 0 } else { 7 };
            assert_eq!(check::<T>(input, lengths).answer.status, status);
        }
    }
}

/// Numbers from 1 to the count are taken; 0, those above, and such as would be a rule if some of their bits
/// were dropped are not.
pub fn numbers_of_rules<T: RulesCalls>() {
    let rules: Vec<Rule> = (0..16).map(|index| rule(&[index, A], 1)).collect();
    for count in 1..=16_u32 {
        let table = table_of(&rules[..count as usize], 4);
        let near = 0..20;
        let beyond = (4..32).flat_map(|bit| [1 << bit, 1 << bit | 1, 1 << bit | 16]);
        for number in near.chain(beyond).chain([u32::MAX - 1, u32::MAX]) {
            let expected = if (1..=count).contains(&number) { 0 } else { 11 };
            let input = Input::new(number, 0, &table, &[A, C]);
            let told = check::<T>(input, TableLengths::needed(2));
            assert_eq!(told.answer.status, expected);
        }
    }
}

/// The count, each rule's length and hold offset, n and the position at their edges, whichever rule is
/// named.
pub fn refusals_at_their_edges<T: RulesCalls>() {
    let rules: Vec<Rule> = (0..16).map(|index| rule(&[index, A], 0)).collect();
    let lengths = TableLengths::needed(128);
    let status = |table: &TableBytes, number: u32| {
        let input = Input::new(number, 0, table, &[B, C]);
        check::<T>(input, lengths).answer.status
    };
    for count in 0..=255 {
        let mut table = table_of(&rules, 5);
        table[0] = count;
        let expected = if (1..=16).contains(&count) { 0 } else { 11 };
        assert_eq!(status(&table, 1), expected);
        assert_eq!(status(&table, u32::from(count)), expected);
        assert_eq!(status(&table, u32::from(count) + 1), 11);
    }
    for faulty in [1, 2, 16] {
        for m in [0, 1, 2, 128, 129, 255] {
            for hold in [0, m.max(1) - 1, m, 128, 255] {
                let mut table = table_of(&rules, 6);
                table[130 * (faulty - 1) + 1] = m;
                table[130 * (faulty - 1) + 2] = hold;
                let expected = match (m, hold) {
                    (0 | 129.., _) => 4,
                    _ if hold >= m => 5,
                    _ => 0,
                };
                for number in [1, 2, 15, 16] {
                    assert_eq!(status(&table, number), expected);
                }
            }
        }
    }
    let table = table_of(&rules, 7);
    let text = vec![FOREIGN; 65_537];
    for n in [0, 1, 16_384, 16_385, 65_536, 65_537] {
        for position in [0, n.max(1) - 1, n, n + 1, u32::MAX as usize] {
            let expected = match n {
                16_385.. => 6,
                _ if position >= n => 10,
                _ => 0,
            };
            let input = Input::new(3, position as u32, &table, &text[..n]);
            assert_eq!(check::<T>(input, lengths).answer.status, expected);
        }
    }
}

/// The faults of a call, in the order in which they are refused.
const ORDER: [u32; 6] = [11, 4, 5, 6, 7, 10];

/// No fault, each alone, each pair and all other choices of them.
pub fn order_of_refusals<T: RulesCalls>() {
    let rules = [rule(&[A, A], 1), rule(&[C, C], 1), rule(&[B, A], 0)];
    for choice in 0..1 << ORDER.len() {
        let has = |status: u32| {
            let place = ORDER.iter().position(|&other| other == status);
            place.is_some_and(|place| choice >> place & 1 == 1)
        };
        let first = ORDER.into_iter().find(|&status| has(status)).unwrap_or(0);
        // No table of rules, or a number that is none of them.
        let named: &[(u8, u32)] = if has(11) {
            &[(0, 1), (17, 2), (3, 0), (3, 4), (3, u32::MAX)]
        } else {
            &[(3, 1), (3, 3)]
        };
        for &(count, number) in named {
            for n in if has(6) {
                [16_385, 32_768]
            } else {
                [2, 16_384]
            } {
                for (long, held) in [(3, 3), (2, 3), (1, 2)] {
                    let mut table = table_of(&rules, 8);
                    table[0] = count;
                    if has(4) {
                        table[130 * (long - 1) + 1] = 129;
                    }
                    if has(5) {
                        table[130 * (held - 1) + 2] = 200;
                    }
                    let text = vec![FOREIGN; n];
                    let needed = TableLengths::needed(2);
                    let all_lengths = if has(7) {
                        needed.one_too_short(needed)
                    } else {
                        vec![needed]
                    };
                    let position = if has(10) { n } else { n - 1 } as u32;
                    for lengths in all_lengths {
                        let input = Input::new(number, position, &table, &text);
                        assert_eq!(check::<T>(input, lengths).answer.status, first);
                    }
                }
            }
        }
    }
}

/// Lengths of more than 32 bits: none may be taken for what is left of it in 32.
pub fn lengths_beyond_32_bits<T: RulesCalls>() {
    const BEYOND: usize = 1 << 32;
    let table = table_of(&[rule(&[A, A], 1), rule(&[C, A], 0)], 9);
    let own = [A, A, A, C];
    let text = reserved(BEYOND + own.len());
    text[..4].copy_from_slice(&own);
    let needed = TableLengths::needed(2);
    let input = Input::new(2, 3, &table, text);
    assert_eq!(check::<T>(input, needed).answer.status, 6);

    // Buffers of which nothing would be left in 32 bits are longer than needed, and that is fine.
    let mut tables = LentTables::reserved(BEYOND);
    let expected = rule_calls::explain_rule(2, 3, &table, &own, needed);
    let answer = T::explain_rule(2, 3, &table, &own, tables.lent());
    assert_eq!((answer, answer.outcome), (expected.answer, 1));
    tables.expect_front(&expected.left);
}
