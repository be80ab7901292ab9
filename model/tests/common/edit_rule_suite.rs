//! Everything that is asked of editing a rule of a table, for any implementation of the call. Each call is
//! held to the model: its whole answer, and every byte of the table. What a call that is taken afterwards
//! gives is asked of the implementation's own.

use std::collections::BTreeSet;

use ruffarmoire_model::answers::Answer;
use ruffarmoire_model::gen::Random;
use ruffarmoire_model::rule_calls;
use ruffarmoire_model::rules::{Rule, TableBytes, TABLE};

use super::harness::{reserved, shown, Buffer};
use super::rule_tables::{self, rule, table_of, Job};
use super::rules_suite::{converted, converted_by, RulesCalls};

const A: u8 = 0x06;
const C: u8 = 0x18;

/// A test program's tests: all of this module on one implementation.
macro_rules! edit_rule_suite {
    ($calls:ty) => {
        tests_of!(edit_rule_suite, $calls:
            worked_examples,
            every_rule_and_length,
            every_byte_of_the_table_kept,
            numbers_of_rules,
            hold_offsets,
            new_rule_tested_last,
            replaced_rule_tested_too,
            refusals_at_their_edges,
            order_of_refusals,
            edits_one_after_another,
            calls_after_an_edit,
            lengths_beyond_32_bits,
        );
    };
}

/// A table with a margin on either side.
fn lent(table: &TableBytes) -> Buffer<u8> {
    Buffer::junk(TABLE, 77).after(table)
}

/// The table of a buffer.
fn bytes(buffer: &mut Buffer<u8>) -> &mut TableBytes {
    buffer.lent().try_into().expect("as long as a table")
}

/// Edits a rule and holds what comes of it to the model.
fn check<T: RulesCalls>(
    number: u32,
    hold: u32,
    pattern: &[u8],
    table: &TableBytes,
) -> (Answer, TableBytes) {
    let expected = rule_calls::edit_rule(number, hold, pattern, table);
    let context = || {
        let front = &table[..130 * usize::from(table[0].min(4)) + 1];
        format!(
            "rule {number}, q {hold}, pattern {}, {front:X?}",
            shown(pattern)
        )
    };
    let mut buffer = lent(table);
    let answer = T::edit_rule(number, hold, pattern, bytes(&mut buffer));
    assert_eq!(answer, expected.answer, "{}", context());
    buffer.expect(&lent(&expected.table), "table", &context);
    if answer.status != 0 {
        assert!(expected.table == *table);
    }
    (answer, expected.table)
}

/// The status of an edit.
fn status<T: RulesCalls>(number: u32, hold: u32, pattern: &[u8], table: &TableBytes) -> u32 {
    let (answer, _) = check::<T>(number, hold, pattern, table);
    let only_status = Answer {
        status: answer.status,
        ..Answer::default()
    };
    assert_eq!(answer, only_status);
    answer.status
}

/// Sixteen rules of two bytes.
fn sixteen() -> Vec<Rule> {
    (0..16).map(|index| rule(&[index, A], 1)).collect()
}

pub fn worked_examples<T: RulesCalls>() {
    let mut table = [0x55; TABLE];
    table[0] = 2;
    (table[1], table[2], table[3]) = (1, 0, A);
    table[131..136].copy_from_slice(&[3, 2, A, A, A]);
    // Rule 2 becomes C A with hold offset 1: its length, its hold offset and its pattern, and no more.
    let (answer, edited) = check::<T>(2, 1, &[C, A], &table);
    assert_eq!(answer, Answer::default());
    let mut expected = table;
    expected[131..135].copy_from_slice(&[2, 1, C, A]);
    assert!(edited == expected);
    assert_eq!(status::<T>(3, 1, &[C, A], &table), 11);
    assert_eq!(status::<T>(0, 1, &[C, A], &table), 11);
    assert_eq!(status::<T>(2, 2, &[C, A], &table), 5);
    assert_eq!(status::<T>(2, 0, &[], &table), 4);
    assert_eq!(status::<T>(2, 0, &[C; 129], &table), 4);
    assert_eq!(status::<T>(2, 127, &[C; 128], &table), 0);
}

/// Each rule of tables of 1 to 16, with patterns of every length.
pub fn every_rule_and_length<T: RulesCalls>() {
    let mut random = Random::seeded(191);
    for count in 1..=16 {
        let table = table_of(&sixteen()[..count], count as u64);
        for number in 1..=count as u32 {
            for m in (1..=128).step_by(if count == 16 { 1 } else { 9 }) {
                let hold = random.below(m) as u32;
                assert_eq!(status::<T>(number, hold, &random.bytes(m), &table), 0);
            }
        }
    }
}

/// Only the slot of the rule is changed, and of that only the length, the hold offset and the pattern:
/// noise past it, and in slots past the count, is kept.
pub fn every_byte_of_the_table_kept<T: RulesCalls>() {
    let mut random = Random::seeded(192);
    for round in 0..400 {
        let count = random.between(1, 16);
        let table = table_of(&sixteen()[..count], round);
        let (number, m) = (random.between(1, count), random.between(1, 128));
        let pattern = random.bytes(m);
        let hold = random.below(m) as u32;
        let mut buffer = lent(&table);
        let answer = T::edit_rule(number as u32, hold, &pattern, bytes(&mut buffer));
        assert_eq!(answer, Answer::default());
        let edited = bytes(&mut buffer);
        let start = 130 * (number - 1) + 1;
        assert_eq!(edited[..start], table[..start]);
        assert_eq!(edited[start..start + 2], [m as u8, hold as u8]);
        assert_eq!(edited[start + 2..start + 2 + m], pattern);
        assert_eq!(edited[start + 2 + m..], table[start + 2 + m..]);
    }
}

/// Numbers from 1 to the count are taken; 0, those above, and such as would be a rule if some of their bits
/// were dropped are not.
pub fn numbers_of_rules<T: RulesCalls>() {
    for count in 1..=16_u32 {
        let table = table_of(&sixteen()[..count as usize], 1);
        let beyond = (4..32).flat_map(|bit| [1 << bit, 1 << bit | 1, 1 << bit | 16]);
        for number in (0..20).chain(beyond).chain([u32::MAX - 1, u32::MAX]) {
            let expected = if (1..=count).contains(&number) { 0 } else { 11 };
            assert_eq!(status::<T>(number, 0, &[C], &table), expected);
        }
    }
}

/// Hold offsets below m are taken; m, and such as would fit if some of their bits were dropped, are not.
pub fn hold_offsets<T: RulesCalls>() {
    let table = table_of(&sixteen(), 2);
    for m in [1_u32, 2, 3, 64, 127, 128] {
        let pattern = vec![C; m as usize];
        for hold in 0..m {
            assert_eq!(status::<T>(5, hold, &pattern, &table), 0);
        }
        let beyond = (7..32).flat_map(|bit| [1 << bit, 1 << bit | (m - 1)]);
        for hold in [m, m + 1, 127.max(m)]
            .into_iter()
            .chain(beyond)
            .chain([u32::MAX])
        {
            assert_eq!(status::<T>(5, hold, &pattern, &table), 5);
        }
    }
}

/// The length and hold offset of a rule that is refused, and by what.
const FAULTS: [(u8, u8, u32); 5] = [
    (0, 0, 4),
    (129, 0, 4),
    (255, 255, 4),
    (2, 2, 5),
    (1, 255, 5),
];

/// A rule of the table is refused before the new one, wherever it stands and whichever is edited.
pub fn new_rule_tested_last<T: RulesCalls>() {
    for (m, hold, told) in FAULTS {
        for faulty in [1, 2, 9, 16] {
            let mut table = table_of(&sixteen(), 3);
            table[130 * (faulty - 1) + 1..][..2].copy_from_slice(&[m, hold]);
            for number in [1, 2, 15, 16] {
                for (pattern, q) in [(&[][..], 0), (&[C; 129], 0), (&[C], 1), (&[C], 0)] {
                    assert_eq!(status::<T>(number, q, pattern, &table), told);
                }
            }
        }
    }
}

/// So is the rule that would be replaced: an edit does not mend it.
pub fn replaced_rule_tested_too<T: RulesCalls>() {
    for (m, hold, told) in FAULTS {
        for number in [1, 7, 16] {
            let mut table = table_of(&sixteen(), 4);
            table[130 * (number - 1) + 1..][..2].copy_from_slice(&[m, hold]);
            assert_eq!(status::<T>(number as u32, 0, &[C], &table), told);
            // Past the count it does not matter.
            table[0] = number as u8 - 1;
            let expected = if number == 1 { 11 } else { 0 };
            assert_eq!(status::<T>(1, 0, &[C], &table), expected);
        }
    }
}

/// Every count, and the new rule's length and hold offset at their edges.
pub fn refusals_at_their_edges<T: RulesCalls>() {
    for count in 0..=255 {
        let mut table = table_of(&sixteen(), 5);
        table[0] = count;
        let expected = if (1..=16).contains(&count) { 0 } else { 11 };
        for number in [1, u32::from(count)] {
            assert_eq!(status::<T>(number, 0, &[C], &table), expected);
        }
        assert_eq!(status::<T>(u32::from(count) + 1, 0, &[C], &table), 11);
        assert_eq!(status::<T>(0, 0, &[C], &table), 11);
    }
    let table = table_of(&sixteen(), 6);
    let long = vec![C; 65_537];
    for m in [
        0_usize, 1, 2, 127, 128, 129, 130, 255, 256, 257, 384, 65_536, 65_537,
    ] {
        for hold in [0, m.max(1) - 1, m, m + 1] {
            let expected = match m {
                0 | 129.. => 4,
                _ if hold >= m => 5,
                _ => 0,
            };
            assert_eq!(status::<T>(16, hold as u32, &long[..m], &table), expected);
        }
    }
}

/// No fault, each alone, each pair and all other choices of them: 11, then the table's 4 and 5 from rule 1
/// up, then the new rule's.
pub fn order_of_refusals<T: RulesCalls>() {
    // What is wrong, in its order: the number, rule 1's hold offset, rule 2's length, the new rule's length
    // and its hold offset.
    const ORDER: [u32; 5] = [11, 5, 4, 4, 5];
    for choice in 0..1 << ORDER.len() {
        let has = |place: usize| choice >> place & 1 == 1;
        let first = (0..ORDER.len()).find(|&place| has(place));
        let expected = first.map_or(0, |place| ORDER[place]);
        let mut table = table_of(&sixteen()[..3], 7);
        if has(1) {
            table[2] = 2;
        }
        if has(2) {
            table[131] = 129;
        }
        let pattern = if has(3) { &[C; 129][..] } else { &[C; 128] };
        let hold = if has(4) { 129 } else { 127 };
        for number in if has(0) { [0, 4] } else { [1, 3] } {
            assert_eq!(status::<T>(number, hold, pattern, &table), expected);
        }
        if has(0) {
            table[0] = 17;
            assert_eq!(status::<T>(1, hold, pattern, &table), 11);
        }
    }
}

/// One table through many edits, some of them refused.
pub fn edits_one_after_another<T: RulesCalls>() {
    let mut random = Random::seeded(193);
    let mut table = table_of(&sixteen()[..9], 8);
    let mut buffer = lent(&table);
    let mut seen = BTreeSet::new();
    for _ in 0..3_000 {
        let (number, m) = (random.below(11) as u32, random.below(131));
        let pattern = random.bytes(m);
        let hold = random.below(m + 2) as u32;
        let expected = rule_calls::edit_rule(number, hold, &pattern, &table);
        let answer = T::edit_rule(number, hold, &pattern, bytes(&mut buffer));
        assert_eq!(answer, expected.answer);
        table = expected.table;
        buffer.expect(&lent(&table), "table", &|| {
            format!("rule {number}, q {hold}, m {m}")
        });
        seen.insert(answer.status);
    }
    assert!(seen.iter().eq(&[0, 4, 5, 11]), "{seen:?}");
}

/// A table that is edited to some rules is, for a call, a table of these rules.
pub fn calls_after_an_edit<T: RulesCalls>() {
    for Job { rules, text } in rule_tables::short().step_by(5) {
        let mut table = table_of(&sixteen()[..rules.len()], 9);
        for (own, number) in rules.iter().zip(1..) {
            let answer = T::edit_rule(number, own.hold as u32, &own.pattern, &mut table);
            assert_eq!(answer, Answer::default());
        }
        let left = converted_by::<T>(&table, &rules, &text);
        assert_eq!(left, converted::<T>(&rules, &text));
        if let Ok(left) = left {
            let mut back = vec![0; text.len()];
            let answer = T::restore_rules(&table, &left.frames, &mut back);
            assert_eq!((answer, &back), (Answer::default(), &text));
        }
    }
}

/// A pattern of more than 32 bits of length may not be taken for what is left of it in 32.
pub fn lengths_beyond_32_bits<T: RulesCalls>() {
    let pattern = reserved((1 << 32) + 2);
    let table = table_of(&sixteen(), 10);
    assert_eq!(status::<T>(1, 1, pattern, &table), 4);
}
