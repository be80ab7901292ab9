//! The model on a table of rules: document 02, "A rule table", worked out by hand, and what must hold of its
//! definitions.

mod common;

use std::collections::{BTreeMap, BTreeSet};
use std::mem::offset_of;

use common::rule_tables::{self, are_apart, claims, needed, rule, table_of, Job};
use common::words::words;
use ruffarmoire_model::answers::{Answer, Refusal, RuleAnswer, RulesAnswer};
use ruffarmoire_model::calls::{self, TableLengths};
use ruffarmoire_model::rule_calls::{
    self, convert_rules, edit_rule, explain_rule, price_rules, restore_rules, search_rules,
};
use ruffarmoire_model::rules::{
    check_claims, frames, hold_of, restored, rules_of, slot, Rule, TableBytes, SLOT, TABLE,
};
use ruffarmoire_model::{convert, MAX_RULES};

const A: u8 = 0x06;
const B: u8 = 0x01;
const C: u8 = 0x18;

/// Document 01's listing.
const LISTING: [u8; 9] = [A, A, C, A, A, A, C, A, A];

/// Its motif with its hold offset, a rule that is found beside it, and one that is not.
fn three() -> [Rule; 3] {
    [
        rule(&[A, A, C, A, A], 2),
        rule(&[A, A, A], 1),
        rule(&[A, C, C], 0),
    ]
}

/// As C sees it, a table is 2,081 bytes, and an answer is two numbers of 32 bits and five for each rule.
#[test]
fn layouts() {
    assert_eq!((TABLE, SLOT, MAX_RULES), (2_081, 130, 16));
    assert_eq!([slot(1), slot(2), slot(16)], [1, 131, 1_951]);
    let of_rule = [
        offset_of!(RuleAnswer, occurrences),
        offset_of!(RuleAnswer, comparisons),
        offset_of!(RuleAnswer, period),
        offset_of!(RuleAnswer, bound),
        offset_of!(RuleAnswer, unmatched),
    ];
    assert_eq!(of_rule, [0, 4, 8, 12, 16]);
    assert_eq!(size_of::<RuleAnswer>(), 20);
    let of_rules = [
        offset_of!(RulesAnswer, status),
        offset_of!(RulesAnswer, ones),
        offset_of!(RulesAnswer, rules),
    ];
    assert_eq!(of_rules, [0, 4, 8]);
    assert_eq!(size_of::<RulesAnswer>(), 328);
}

/// Byte 0 is the count; each slot has a length, a hold offset and the pattern. The rest is not read.
#[test]
fn rules_of_a_table() {
    let mut table = [0xFF; TABLE];
    table[0] = 2;
    table[1..5].copy_from_slice(&[2, 1, A, C]);
    table[131..134].copy_from_slice(&[1, 0, B]);
    let expected = vec![rule(&[A, C], 1), rule(&[B], 0)];
    assert_eq!(rules_of(&table), Ok(expected.clone()));
    for noise in 0..9 {
        assert_eq!(rules_of(&table_of(&expected, noise)), Ok(expected.clone()));
    }
}

/// Every number of the answers, the occurrences rule after rule, and the frames.
#[test]
fn listing_with_three_rules() {
    let rules = three();
    let table = table_of(&rules, 1);
    let outcome = convert_rules(&table, &LISTING, needed(&rules), 9, 9);
    let told = |[occurrences, comparisons, period, bound, unmatched]: [u32; 5]| RuleAnswer {
        occurrences,
        comparisons,
        period,
        bound,
        unmatched,
    };
    let mut expected = RulesAnswer {
        status: 0,
        ones: 18,
        ..RulesAnswer::default()
    };
    // Rule 2 differs in its last byte at 0, is found at 3 by three comparisons, differs in its last byte at
    // 4, is found at 7 by three, and again at 8 by one. Rule 3 differs at 0 by its second comparison, and
    // at 1, 3, 5 and 7 by its first.
    expected.rules[0] = told([2, 13, 3, 21, 0]);
    expected.rules[1] = told([3, 9, 1, 19, 0]);
    expected.rules[2] = told([0, 6, 3, 19, 1]);
    assert_eq!(outcome.answer, expected);
    assert_eq!(outcome.left.occurrences, [0, 4, 3, 7, 8]);
    assert_eq!(outcome.left.frames, [512, 6, 256, 6, 512, 6, 256, 6, 512]);
    let tables = rules.clone().map(|own| {
        let m = own.pattern.len();
        calls::prepare(&own.pattern, TableLengths::needed(m))
    });
    let order: Vec<i16> = tables.iter().flat_map(|own| own.order.clone()).collect();
    assert_eq!(outcome.left.order, order);
    assert_eq!(order[..10], [4, 3, 0, 1, 2, -1, 2, 0, 1, -1]);
    let delta1: Vec<usize> = tables.iter().flat_map(|own| own.delta1.clone()).collect();
    assert_eq!(outcome.left.delta1, delta1);
    // A search tells all but the ones and leaves no frames.
    let searched = search_rules(&table, &LISTING, needed(&rules), 9);
    assert_eq!(
        searched.answer,
        RulesAnswer {
            ones: 0,
            ..expected
        }
    );
    assert_eq!(searched.left.occurrences, outcome.left.occurrences);
    assert_eq!(searched.left.frames, []);
    // Nine bytes of two ones, and five holds.
    let priced = price_rules(&table, &LISTING, needed(&rules), 9);
    assert_eq!(
        (priced.answer.answer, priced.answer.pence),
        (Answer::default(), 254)
    );
    assert_eq!(priced.left.occurrences, outcome.left.occurrences);
}

/// Rule k's hold is 256 × k, so that rule 1 prints as before.
#[test]
fn holds_are_numbered() {
    assert_eq!([hold_of(1), hold_of(2), hold_of(16)], [256, 512, 4_096]);
    assert_eq!(hold_of(1), convert::HOLD);
    let many: Vec<Rule> = (0..16).map(|byte| rule(&[byte], 0)).collect();
    let text: Vec<u8> = (0..17).collect();
    let numbered = (1..=16).map(|number| 256 * number);
    assert_eq!(frames(&many, &text), Vec::from_iter(numbered.chain([16])));
}

/// Rules are claimed against each other by where their holds go round, not by where they begin.
#[test]
fn claims_that_meet() {
    let refused = Err(Refusal::ClaimedTwice);
    let check = |first: Rule, second: Rule, text: &[u8]| check_claims(&[first, second], text);
    assert_eq!(check(rule(&[A], 0), rule(&[A], 0), &[A]), refused);
    assert_eq!(check(rule(&[A], 0), rule(&[A], 0), &[C]), Ok(()));
    assert_eq!(
        check(rule(&[A, C], 1), rule(&[C, A], 0), &[A, C, A, B]),
        refused
    );
    assert_eq!(
        check(rule(&[A, C], 0), rule(&[C, A], 0), &[A, C, A, B]),
        Ok(())
    );
    // Over the seam, and round a ring that is shorter than both.
    assert_eq!(
        check(rule(&[A, C], 1), rule(&[C, B], 0), &[C, B, A]),
        refused
    );
    assert_eq!(
        check(rule(&[A, C, A], 2), rule(&[A, C], 0), &[A, C]),
        refused
    );
    assert_eq!(
        check(rule(&[A, C, A], 1), rule(&[A, C], 0), &[A, C]),
        Ok(())
    );
    // One rule's own occurrences overlap and are no reason.
    assert_eq!(check_claims(&[rule(&[A, A], 1)], &[A; 5]), Ok(()));
    assert_eq!(check(rule(&[A], 0), rule(&[A], 0), &[]), Ok(()));
}

#[test]
fn frames_restored() {
    let restore = |rules: &[Rule], frames: &[u16]| {
        let restored = restore_rules(&table_of(rules, 2), frames, frames.len());
        (restored.answer.status, restored.text)
    };
    let rules = three();
    let listing = [512, 6, 256, 6, 512, 6, 256, 6, 512];
    assert_eq!(restore(&rules, &listing), (0, LISTING.to_vec()));
    let refused = (9, vec![]);
    // The frames of rule 1 alone; a rule that is not in the table; the wrong rule; no frame.
    assert_eq!(restore(&rules, &[6, 6, 256, 6, 6, 6, 256, 6, 6]), refused);
    assert_eq!(restore(&rules[..1], &listing), refused);
    assert_eq!(restore(&[rule(&[A], 0)], &[512]), refused);
    assert_eq!(
        restore(&[rule(&[A], 0), rule(&[C], 0)], &[512, 256]),
        (0, vec![C, A])
    );
    assert_eq!(
        restore(&[rule(&[A], 0), rule(&[C], 0)], &[512, 512, 256]),
        (0, vec![C, C, A])
    );
    assert_eq!(restore(&[rule(&[A], 0), rule(&[C], 0)], &[257]), refused);
    assert_eq!(restore(&[rule(&[A], 0), rule(&[C], 0)], &[0]), (0, vec![0]));
    assert_eq!(restore(&[rule(&[A], 0), rule(&[C], 0)], &[6]), refused);
    // Cards that would give 12.
    let equal = [rule(&[A], 0), rule(&[A], 0)];
    for frame in [6, 256, 512] {
        assert_eq!(restore(&equal, &[frame]), refused);
    }
    assert_eq!(restore(&equal, &[0x18]), (0, vec![C]));
}

/// The new rule stands in its slot, and every other byte is as it was.
#[test]
fn edits() {
    let table = table_of(&three(), 3);
    let edited = edit_rule(2, 3, &[B, C, B, C], &table);
    assert_eq!(edited.answer, Answer::default());
    let [first, _, third] = three();
    let expected = vec![first, rule(&[B, C, B, C], 3), third];
    assert_eq!(rules_of(&edited.table), Ok(expected));
    let changed: BTreeSet<usize> = (0..TABLE)
        .filter(|&index| edited.table[index] != table[index])
        .collect();
    assert!(changed.is_subset(&(131..137).collect()));
    // Back again: what the longer pattern wrote past the old one stays.
    let back = edit_rule(2, 1, &[A, A, A], &edited.table);
    assert_eq!(rules_of(&back.table), rules_of(&table));
    assert_eq!((back.table[136], edited.table[136]), (C, C));
    let longest = edit_rule(3, 127, &[C; 128], &table).table;
    assert_eq!(longest[261..263], [128, 127]);
    assert_eq!(longest[263..391], [C; 128]);
    assert_eq!(longest[391..], table[391..]);
}

/// The status of each call, where a table, a number, n, each buffer, the frames and a position may be wrong.
#[test]
fn refusals() {
    let table = table_of(&three(), 4);
    let search = |table: &TableBytes, n: usize, lengths: TableLengths, found: usize| {
        let answer = search_rules(table, &vec![B; n], lengths, found).answer;
        let only_status = RulesAnswer {
            status: answer.status,
            ..RulesAnswer::default()
        };
        assert!(answer.status == 0 || answer == only_status);
        answer.status
    };
    let enough = needed(&three());
    let with = |changes: &[(usize, u8)]| {
        let mut table = table;
        for &(index, byte) in changes {
            table[index] = byte;
        }
        table
    };
    assert_eq!(search(&table, 16_384, enough, 16_384), 0);
    assert_eq!(search(&with(&[(0, 0)]), 1, enough, 1), 11);
    assert_eq!(search(&with(&[(0, 17)]), 1, enough, 1), 11);
    assert_eq!(search(&with(&[(0, 255), (1, 0)]), 1, enough, 1), 11);
    assert_eq!(search(&with(&[(1, 0)]), 1, enough, 1), 4);
    assert_eq!(search(&with(&[(1, 129)]), 1, enough, 1), 4);
    assert_eq!(search(&with(&[(2, 5)]), 1, enough, 1), 5);
    // Rule 1's 5 comes before rule 2's 4, and rule 2's 4 before rule 3's 5.
    assert_eq!(search(&with(&[(2, 5), (131, 0)]), 1, enough, 1), 5);
    assert_eq!(search(&with(&[(131, 0), (262, 3)]), 1, enough, 1), 4);
    assert_eq!(search(&with(&[(262, 3)]), 16_385, enough, 0), 5);
    assert_eq!(search(&table, 16_385, enough, 0), 6);
    assert_eq!(search(&table, 2, enough, 1), 7);
    let shorts = [
        TableLengths {
            order: 13,
            ..enough
        },
        TableLengths {
            delta2: 13,
            ..enough
        },
        TableLengths {
            delta1: 256 * 11 - 1,
            ..enough
        },
        TableLengths {
            delta3: 10,
            ..enough
        },
    ];
    for short in shorts {
        assert_eq!(search(&table, 1, short, 1), 7);
    }
    // 12 after 7.
    let twice = [rule(&[A], 0), rule(&[A], 0)];
    let converted = |found: usize, frames: usize| {
        let outcome = convert_rules(&table_of(&twice, 5), &[A], needed(&twice), found, frames);
        outcome.answer.status
    };
    assert_eq!(
        [converted(1, 1), converted(0, 1), converted(1, 0)],
        [12, 7, 7]
    );
    let priced = price_rules(&table_of(&twice, 5), &[A], needed(&twice), 1);
    assert_eq!(priced.answer.answer.status, 12);
    // An explanation: its own number and its own sizes, and 10 after 7.
    let explain = |number: u32, b: u32, m: usize| {
        explain_rule(number, b, &table, &[A, A], TableLengths::needed(m))
            .answer
            .answer
            .status
    };
    assert_eq!(
        [explain(0, 0, 5), explain(4, 0, 5), explain(3, 0, 3)],
        [11, 11, 0]
    );
    assert_eq!(
        [explain(1, 9, 4), explain(1, 9, 5), explain(2, 1, 3)],
        [7, 10, 0]
    );
    // An edit: the table first, the rule that it replaces too, and the new rule last.
    let edit = |number: u32, hold: u32, m: usize, table: &TableBytes| {
        let edited = edit_rule(number, hold, &vec![A; m], table);
        assert!(edited.answer.status == 0 || edited.table == *table);
        edited.answer.status
    };
    assert_eq!([edit(0, 0, 1, &table), edit(4, 0, 0, &table)], [11, 11]);
    assert_eq!([edit(3, 0, 0, &table), edit(3, 0, 129, &table)], [4, 4]);
    assert_eq!([edit(3, 1, 1, &table), edit(3, 127, 128, &table)], [5, 0]);
    assert_eq!(edit(3, 0, 0, &with(&[(2, 5)])), 5);
    assert_eq!(edit(1, 0, 1, &with(&[(2, 5)])), 5);
    assert_eq!(edit(1, 1, 1, &with(&[(261, 0)])), 4);
}

/// The lengths that are needed are those of each rule in sum.
#[test]
fn lengths_in_sum() {
    for job in rule_tables::short().chain(rule_tables::longer()) {
        let (sum, expected) = (rule_calls::needed(&job.rules), needed(&job.rules));
        assert_eq!((sum.order, sum.delta2), (expected.order, expected.delta2));
        assert_eq!((sum.delta1, sum.delta3), (expected.delta1, expected.delta3));
    }
}

/// 12 just where the claims, read off the ring's row, are more than the bytes claimed; and then no byte
/// has more than one hold, so that a frame names one rule.
#[test]
fn claims_by_their_meaning() {
    let mut times = [0; 2];
    for Job { rules, text } in rule_tables::all_short().chain(rule_tables::short()) {
        let apart = are_apart(&rules, &text);
        assert_eq!(
            check_claims(&rules, &text).is_ok(),
            apart,
            "{rules:?}, {text:?}"
        );
        times[usize::from(apart)] += 1;
        if apart {
            let frames = frames(&rules, &text);
            for (own, number) in rules.iter().zip(1..) {
                let held = (0..text.len()).filter(|&x| frames[x] == 256 * number);
                assert_eq!(BTreeSet::from_iter(held), claims(own, &text));
            }
        }
    }
    assert!(times.iter().all(|&times| times > 1_000), "{times:?}");
}

/// Frames over three bytes and two holds are put back just where some text over these bytes, in which none is
/// claimed twice, converts to them, and then to that text.
#[test]
fn all_short_frames_restored() {
    let all: Vec<Rule> = words(&[A, C], 1..4)
        .flat_map(|pattern| (0..pattern.len()).map(move |hold| rule(&pattern, hold)))
        .collect();
    for first in &all {
        for second in &all {
            let rules = [first.clone(), second.clone()];
            for n in 0..4 {
                let texts: BTreeMap<Vec<u16>, Vec<u8>> = words(&[A, B, C], n..n + 1)
                    .filter(|text| are_apart(&rules, text))
                    .map(|text| (frames(&rules, &text), text))
                    .collect();
                for given in words(&[6, 1, 0x18, 256, 512], n..n + 1) {
                    let expected = texts.get(&given).cloned().ok_or(Refusal::NoConversion);
                    assert_eq!(restored(&rules, &given), expected, "{rules:?}, {given:?}");
                }
            }
        }
    }
}

/// A text that is converted and put back is what it was, unless a byte is claimed twice.
#[test]
fn conversions_restored() {
    for Job { rules, text } in rule_tables::short().chain(rule_tables::longer()) {
        let given = frames(&rules, &text);
        let expected = if are_apart(&rules, &text) {
            Ok(text)
        } else {
            Err(Refusal::NoConversion)
        };
        assert_eq!(restored(&rules, &given), expected);
    }
}
