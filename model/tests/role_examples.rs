//! The model on roles: document 02, "Who may do what", worked out by hand, and what must hold of
//! its definitions.

mod common;

use common::rule_tables::{self, needed, rule, table_of, Job};
use ruffarmoire_model::answers::{Answer, Refusal, RulesAnswer};
use ruffarmoire_model::calls::{ExplainOutcome, PriceOutcome, RestoreOutcome, TableLengths};
use ruffarmoire_model::role_calls::{convert_as, edit_as, explain_as, price_as, restore_as};
use ruffarmoire_model::roles::{check_role, Role, Task, ROLES};
use ruffarmoire_model::rule_calls::{
    convert_rules, edit_rule, explain_rule, price_rules, restore_rules, RulesOutcome,
};
use ruffarmoire_model::rules::{frames, TABLE};

const A: u8 = 0x06;
const C: u8 = 0x18;

/// The tasks in document 02's order: convert, put back, explain, price, edit the table.
const TASKS: [Task; 5] = [
    Task::Convert,
    Task::Restore,
    Task::Explain,
    Task::Price,
    Task::Edit,
];

/// Numbers that are no role.
const NO_ROLES: [u32; 11] = [
    3,
    4,
    7,
    255,
    256,
    257,
    258,
    65_536,
    65_538,
    1 << 31,
    u32::MAX,
];

/// Fifteen entries, yes or no.
#[test]
fn who_may_do_what() {
    let (yes, no) = (true, false);
    for (role, expected) in [
        (Role::Draughtswoman, [yes, yes, yes, yes, yes]),
        (Role::Mender, [yes, yes, yes, yes, no]),
        (Role::Minder, [yes, no, yes, no, no]),
    ] {
        assert_eq!(TASKS.map(|task| role.may(task)), expected, "{role:?}");
        let checked = TASKS.map(|task| check_role(role.number(), task));
        let refused = Err(Refusal::NotPermitted);
        assert_eq!(
            checked,
            expected.map(|may| if may { Ok(()) } else { refused })
        );
    }
}

/// 0, 1 and 2 are roles, and no other number is.
#[test]
fn numbers_of_roles() {
    assert_eq!(ROLES.map(Role::number), [0, 1, 2]);
    assert_eq!(Role::numbered(0), Ok(Role::Draughtswoman));
    assert_eq!(Role::numbered(1), Ok(Role::Mender));
    assert_eq!(Role::numbered(2), Ok(Role::Minder));
    for number in NO_ROLES {
        assert_eq!(Role::numbered(number), Err(Refusal::NotPermitted));
        for task in TASKS {
            assert_eq!(check_role(number, task), Err(Refusal::NotPermitted));
        }
    }
    assert_eq!(Refusal::NotPermitted.status(), 13);
}

/// What a minder may do a mender may, and what a mender may do a draughtswoman may.
#[test]
fn each_role_may_do_what_the_next_may() {
    for task in TASKS {
        for pair in ROLES.windows(2) {
            assert!(
                pair[0].may(task) || !pair[1].may(task),
                "{pair:?}, {task:?}"
            );
        }
    }
}

/// The status of each call with document 01's listing, for each role, and what is left of the
/// table.
#[test]
fn listing_by_each_role() {
    let rules = [rule(&[A, A, C, A, A], 2), rule(&[A, A, A], 1)];
    let table = table_of(&rules, 1);
    let text = [A, A, C, A, A, A, C, A, A];
    let frames = [512, 6, 256, 6, 512, 6, 256, 6, 512];
    let enough = needed(&rules);
    let statuses = |role: u32| {
        let converted = convert_as(role, &table, &text, enough, 9, 9);
        let restored = restore_as(role, &table, &frames, 9);
        let explained = explain_as(role, 1, 3, &table, &text, enough);
        let priced = price_as(role, &table, &text, enough, 9);
        let edited = edit_as(role, 2, 0, &[C], &table);
        if converted.answer.status == 0 {
            assert_eq!(converted.left.frames, frames);
            assert_eq!(converted.answer.ones, 18);
        }
        if restored.answer.status == 0 {
            assert_eq!(restored.text, text);
        }
        if explained.answer.answer.status == 0 {
            assert_eq!((explained.answer.outcome, explained.answer.place), (2, 3));
        }
        let pence = if priced.answer.answer.status == 0 {
            254
        } else {
            0
        };
        assert_eq!(priced.answer.pence, pence);
        assert_eq!(edited.table != table, edited.answer.status == 0);
        [
            converted.answer.status,
            restored.answer.status,
            explained.answer.answer.status,
            priced.answer.answer.status,
            edited.answer.status,
        ]
    };
    assert_eq!(statuses(0), [0, 0, 0, 0, 0]);
    assert_eq!(statuses(1), [0, 0, 0, 0, 13]);
    assert_eq!(statuses(2), [0, 13, 0, 13, 13]);
    for number in NO_ROLES {
        assert_eq!(statuses(number), [13; 5]);
    }
}

/// Calls with which all is wrong: 13 comes before every other number, with zeros, nothing is put in
/// a buffer, and the table is as it was.
#[test]
fn thirteen_before_every_other_number() {
    let bad = [0; TABLE];
    let long = vec![A; 16_385];
    let none = TableLengths {
        order: 0,
        delta1: 0,
        delta2: 0,
        delta3: 0,
    };
    let answer = Answer {
        status: 13,
        ..Answer::default()
    };
    for role in [2, 3, u32::MAX] {
        let restored = restore_as(role, &bad, &vec![257; 16_385], 0);
        assert_eq!(restored.answer, answer);
        assert_eq!(restored, RestoreOutcome::from(Refusal::NotPermitted));
        let priced = price_as(role, &bad, &long, none, 0);
        assert_eq!((priced.answer.answer, priced.answer.pence), (answer, 0));
        assert_eq!(priced, PriceOutcome::from(Refusal::NotPermitted));
        let edited = edit_as(role, 0, 0, &[], &bad);
        assert_eq!((edited.answer, edited.table == bad), (answer, true));
    }
    for role in [3, u32::MAX] {
        let converted = convert_as(role, &bad, &long, none, 0, 0);
        let expected = RulesAnswer {
            status: 13,
            ..RulesAnswer::default()
        };
        assert_eq!(converted.answer, expected);
        assert_eq!(converted, RulesOutcome::from(Refusal::NotPermitted));
        let explained = explain_as(role, 0, 16_385, &bad, &long, none);
        assert_eq!(
            (explained.answer.answer, explained.answer.outcome),
            (answer, 0)
        );
        assert_eq!(explained, ExplainOutcome::from(Refusal::NotPermitted));
    }
    // Permitted, they are refused as without roles.
    assert_eq!(restore_as(1, &bad, &[], 0).answer.status, 11);
    assert_eq!(price_as(1, &bad, &long, none, 0).answer.answer.status, 11);
    assert_eq!(edit_as(0, 0, 0, &[], &bad).answer.status, 11);
    assert_eq!(convert_as(2, &bad, &long, none, 0, 0).answer.status, 11);
    let explained = explain_as(2, 0, 16_385, &bad, &long, none);
    assert_eq!(explained.answer.answer.status, 11);
}

/// A permitted call is the call without roles.
#[test]
fn permitted_calls_of_generated_tables() {
    for (round, Job { rules, text }) in rule_tables::short().enumerate() {
        let table = table_of(&rules, round as u64);
        let (n, number) = (text.len(), (round % (rules.len() + 2)) as u32);
        let found = n.saturating_sub(usize::from(round % 9 == 0));
        let frames = frames(&rules, &text);
        let lengths = needed(&rules);
        let (b, q) = ((round % 40) as u32, (round % 6) as u32);
        let new = &text[..n.min(round % 7)];
        for role in 0..3 {
            let converted = convert_as(role, &table, &text, lengths, found, n);
            let expected = convert_rules(&table, &text, lengths, found, n);
            assert_eq!(converted, expected);
            let explained = explain_as(role, number, b, &table, &text, lengths);
            let expected = explain_rule(number, b, &table, &text, lengths);
            assert_eq!(explained, expected);
        }
        for role in 0..2 {
            let restored = restore_as(role, &table, &frames, found);
            assert_eq!(restored, restore_rules(&table, &frames, found));
            let priced = price_as(role, &table, &text, lengths, found);
            assert_eq!(priced, price_rules(&table, &text, lengths, found));
        }
        let edited = edit_as(0, number, q, new, &table);
        assert_eq!(edited, edit_rule(number, q, new, &table));
    }
}
