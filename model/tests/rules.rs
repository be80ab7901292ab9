//! The calls that take a table of rules by the library, written in Rattle, against the model.

#[macro_use]
mod common;
mod library;

use common::rule_tables::{rule, table_of};
use library::calls::{self, Rules};
use library::Library;
use ruffarmoire_model::explain::Unexplained;

mod searching {
    rules_suite!(crate::Library);
}

mod restoring {
    restore_rules_suite!(crate::Library);
}

mod explaining {
    explain_rule_suite!(crate::Library);
}

mod editing {
    edit_rule_suite!(crate::Library);
}

const A: u8 = 0x06;
const C: u8 = 0x18;

/// A table made from a list of rules, edited, and handed to a call.
#[test]
fn table_from_a_list() {
    let mut rules = Rules::new(&[(&[A, A, C, A, A], 2), (&[C, C], 0)]).expect("two rules");
    let expected = [(&[A, A, C, A, A][..], 2), (&[C, C][..], 0)];
    assert_eq!(rules.rules().collect::<Vec<_>>(), expected);
    let same = table_of(&[rule(&[A, A, C, A, A], 2), rule(&[C, C], 0)], 0);
    assert_eq!(rules[..8], same[..8]);
    assert_eq!(rules[131..135], same[131..135]);

    let before = rules;
    assert_eq!(rules.edit(3, 0, &[A]), Err(11));
    assert_eq!(rules.edit(2, 0, &[]), Err(4));
    assert_eq!(rules.edit(2, 3, &[A, A, A]), Err(5));
    assert_eq!(rules, before);
    assert_eq!(rules.edit(2, 1, &[A, A, A]), Ok(()));
    assert_eq!(rules.rules().nth(1), Some((&[A, A, A][..], 1)));

    let text = [A, A, C, A, A, A, C, A, A];
    let (mut order, mut delta2) = ([0; 10], [0; 10]);
    let (mut delta1, mut delta3) = ([0; 256 * 8], [0; 8]);
    let (mut found, mut frames) = ([0; 9], [0; 9]);
    let answer = calls::convert_rules(
        &rules,
        &text,
        &mut order,
        &mut delta2,
        &mut delta1,
        &mut delta3,
        &mut found,
        &mut frames,
    );
    assert_eq!((answer.status, answer.ones), (0, 18));
    assert_eq!(frames, [512, 6, 256, 6, 512, 6, 256, 6, 512]);
    let mut restored = [0; 9];
    assert_eq!(
        calls::restore_rules(&rules, &frames, &mut restored).status,
        0
    );
    assert_eq!(restored, text);
}

/// Lists that are no table, and the number by which each is refused.
#[test]
fn lists_that_are_no_table() {
    let good: (&[u8], u32) = (&[A, C], 1);
    assert_eq!(Rules::new(&[]), Err(11));
    assert!(Rules::new(&[good; 16]).is_ok());
    assert_eq!(Rules::new(&[good; 17]), Err(11));
    assert_eq!(Rules::new(&[good; 257]), Err(11));
    assert_eq!(Rules::new(&[good, (&[], 0)]), Err(4));
    assert_eq!(Rules::new(&[good, (&[A; 129], 0)]), Err(4));
    assert_eq!(Rules::new(&[good, (&[A], 1), (&[], 0)]), Err(5));
    assert_eq!(Rules::new(&[good, (&[], 1), (&[A], 1)]), Err(4));
    assert_eq!(Rules::new(&[good, (&[A], 256)]), Err(5));
}

/// The explanation for a rule as an enum, which says itself in a sentence.
#[test]
fn explained_in_sentences() {
    let rules = Rules::new(&[(&[C, C, C, C, C, C], 0), (&[A, A], 0)]).expect("two rules");
    let text = [A, A, C];
    let (mut order, mut delta2) = ([0; 3], [0; 3]);
    let (mut delta1, mut delta3) = ([0; 256 * 2], [0; 2]);
    let mut said = |number, position| {
        let (order, delta2) = (&mut order, &mut delta2);
        let (delta1, delta3) = (&mut delta1, &mut delta3);
        calls::explained_by_rule(
            number, position, &rules, &text, order, delta2, delta1, delta3,
        )
        .map(|explained| explained.to_string())
    };
    let listed = "Listed: the motif is found at chain place 0.";
    assert_eq!(said(2, 0).as_deref(), Ok(listed));
    assert_eq!(said(2, 3), Err(Unexplained::Refused(10)));
    assert_eq!(said(1, 0), Err(Unexplained::Refused(7)));
    assert_eq!(said(3, 0), Err(Unexplained::Refused(11)));
}
