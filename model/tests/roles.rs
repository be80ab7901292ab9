//! The calls behind a role by the library, written in Rattle, against the model.

#[macro_use]
mod common;
mod library;

use library::calls::{self, Role, Rules};
use library::Library;
use ruffarmoire_model::explain::Unexplained;

roles_suite!(crate::Library);

const A: u8 = 0x06;
const C: u8 = 0x18;

/// Only the draughtswoman edits a table, and only what a call without roles would take.
#[test]
fn tables_edited_by_role() {
    let mut rules = Rules::new(&[(&[A, A], 1), (&[C, C], 0)]).expect("two rules");
    let before = rules;
    for role in [Role::Mender, Role::Minder] {
        assert_eq!(rules.edit_as(role, 2, 0, &[C]), Err(13));
        assert_eq!(rules.edit_as(role, 3, 7, &[]), Err(13));
    }
    assert_eq!(rules.edit_as(Role::Draughtswoman, 3, 0, &[C]), Err(11));
    assert_eq!(rules.edit_as(Role::Draughtswoman, 2, 0, &[]), Err(4));
    assert_eq!(rules.edit_as(Role::Draughtswoman, 2, 1, &[C]), Err(5));
    assert_eq!(rules, before);
    assert_eq!(rules.edit_as(Role::Draughtswoman, 2, 0, &[C]), Ok(()));
    assert_eq!(rules.rules().nth(1), Some((&[C][..], 0)));
}

/// Roles by their names: a minder converts and has the cause told, and puts nothing back.
#[test]
fn roles_by_name() {
    let rules = Rules::new(&[(&[A, A], 1), (&[C], 0)]).expect("two rules");
    let text = [A, A, C];
    let (mut order, mut delta2) = ([0; 5], [0; 5]);
    let (mut delta1, mut delta3) = ([0; 256 * 3], [0; 3]);
    let (mut found, mut frames) = ([0; 3], [0; 3]);
    let answer = calls::convert_as(
        Role::Minder.number(),
        &rules,
        &text,
        &mut order,
        &mut delta2,
        &mut delta1,
        &mut delta3,
        &mut found,
        &mut frames,
    );
    assert_eq!((answer.status, frames), (0, [6, 256, 512]));
    let mut restored = [0; 3];
    let mut restore = |role: Role| {
        let answer = calls::restore_as(role.number(), &rules, &frames, &mut restored);
        (answer.status, restored)
    };
    assert_eq!(restore(Role::Minder), (13, [0; 3]));
    assert_eq!(restore(Role::Mender), (0, text));
    let mut price = |role: Role| {
        let (order, delta2) = (&mut order, &mut delta2);
        let (delta1, delta3) = (&mut delta1, &mut delta3);
        let role = role.number();
        let found = &mut found;
        let priced = calls::price_as(role, &rules, &text, order, delta2, delta1, delta3, found);
        (priced.answer.status, priced.pence)
    };
    assert_eq!(price(Role::Minder), (13, 0));
    assert_eq!(price(Role::Mender), (0, 98));
    let mut said = |role, number, position| {
        let (order, delta2) = (&mut order, &mut delta2);
        let (delta1, delta3) = (&mut delta1, &mut delta3);
        calls::explained_as(
            role, number, position, &rules, &text, order, delta2, delta1, delta3,
        )
        .map(|explained| explained.to_string())
    };
    let listed = "Listed: the motif is found at chain place 2.";
    assert_eq!(said(Role::Minder, 2, 2).as_deref(), Ok(listed));
    assert_eq!(said(Role::Minder, 3, 2), Err(Unexplained::Refused(11)));
}
