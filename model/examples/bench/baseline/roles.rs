//! The calls behind a role: one test, and then the call that takes a table of rules. They are not
//! inlined, as calls of the library are not: a refused call takes hardly more than any call.

use ruffarmoire_model::answers::{Answer, ExplainAnswer, PriceAnswer, Refusal, RulesAnswer};
use ruffarmoire_model::rules::TableBytes;

use super::rules::{convert_rules, edit_rule, explain_rule, price_rules, restore_rules};

/// What roles 0, 1 and 2 may do: a bit for each task.
const PERMITTED: [u8; 3] = [
    CONVERT | RESTORE | EXPLAIN | PRICE | EDIT,
    CONVERT | RESTORE | EXPLAIN | PRICE,
    CONVERT | EXPLAIN,
];

const CONVERT: u8 = 1;
const RESTORE: u8 = 2;
const EXPLAIN: u8 = 4;
const PRICE: u8 = 8;
const EDIT: u8 = 16;

/// Whether refusal 13 is due.
fn is_refused(role: u32, task: u8) -> bool {
    let permitted = PERMITTED.get(role as usize).copied().unwrap_or(0);
    permitted & task == 0
}

#[allow(clippy::too_many_arguments)]
#[inline(never)]
pub fn convert_as(
    role: u32,
    table: &TableBytes,
    text: &[u8],
    order: &mut [i16],
    delta2: &mut [u16],
    delta1: &mut [u16],
    delta3: &mut [u16],
    found: &mut [u16],
    frames: &mut [u16],
) -> RulesAnswer {
    if is_refused(role, CONVERT) {
        return Refusal::NotPermitted.into();
    }
    convert_rules(table, text, order, delta2, delta1, delta3, found, frames)
}

#[inline(never)]
pub fn restore_as(role: u32, table: &TableBytes, frames: &[u16], text: &mut [u8]) -> Answer {
    if is_refused(role, RESTORE) {
        return Refusal::NotPermitted.into();
    }
    restore_rules(table, frames, text)
}

#[allow(clippy::too_many_arguments)]
#[inline(never)]
pub fn explain_as(
    role: u32,
    number: u32,
    position: u32,
    table: &TableBytes,
    text: &[u8],
    order: &mut [i16],
    delta2: &mut [u16],
    delta1: &mut [u16],
    delta3: &mut [u16],
) -> ExplainAnswer {
    if is_refused(role, EXPLAIN) {
        return Refusal::NotPermitted.into();
    }
    explain_rule(number, position, table, text, order, delta2, delta1, delta3)
}

#[allow(clippy::too_many_arguments)]
#[inline(never)]
pub fn price_as(
    role: u32,
    table: &TableBytes,
    text: &[u8],
    order: &mut [i16],
    delta2: &mut [u16],
    delta1: &mut [u16],
    delta3: &mut [u16],
    found: &mut [u16],
) -> PriceAnswer {
    if is_refused(role, PRICE) {
        return Refusal::NotPermitted.into();
    }
    price_rules(table, text, order, delta2, delta1, delta3, found)
}

#[inline(never)]
pub fn edit_as(
    role: u32,
    number: u32,
    hold: u32,
    pattern: &[u8],
    table: &mut TableBytes,
) -> Answer {
    if is_refused(role, EDIT) {
        return Refusal::NotPermitted.into();
    }
    edit_rule(number, hold, pattern, table)
}
