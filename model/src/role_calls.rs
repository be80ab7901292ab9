//! The public calls that a role makes. They are told as the other [`calls`](crate::calls) are.

use crate::answers::Refusal;
use crate::calls::{ExplainOutcome, PriceOutcome, RestoreOutcome, TableLengths};
use crate::roles::{check_role, Task};
use crate::rule_calls::{
    convert_rules, edit_rule, explain_rule, price_rules, restore_rules, EditOutcome, RulesOutcome,
};
use crate::rules::TableBytes;

/// A call behind a role: refusal 13 before all else, and where the task is permitted, what the call
/// without roles gives.
fn behind<T>(role: u32, task: Task, without_roles: impl FnOnce() -> T) -> Result<T, Refusal> {
    check_role(role, task)?;
    Ok(without_roles())
}

/// Converts a text to frames.
pub fn convert_as(
    role: u32,
    table: &TableBytes,
    text: &[u8],
    lengths: TableLengths,
    occurrences_length: usize,
    frames_length: usize,
) -> RulesOutcome {
    behind(role, Task::Convert, || {
        convert_rules(table, text, lengths, occurrences_length, frames_length)
    })
    .unwrap_or_else(RulesOutcome::from)
}

/// Restores the text that converts to these frames.
pub fn restore_as(
    role: u32,
    table: &TableBytes,
    frames: &[u16],
    text_length: usize,
) -> RestoreOutcome {
    behind(role, Task::Restore, || {
        restore_rules(table, frames, text_length)
    })
    .unwrap_or_else(RestoreOutcome::from)
}

/// Explains a position of the text for one rule.
pub fn explain_as(
    role: u32,
    number: u32,
    position: u32,
    table: &TableBytes,
    text: &[u8],
    lengths: TableLengths,
) -> ExplainOutcome {
    behind(role, Task::Explain, || {
        explain_rule(number, position, table, text, lengths)
    })
    .unwrap_or_else(ExplainOutcome::from)
}

/// Prices a text with the frames that it converts to.
pub fn price_as(
    role: u32,
    table: &TableBytes,
    text: &[u8],
    lengths: TableLengths,
    occurrences_length: usize,
) -> PriceOutcome {
    behind(role, Task::Price, || {
        price_rules(table, text, lengths, occurrences_length)
    })
    .unwrap_or_else(PriceOutcome::from)
}

/// Puts a new pattern and hold offset in one rule of a table.
pub fn edit_as(
    role: u32,
    number: u32,
    hold: u32,
    pattern: &[u8],
    table: &TableBytes,
) -> EditOutcome {
    behind(role, Task::Edit, || edit_rule(number, hold, pattern, table))
        .unwrap_or_else(|refusal| EditOutcome::refused(refusal, table))
}
