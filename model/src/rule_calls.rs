//! The public calls that take a table of rules: what each answers, and what it leaves in the caller's
//! buffers, where tables and occurrences stand rule after rule. They are told as the other
//! [`calls`](crate::calls) are.

use crate::answers::{Answer, PriceAnswer, Refusal, RuleAnswer, RulesAnswer};
use crate::calls::{
    self, check_buffer, ExplainOutcome, Outcome, PriceOutcome, RestoreOutcome, TableLengths,
};
use crate::explain::check_position;
use crate::job::{check_hold, check_pattern_length, check_text_length};
use crate::rules::{
    check_claims, check_number, edited, frames, restored, rules_of, Rule, TableBytes,
};
use crate::{convert, price};

/// The lengths that the tables of all these rules need.
pub fn needed(rules: &[Rule]) -> TableLengths {
    let mut sum = TableLengths {
        order: 0,
        delta1: 0,
        delta2: 0,
        delta3: 0,
    };
    for rule in rules {
        let own = TableLengths::needed(rule.pattern.len());
        sum.order += own.order;
        sum.delta1 += own.delta1;
        sum.delta2 += own.delta2;
        sum.delta3 += own.delta3;
    }
    sum
}

/// What searching and converting with a table leave.
#[derive(Clone, Debug, Default, PartialEq, Eq)]
pub struct RulesOutcome {
    pub answer: RulesAnswer,
    /// What is left in the buffers, rule after rule. The answer in it has the status alone.
    pub left: Outcome,
}

impl From<Refusal> for RulesOutcome {
    fn from(refusal: Refusal) -> RulesOutcome {
        RulesOutcome {
            answer: refusal.into(),
            left: refusal.into(),
        }
    }
}

/// Searches a text for the patterns of all rules.
pub fn search_rules(
    table: &TableBytes,
    text: &[u8],
    lengths: TableLengths,
    occurrences_length: usize,
) -> RulesOutcome {
    try_search(table, text, lengths, occurrences_length, text.len())
        .unwrap_or_else(RulesOutcome::from)
}

/// Searches with all rules and converts nothing; the buffer for frames is tested with the others. A
/// call that takes none gives the length that is needed.
fn try_search(
    table: &TableBytes,
    text: &[u8],
    lengths: TableLengths,
    occurrences_length: usize,
    frames_length: usize,
) -> Result<RulesOutcome, Refusal> {
    let rules = rules_of(table)?;
    check_text_length(text.len())?;
    lengths.check_needed(needed(&rules))?;
    check_buffer(occurrences_length, text.len())?;
    check_buffer(frames_length, text.len())?;
    check_claims(&rules, text)?;
    Ok(searched(&rules, text))
}

/// What the searches for all rules give, one after another.
fn searched(rules: &[Rule], text: &[u8]) -> RulesOutcome {
    let mut outcome = RulesOutcome::default();
    for (index, Rule { pattern, .. }) in rules.iter().enumerate() {
        let lengths = TableLengths::needed(pattern.len());
        let own = calls::search(pattern, text, lengths, text.len());
        outcome.answer.rules[index] = RuleAnswer {
            occurrences: own.answer.occurrences,
            comparisons: own.answer.comparisons,
            period: own.answer.period,
            bound: own.answer.bound,
            unmatched: u32::from(own.occurrences.is_empty()),
        };
        outcome.left.order.extend(own.order);
        outcome.left.delta1.extend(own.delta1);
        outcome.left.delta2.extend(own.delta2);
        outcome.left.delta3.extend(own.delta3);
        outcome.left.occurrences.extend(own.occurrences);
    }
    outcome
}

/// Converts a text to frames, each hold with the number of its rule.
pub fn convert_rules(
    table: &TableBytes,
    text: &[u8],
    lengths: TableLengths,
    occurrences_length: usize,
    frames_length: usize,
) -> RulesOutcome {
    try_convert(table, text, lengths, occurrences_length, frames_length)
        .unwrap_or_else(RulesOutcome::from)
}

fn try_convert(
    table: &TableBytes,
    text: &[u8],
    lengths: TableLengths,
    occurrences_length: usize,
    frames_length: usize,
) -> Result<RulesOutcome, Refusal> {
    let mut outcome = try_search(table, text, lengths, occurrences_length, frames_length)?;
    outcome.answer.ones = convert::ones(text);
    outcome.left.frames = frames(&rules_of(table)?, text);
    Ok(outcome)
}

/// Prices a text with the frames that it converts to.
pub fn price_rules(
    table: &TableBytes,
    text: &[u8],
    lengths: TableLengths,
    occurrences_length: usize,
) -> PriceOutcome {
    try_price(table, text, lengths, occurrences_length).unwrap_or_else(PriceOutcome::from)
}

fn try_price(
    table: &TableBytes,
    text: &[u8],
    lengths: TableLengths,
    occurrences_length: usize,
) -> Result<PriceOutcome, Refusal> {
    let searched = try_search(table, text, lengths, occurrences_length, text.len())?;
    let frames = frames(&rules_of(table)?, text);
    Ok(PriceOutcome {
        answer: PriceAnswer {
            answer: Answer::default(),
            pence: price::cost(text, &frames),
        },
        left: searched.left,
    })
}

/// Restores the text that converts to these frames into a buffer.
pub fn restore_rules(table: &TableBytes, frames: &[u16], text_length: usize) -> RestoreOutcome {
    match try_restore(table, frames, text_length) {
        Ok(text) => RestoreOutcome {
            answer: Answer::default(),
            text,
        },
        Err(refusal) => refusal.into(),
    }
}

fn try_restore(table: &TableBytes, frames: &[u16], text_length: usize) -> Result<Vec<u8>, Refusal> {
    let rules = rules_of(table)?;
    check_text_length(frames.len())?;
    check_buffer(text_length, frames.len())?;
    restored(&rules, frames)
}

/// Explains a position of the text for one rule, named by its number.
pub fn explain_rule(
    number: u32,
    position: u32,
    table: &TableBytes,
    text: &[u8],
    lengths: TableLengths,
) -> ExplainOutcome {
    try_explain(number, position, table, text, lengths).unwrap_or_else(ExplainOutcome::from)
}

fn try_explain(
    number: u32,
    position: u32,
    table: &TableBytes,
    text: &[u8],
    lengths: TableLengths,
) -> Result<ExplainOutcome, Refusal> {
    check_number(number as usize, table)?;
    let rules = rules_of(table)?;
    let Rule { pattern, .. } = &rules[number as usize - 1];
    check_text_length(text.len())?;
    lengths.check_needed(TableLengths::needed(pattern.len()))?;
    check_position(position as usize, text.len())?;
    Ok(calls::explain(position, pattern, text, lengths))
}

/// What an edit leaves.
#[derive(Clone, Debug, PartialEq, Eq)]
pub struct EditOutcome {
    pub answer: Answer,
    /// The table after the call.
    pub table: TableBytes,
}

impl EditOutcome {
    /// What is left of a refused edit: the table as it was.
    pub(crate) fn refused(refusal: Refusal, table: &TableBytes) -> EditOutcome {
        EditOutcome {
            answer: refusal.into(),
            table: *table,
        }
    }
}

/// Puts a new pattern and hold offset in one rule of a table.
pub fn edit_rule(number: u32, hold: u32, pattern: &[u8], table: &TableBytes) -> EditOutcome {
    match try_edit(number, hold, pattern, table) {
        Ok(table) => EditOutcome {
            answer: Answer::default(),
            table,
        },
        Err(refusal) => EditOutcome::refused(refusal, table),
    }
}

fn try_edit(
    number: u32,
    hold: u32,
    pattern: &[u8],
    table: &TableBytes,
) -> Result<TableBytes, Refusal> {
    check_number(number as usize, table)?;
    rules_of(table)?;
    check_pattern_length(pattern.len())?;
    check_hold(hold as usize, pattern.len())?;
    let rule = Rule {
        pattern: pattern.to_vec(),
        hold: hold as usize,
    };
    Ok(edited(table, number as usize, &rule))
}
