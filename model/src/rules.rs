//! A table of rules, each a pattern and a hold offset, numbered from 1: its bytes, which byte of the
//! text a rule claims, the frames of a text, and frames put back.

use crate::answers::Refusal;
use crate::convert;
use crate::job::{check_hold, check_pattern_length};
use crate::{MAX_PATTERN, MAX_RULES};

/// The bytes of a rule in a table: its length, its hold offset, and space for its pattern.
pub const SLOT: usize = 2 + MAX_PATTERN;

/// The bytes of a table: the number of its rules, and a slot for each that it may have.
pub const TABLE: usize = 1 + MAX_RULES * SLOT;

/// A table as the caller has it.
pub type TableBytes = [u8; TABLE];

/// A rule of a table.
#[derive(Clone, Debug, PartialEq, Eq)]
pub struct Rule {
    /// The pattern w.
    pub pattern: Vec<u8>,
    /// The hold offset q.
    pub hold: usize,
}

/// Where the slot of rule k begins, for k from 1.
pub fn slot(number: usize) -> usize {
    1 + SLOT * (number - 1)
}

/// The rules of a table. Refusal 11 where there are none or more than 16; then refusals 4 and 5 of each
/// rule, from rule 1 up.
pub fn rules_of(table: &TableBytes) -> Result<Vec<Rule>, Refusal> {
    let count = usize::from(table[0]);
    if count == 0 || count > MAX_RULES {
        return Err(Refusal::RuleNumber);
    }
    (1..=count).map(|number| rule_of(table, number)).collect()
}

/// One rule of a table, or refusal 4 or 5.
fn rule_of(table: &TableBytes, number: usize) -> Result<Rule, Refusal> {
    let bytes = &table[slot(number)..][..SLOT];
    let (m, hold) = (usize::from(bytes[0]), usize::from(bytes[1]));
    check_pattern_length(m)?;
    check_hold(hold, m)?;
    Ok(Rule {
        pattern: bytes[2..2 + m].to_vec(),
        hold,
    })
}

/// Refusal 11 for a number that is no rule of the table. A table of more than 16 rules is refused
/// whatever the number.
pub fn check_number(number: usize, table: &TableBytes) -> Result<(), Refusal> {
    if (1..=usize::from(table[0])).contains(&number) {
        Ok(())
    } else {
        Err(Refusal::RuleNumber)
    }
}

/// The table with a new rule as one of its rules. What its slot has past the new pattern stays.
pub fn edited(table: &TableBytes, number: usize, rule: &Rule) -> TableBytes {
    let m = rule.pattern.len();
    let mut edited = *table;
    let bytes = &mut edited[slot(number)..];
    bytes[0] = u8::try_from(m).expect("m is at most 128");
    bytes[1] = u8::try_from(rule.hold).expect("q is below m");
    bytes[2..2 + m].copy_from_slice(&rule.pattern);
    edited
}

impl Rule {
    /// The positions of the text that the rule claims: the holds of its occurrences.
    pub fn claims(&self, text: &[u8]) -> Vec<usize> {
        convert::holds(&self.pattern, self.hold, text)
    }
}

/// Refusal 12: two different rules of the table claim the same byte of the text.
pub fn check_claims(rules: &[Rule], text: &[u8]) -> Result<(), Refusal> {
    let claims: Vec<Vec<usize>> = rules.iter().map(|rule| rule.claims(text)).collect();
    for (second, others) in claims.iter().enumerate() {
        for first in &claims[..second] {
            if first.iter().any(|position| others.contains(position)) {
                return Err(Refusal::ClaimedTwice);
            }
        }
    }
    Ok(())
}

/// The frame that is a hold of rule k, for k from 1.
pub fn hold_of(number: usize) -> u16 {
    u16::try_from(256 * number).expect("a table has at most 16 rules")
}

/// Each byte as a move, then rule after rule each byte that it claims as a hold of that rule.
pub fn frames(rules: &[Rule], text: &[u8]) -> Vec<u16> {
    let mut frames: Vec<u16> = text.iter().map(|&byte| u16::from(byte)).collect();
    for (index, rule) in rules.iter().enumerate() {
        for position in rule.claims(text) {
            frames[position] = hold_of(index + 1);
        }
    }
    frames
}

/// The byte of a frame: a hold has the byte at the hold offset of the rule that it names, a move its
/// own. A frame that names no rule of the table has none.
fn byte(rules: &[Rule], frame: u16) -> Option<u8> {
    for (index, rule) in rules.iter().enumerate() {
        if frame == hold_of(index + 1) {
            return Some(rule.pattern[rule.hold]);
        }
    }
    u8::try_from(frame).ok()
}

/// The text that converts to these frames, or refusal 9 where no text does in which no byte is claimed
/// twice. Every frame of a conversion is a move with the text's byte, or a hold where the text has the
/// byte of the rule that it names; so no other text than the frames put back can convert to them.
pub fn restored(rules: &[Rule], frames: &[u16]) -> Result<Vec<u8>, Refusal> {
    let text: Option<Vec<u8>> = frames.iter().map(|&frame| byte(rules, frame)).collect();
    let text = text.ok_or(Refusal::NoConversion)?;
    let is_conversion = check_claims(rules, &text).is_ok() && self::frames(rules, &text) == frames;
    if is_conversion {
        Ok(text)
    } else {
        Err(Refusal::NoConversion)
    }
}
