//! The calls that take a table of rules.

use ruffarmoire_model::answers::{
    Answer, ExplainAnswer, PriceAnswer, Refusal, RuleAnswer, RulesAnswer,
};
use ruffarmoire_model::convert::HOLD;
use ruffarmoire_model::rules::{TableBytes, SLOT};
use ruffarmoire_model::{MAX_PATTERN, MAX_RULES, MAX_TEXT};

use super::converter::ones;
use super::explain::explain;
use super::matcher::run;
use super::price::with_holds;
use super::restore::{holds_occurrences, Walk};
use super::tables::write_tables;

/// A rule of a table.
#[derive(Clone, Copy)]
struct Rule<'a> {
    pattern: &'a [u8],
    hold: usize,
}

/// The rules of a table that is taken.
struct Rules<'a> {
    all: [Rule<'a>; MAX_RULES],
    count: usize,
}

impl<'a> Rules<'a> {
    /// The rules of a table, or refusal 11, 4 or 5.
    fn of(table: &'a TableBytes) -> Result<Rules<'a>, Refusal> {
        let count = usize::from(table[0]);
        if count == 0 || count > MAX_RULES {
            return Err(Refusal::RuleNumber);
        }
        let mut rules = Rules {
            all: [Rule {
                pattern: &[],
                hold: 0,
            }; MAX_RULES],
            count,
        };
        let slots = table[1..].chunks_exact(SLOT);
        for (rule, slot) in rules.all[..count].iter_mut().zip(slots) {
            let (m, hold) = (usize::from(slot[0]), usize::from(slot[1]));
            check_rule(m, hold)?;
            *rule = Rule {
                pattern: &slot[2..2 + m],
                hold,
            };
        }
        Ok(rules)
    }

    /// The same for a call that names one of them.
    fn naming(number: u32, table: &'a TableBytes) -> Result<Rules<'a>, Refusal> {
        if number == 0 || number > u32::from(table[0]) {
            return Err(Refusal::RuleNumber);
        }
        Rules::of(table)
    }

    fn all(&self) -> &[Rule<'a>] {
        &self.all[..self.count]
    }

    /// The lengths of all patterns in sum.
    fn bytes(&self) -> usize {
        self.all().iter().map(|rule| rule.pattern.len()).sum()
    }

    /// Whether two rules claim the same byte of the text.
    fn claim_twice(&self, text: &[u8]) -> bool {
        let mut meeting = [false; MAX_RULES];
        for (second, rule) in self.all().iter().enumerate() {
            for (first, other) in self.all[..second].iter().enumerate() {
                if rule.can_meet(other) {
                    meeting[first] = true;
                    meeting[second] = true;
                }
            }
        }
        let mut claimed = [0; MAX_TEXT / 64];
        let mut walked = self.all().iter().zip(meeting);
        !text.is_empty() && walked.any(|(rule, meets)| meets && rule.meets(text, &mut claimed))
    }
}

/// Refusals 4 and 5.
fn check_rule(m: usize, hold: usize) -> Result<(), Refusal> {
    if m == 0 || m > MAX_PATTERN {
        Err(Refusal::PatternLength)
    } else if hold >= m {
        Err(Refusal::HoldOffset)
    } else {
        Ok(())
    }
}

impl Rule<'_> {
    /// Whether the two agree wherever both lie, laid with their hold offsets on one byte.
    fn can_meet(&self, other: &Rule) -> bool {
        let before = self.hold.min(other.hold);
        let after = (self.pattern.len() - self.hold).min(other.pattern.len() - other.hold);
        let around = |rule: &Rule| rule.hold - before..rule.hold + after;
        self.pattern[self.hold] == other.pattern[other.hold]
            && self.pattern[around(self)] == other.pattern[around(other)]
    }

    /// Claims the holds of all occurrences in a text that is not empty. Tells whether one was claimed.
    fn meets(&self, text: &[u8], claimed: &mut [u64; MAX_TEXT / 64]) -> bool {
        let (m, n) = (self.pattern.len(), text.len());
        let mut walk = Walk::new(self.pattern);
        let mut x = 0;
        for _ in 1..m {
            walk.ends_an_occurrence(text[x]);
            x = if x + 1 < n { x + 1 } else { 0 };
        }
        // The occurrence that ends here began m - 1 bytes before.
        let (first, rest) = text.split_at(x);
        for (b, &byte) in rest.iter().chain(first).enumerate() {
            if walk.ends_an_occurrence(byte) {
                let hold = around(b + self.hold, n);
                let bit = 1 << (hold % 64);
                if claimed[hold / 64] & bit != 0 {
                    return true;
                }
                claimed[hold / 64] |= bit;
            }
        }
        false
    }
}

/// Where a position is in a text of n bytes.
fn around(x: usize, n: usize) -> usize {
    if x < n {
        x
    } else {
        x % n
    }
}

/// What a call that searches with the whole table is lent. One that takes no frames has none.
struct Lent<'a> {
    order: &'a mut [i16],
    delta2: &'a mut [u16],
    delta1: &'a mut [u16],
    delta3: &'a mut [u16],
    found: &'a mut [u16],
    frames: Option<&'a mut [u16]>,
}

impl Lent<'_> {
    fn is_too_short(&self, bytes: usize, rules: usize, n: usize) -> bool {
        self.order.len() < bytes + rules
            || self.delta2.len() < bytes + rules
            || self.delta1.len() < 256 * bytes
            || self.delta3.len() < bytes
            || self.found.len() < n
            || self.frames.as_ref().is_some_and(|frames| frames.len() < n)
    }
}

/// Searches with all rules, and tells the rules and how many occurrences there are of all.
fn searched<'a>(
    table: &'a TableBytes,
    text: &[u8],
    lent: &mut Lent,
) -> Result<(RulesAnswer, Rules<'a>, usize), Refusal> {
    let rules = Rules::of(table)?;
    let n = text.len();
    if n > MAX_TEXT {
        return Err(Refusal::TextLength);
    }
    if lent.is_too_short(rules.bytes(), rules.count, n) {
        return Err(Refusal::ShortBuffer);
    }
    if rules.claim_twice(text) {
        return Err(Refusal::ClaimedTwice);
    }
    let mut answer = RulesAnswer::default();
    let (mut bytes, mut found) = (0, 0);
    for (index, rule) in rules.all().iter().enumerate() {
        let m = rule.pattern.len();
        let order = &mut lent.order[bytes + index..][..m + 1];
        let delta2 = &mut lent.delta2[bytes + index..][..m + 1];
        let delta1 = &mut lent.delta1[256 * bytes..][..256 * m];
        let delta3 = &mut lent.delta3[bytes..][..m];
        // SAFETY: the tables have their lengths and are the pattern's. No byte of the text is claimed
        // twice, so there is an entry for each occurrence of each rule.
        let own = unsafe {
            write_tables(rule.pattern, order, delta2, delta1, delta3);
            let found = &mut lent.found[found..];
            run(rule.pattern, text, order, delta2, delta1, delta3, found)
        };
        answer.rules[index] = RuleAnswer {
            occurrences: own.occurrences,
            comparisons: own.comparisons,
            period: own.period,
            bound: own.bound,
            unmatched: u32::from(own.occurrences == 0),
        };
        bytes += m;
        found += own.occurrences as usize;
    }
    Ok((answer, rules, found))
}

/// Searches a text for the patterns of all rules.
pub fn search_rules(
    table: &TableBytes,
    text: &[u8],
    order: &mut [i16],
    delta2: &mut [u16],
    delta1: &mut [u16],
    delta3: &mut [u16],
    found: &mut [u16],
) -> RulesAnswer {
    let mut lent = Lent {
        order,
        delta2,
        delta1,
        delta3,
        found,
        frames: None,
    };
    match searched(table, text, &mut lent) {
        Ok((answer, ..)) => answer,
        Err(refusal) => refusal.into(),
    }
}

/// Converts a text to frames, each hold with the number of its rule.
#[allow(clippy::too_many_arguments)]
pub fn convert_rules(
    table: &TableBytes,
    text: &[u8],
    order: &mut [i16],
    delta2: &mut [u16],
    delta1: &mut [u16],
    delta3: &mut [u16],
    found: &mut [u16],
    frames: &mut [u16],
) -> RulesAnswer {
    let mut lent = Lent {
        order,
        delta2,
        delta1,
        delta3,
        found,
        frames: Some(frames),
    };
    let (mut answer, rules, _) = match searched(table, text, &mut lent) {
        Ok(searched) => searched,
        Err(refusal) => return refusal.into(),
    };
    for (frame, &byte) in frames.iter_mut().zip(text) {
        *frame = u16::from(byte);
    }
    let mut rest = &found[..];
    for (index, rule) in rules.all().iter().enumerate() {
        let (own, others) = rest.split_at(answer.rules[index].occurrences as usize);
        for &b in own {
            frames[around(usize::from(b) + rule.hold, text.len())] = HOLD * (index as u16 + 1);
        }
        rest = others;
    }
    answer.ones = ones(text);
    answer
}

/// Prices a text with all rules.
pub fn price_rules(
    table: &TableBytes,
    text: &[u8],
    order: &mut [i16],
    delta2: &mut [u16],
    delta1: &mut [u16],
    delta3: &mut [u16],
    found: &mut [u16],
) -> PriceAnswer {
    let mut lent = Lent {
        order,
        delta2,
        delta1,
        delta3,
        found,
        frames: None,
    };
    match searched(table, text, &mut lent) {
        Ok((_, _, holds)) => with_holds(text, holds as u32),
        Err(refusal) => refusal.into(),
    }
}

/// Restores the text of some frames. All of them are checked before the first byte goes into the
/// buffer.
pub fn restore_rules(table: &TableBytes, frames: &[u16], text: &mut [u8]) -> Answer {
    match try_restore(table, frames, text) {
        Ok(()) => Answer::default(),
        Err(refusal) => refusal.into(),
    }
}

fn try_restore(table: &TableBytes, frames: &[u16], text: &mut [u8]) -> Result<(), Refusal> {
    let rules = Rules::of(table)?;
    let n = frames.len();
    if n > MAX_TEXT {
        return Err(Refusal::TextLength);
    }
    let text = text.get_mut(..n).ok_or(Refusal::ShortBuffer)?;
    // At k the byte of a hold of rule k; a move has its own.
    let mut held = [0; 256];
    for (index, rule) in rules.all().iter().enumerate() {
        held[index + 1] = rule.pattern[rule.hold];
    }
    let last = HOLD * rules.count as u16;
    let is_frame = |frame: u16| frame < HOLD || frame.is_multiple_of(HOLD) && frame <= last;
    let byte_of = |frame: u16| held[usize::from(frame >> 8)] | frame as u8;
    let are_frames = frames
        .iter()
        .fold(true, |all, &frame| all & is_frame(frame));
    let holds_all = |(index, rule): (usize, &Rule)| {
        let own = HOLD * (index as u16 + 1);
        holds_occurrences(rule.pattern, rule.hold, own, frames, byte_of)
    };
    if !are_frames || !rules.all().iter().enumerate().all(holds_all) {
        return Err(Refusal::NoConversion);
    }
    for (byte, &frame) in text.iter_mut().zip(frames) {
        *byte = byte_of(frame);
    }
    Ok(())
}

/// Explains a position of the text for one rule.
#[allow(clippy::too_many_arguments)]
pub fn explain_rule(
    number: u32,
    position: u32,
    table: &TableBytes,
    text: &[u8],
    order: &mut [i16],
    delta2: &mut [u16],
    delta1: &mut [u16],
    delta3: &mut [u16],
) -> ExplainAnswer {
    match Rules::naming(number, table) {
        Ok(rules) => {
            let pattern = rules.all[number as usize - 1].pattern;
            explain(position, pattern, text, order, delta2, delta1, delta3)
        }
        Err(refusal) => refusal.into(),
    }
}

/// Puts a new pattern and hold offset in one rule of a table.
pub fn edit_rule(number: u32, hold: u32, pattern: &[u8], table: &mut TableBytes) -> Answer {
    let m = pattern.len();
    let checked = Rules::naming(number, table).map(drop);
    if let Err(refusal) = checked.and_then(|()| check_rule(m, hold as usize)) {
        return refusal.into();
    }
    let slot = &mut table[1 + SLOT * (number as usize - 1)..][..2 + m];
    slot[0] = m as u8;
    slot[1] = hold as u8;
    slot[2..].copy_from_slice(pattern);
    Answer::default()
}
