//! Refusals and answers.

use crate::MAX_RULES;

/// Why a call is refused.
#[derive(Clone, Copy, Debug, PartialEq, Eq)]
pub enum Refusal {
    /// 1: fewer than 11 bytes, or not the length that the first line gives.
    FileLength,
    /// 2: a byte that is not the digit or line end due there.
    Byte,
    /// 3: an edition other than 01.
    Edition,
    /// 4: m is 0 or above 128.
    PatternLength,
    /// 5: q is not below m.
    HoldOffset,
    /// 6: n is above 16,384.
    TextLength,
    /// 7: a buffer is too short.
    ShortBuffer,
    /// 8: a way of turning that is above 3.
    Way,
    /// 9: frames that are no conversion under this pattern and hold offset.
    NoConversion,
    /// 10: a position that is not below n.
    Position,
    /// 11: a table of no rules or of more than 16, or a number that is no rule of the table.
    RuleNumber,
    /// 12: two rules that claim the same byte of the text.
    ClaimedTwice,
    /// 13: a role above 2, or a task that is not permitted to the role.
    NotPermitted,
}

impl Refusal {
    /// The number of the refusal in an answer.
    pub fn status(self) -> u32 {
        match self {
            Refusal::FileLength => 1,
            Refusal::Byte => 2,
            Refusal::Edition => 3,
            Refusal::PatternLength => 4,
            Refusal::HoldOffset => 5,
            Refusal::TextLength => 6,
            Refusal::ShortBuffer => 7,
            Refusal::Way => 8,
            Refusal::NoConversion => 9,
            Refusal::Position => 10,
            Refusal::RuleNumber => 11,
            Refusal::ClaimedTwice => 12,
            Refusal::NotPermitted => 13,
        }
    }
}

/// What every call answers. What a call does not work out is 0.
#[repr(C)]
#[derive(Clone, Copy, Debug, Default, PartialEq, Eq)]
pub struct Answer {
    /// 0 for done, or the number of the refusal.
    pub status: u32,
    /// h, the number of occurrences.
    pub occurrences: u32,
    /// C, the number of comparisons.
    pub comparisons: u32,
    /// The ones of the text.
    pub ones: u32,
    /// p, the period of the pattern.
    pub period: u32,
    /// The bound of demand 3 on C: 0 for an empty text.
    pub bound: u32,
}

/// What reading a job file answers.
#[repr(C)]
#[derive(Clone, Copy, Debug, Default, PartialEq, Eq)]
pub struct ReadAnswer {
    pub answer: Answer,
    /// The length of the pattern.
    pub m: u32,
    /// The hold offset.
    pub q: u32,
    /// The length of the text.
    pub n: u32,
}

/// What writing a job file answers.
#[repr(C)]
#[derive(Clone, Copy, Debug, Default, PartialEq, Eq)]
pub struct WriteAnswer {
    pub answer: Answer,
    /// The length of the file.
    pub bytes: u32,
}

/// What writing SEEK's report answers.
#[repr(C)]
#[derive(Clone, Copy, Debug, Default, PartialEq, Eq)]
pub struct ReportAnswer {
    pub answer: Answer,
    /// The length of the report.
    pub bytes: u32,
}

/// What turning a job answers.
#[repr(C)]
#[derive(Clone, Copy, Debug, Default, PartialEq, Eq)]
pub struct TurnAnswer {
    pub answer: Answer,
    /// The turned hold offset.
    pub q: u32,
}

/// What pricing a job answers.
#[repr(C)]
#[derive(Clone, Copy, Debug, Default, PartialEq, Eq)]
pub struct PriceAnswer {
    pub answer: Answer,
    /// The price, in pence.
    pub pence: u32,
}

/// What explaining a position answers. A number that is not told is 0.
#[repr(C)]
#[derive(Clone, Copy, Debug, Default, PartialEq, Eq)]
pub struct ExplainAnswer {
    pub answer: Answer,
    /// 1 for listed, 2 for tried, 3 for passed over.
    pub outcome: u32,
    /// Of tried, the pattern's position that differed; of passed over, the j that the earliest
    /// comparison spoils.
    pub place: u32,
    /// Of passed over, the position that the pattern was shifted from.
    pub from: u32,
    /// Of passed over, the kind of shift: 1 last byte, 2 order, 3 after an occurrence, 4 long repeat.
    pub kind: u32,
}

/// What a search tells of one rule of a table.
#[repr(C)]
#[derive(Clone, Copy, Debug, Default, PartialEq, Eq)]
pub struct RuleAnswer {
    /// h, the number of the rule's occurrences.
    pub occurrences: u32,
    /// C, the number of the rule's comparisons.
    pub comparisons: u32,
    /// p, the period of the rule's pattern.
    pub period: u32,
    /// The bound of demand 3 on C: 0 for an empty text.
    pub bound: u32,
    /// 1 where the rule has no occurrence, and else 0.
    pub unmatched: u32,
}

/// What searching and converting with a table of rules answer.
#[repr(C)]
#[derive(Clone, Copy, Debug, Default, PartialEq, Eq)]
pub struct RulesAnswer {
    /// 0 for done, or the number of the refusal.
    pub status: u32,
    /// The ones of the text, where it is converted.
    pub ones: u32,
    /// What is told of rule k, at k - 1. Past the table's last rule all are zeros.
    pub rules: [RuleAnswer; MAX_RULES],
}

/// A refused answer holds the refusal and zeros elsewhere.
impl From<Refusal> for Answer {
    fn from(refusal: Refusal) -> Answer {
        Answer {
            status: refusal.status(),
            ..Answer::default()
        }
    }
}

impl From<Refusal> for ReadAnswer {
    fn from(refusal: Refusal) -> ReadAnswer {
        ReadAnswer {
            answer: refusal.into(),
            ..ReadAnswer::default()
        }
    }
}

impl From<Refusal> for WriteAnswer {
    fn from(refusal: Refusal) -> WriteAnswer {
        WriteAnswer {
            answer: refusal.into(),
            ..WriteAnswer::default()
        }
    }
}

impl From<Refusal> for ReportAnswer {
    fn from(refusal: Refusal) -> ReportAnswer {
        ReportAnswer {
            answer: refusal.into(),
            ..ReportAnswer::default()
        }
    }
}

impl From<Refusal> for TurnAnswer {
    fn from(refusal: Refusal) -> TurnAnswer {
        TurnAnswer {
            answer: refusal.into(),
            ..TurnAnswer::default()
        }
    }
}

impl From<Refusal> for PriceAnswer {
    fn from(refusal: Refusal) -> PriceAnswer {
        PriceAnswer {
            answer: refusal.into(),
            ..PriceAnswer::default()
        }
    }
}

impl From<Refusal> for ExplainAnswer {
    fn from(refusal: Refusal) -> ExplainAnswer {
        ExplainAnswer {
            answer: refusal.into(),
            ..ExplainAnswer::default()
        }
    }
}

impl From<Refusal> for RulesAnswer {
    fn from(refusal: Refusal) -> RulesAnswer {
        RulesAnswer {
            status: refusal.status(),
            ..RulesAnswer::default()
        }
    }
}
