//! Why a position of the text is an occurrence or is none, by what a search did.
//!
//! What `explain` answers, the library's or the model's, is numbers. [`Explained::told`] reads
//! them, together with the position that was asked for and the length of the text. What it gives can
//! be matched on, and `to_string` makes a sentence of it, or of the refusal. That is read by minders,
//! so it has the documents' words: card, motif, chain, find and look, and place for a position.

use std::error::Error;
use std::fmt::{self, Display, Formatter};

use crate::answers::{Answer, ExplainAnswer, Refusal};
use crate::ring::byte_at;
use crate::steps::{Alignment, Comparison, Search};

/// What a search did about a position of the text.
#[derive(Clone, Copy, Debug, PartialEq, Eq)]
pub enum Explanation {
    /// The position is an occurrence.
    Listed,
    /// The pattern was laid at the position, and it differed.
    Tried {
        /// The pattern's position whose comparison differed.
        place: usize,
    },
    /// The pattern was never laid at the position.
    PassedOver {
        /// The position that the pattern was shifted from.
        from: usize,
        /// The pattern's position j that the earliest comparison spoils: text position b + j was
        /// compared, and its byte is not w(j). The same byte of the ring compared at another
        /// position does not count.
        place: usize,
        /// What kind of shift went past.
        kind: ShiftKind,
    },
}

/// The kinds of shift, each with its number.
#[derive(Clone, Copy, Debug, PartialEq, Eq)]
pub enum ShiftKind {
    /// After an alignment by the order whose first comparison differed.
    LastByte = 1,
    /// After an alignment by the order of which a later comparison differed.
    Order = 2,
    /// After an occurrence, in a repeat or not.
    AfterOccurrence = 3,
    /// After a repeat of which a comparison differed, also where that is the first.
    LongRepeat = 4,
}

/// The kinds in the order of their numbers.
pub const SHIFT_KINDS: [ShiftKind; 4] = [
    ShiftKind::LastByte,
    ShiftKind::Order,
    ShiftKind::AfterOccurrence,
    ShiftKind::LongRepeat,
];

impl ShiftKind {
    /// The kind of the shift after an alignment of a pattern of m bytes.
    fn after(alignment: &Alignment, m: usize) -> ShiftKind {
        match alignment.differing {
            None => ShiftKind::AfterOccurrence,
            Some(_) if alignment.is_repeat => ShiftKind::LongRepeat,
            Some(i) if i == m - 1 => ShiftKind::LastByte,
            Some(_) => ShiftKind::Order,
        }
    }

    /// The number of the kind in an answer.
    pub fn number(self) -> u32 {
        self as u32
    }

    /// The kind with this number.
    pub fn numbered(number: u32) -> Option<ShiftKind> {
        SHIFT_KINDS.into_iter().find(|kind| kind.number() == number)
    }
}

/// Refusal 10: a position b that is not below n.
pub fn check_position(b: usize, n: usize) -> Result<(), Refusal> {
    if b < n {
        Ok(())
    } else {
        Err(Refusal::Position)
    }
}

/// The explanation of position b, which is below n. `done` is the search of the text for the
/// pattern, by [`search`](crate::steps::search).
pub fn explanation(done: &Search, pattern: &[u8], text: &[u8], b: usize) -> Explanation {
    let m = pattern.len();
    if done.occurrences.contains(&b) {
        return Explanation::Listed;
    }
    if let Some(tried) = done.alignments.iter().find(|laid| laid.position == b) {
        let place = tried.differing.expect("b is no occurrence");
        return Explanation::Tried { place };
    }
    let went_past = |laid: &&Alignment| laid.position < b && b < laid.position + laid.shift;
    let last = done.alignments.iter().find(went_past);
    let last = last.expect("where the pattern was never laid, it was shifted past");
    let spoils = |made: &&Comparison| {
        let x = made.text_position;
        b <= x && x < b + m && byte_at(text, x) != pattern[x - b]
    };
    let earliest = done.comparisons.iter().find(spoils);
    let earliest = earliest.expect("a position that is passed over is spoilt");
    Explanation::PassedOver {
        from: last.position,
        place: earliest.text_position - b,
        kind: ShiftKind::after(last, m),
    }
}

/// The numbers of an explanation.
impl From<Explanation> for ExplainAnswer {
    fn from(explanation: Explanation) -> ExplainAnswer {
        let number = |position: usize| u32::try_from(position).expect("positions are below 2^32");
        let (outcome, place, from, kind) = match explanation {
            Explanation::Listed => (1, 0, 0, 0),
            Explanation::Tried { place } => (2, place, 0, 0),
            Explanation::PassedOver { from, place, kind } => (3, place, from, kind.number()),
        };
        ExplainAnswer {
            answer: Answer::default(),
            outcome,
            place: number(place),
            from: number(from),
            kind,
        }
    }
}

/// Why an answer has no explanation. `to_string` makes a sentence of it.
#[derive(Clone, Copy, Debug, PartialEq, Eq)]
pub enum Unexplained {
    /// The call was refused, with this status.
    Refused(u32),
    /// These are not the numbers of any explanation.
    NoExplanation,
}

impl Display for Unexplained {
    fn fmt(&self, formatter: &mut Formatter) -> fmt::Result {
        match self {
            Unexplained::Refused(status) => write!(formatter, "Turned away by {status}."),
            Unexplained::NoExplanation => write!(formatter, "The answer is no explanation."),
        }
    }
}

impl Error for Unexplained {}

/// The explanation with these numbers. To say it in a sentence, use [`Explained::told`].
impl TryFrom<ExplainAnswer> for Explanation {
    type Error = Unexplained;

    fn try_from(told: ExplainAnswer) -> Result<Explanation, Unexplained> {
        if told.answer.status != 0 {
            return Err(Unexplained::Refused(told.answer.status));
        }
        if told.answer != Answer::default() {
            return Err(Unexplained::NoExplanation);
        }
        match told {
            ExplainAnswer {
                outcome: 1,
                place: 0,
                from: 0,
                kind: 0,
                ..
            } => Ok(Explanation::Listed),
            ExplainAnswer {
                outcome: 2,
                place,
                from: 0,
                kind: 0,
                ..
            } => Ok(Explanation::Tried {
                place: place as usize,
            }),
            ExplainAnswer {
                outcome: 3,
                place,
                from,
                kind,
                ..
            } => Ok(Explanation::PassedOver {
                from: from as usize,
                place: place as usize,
                kind: ShiftKind::numbered(kind).ok_or(Unexplained::NoExplanation)?,
            }),
            _ => Err(Unexplained::NoExplanation),
        }
    }
}

/// A position of the text with its explanation. `to_string` makes a sentence of it.
#[derive(Clone, Copy, Debug, PartialEq, Eq)]
pub struct Explained {
    /// b
    pub position: usize,
    /// n
    pub text_length: usize,
    pub explanation: Explanation,
}

impl Explained {
    /// What the answer of `explain` tells of the position that it was asked for, in a text of this
    /// length; or that it was refused.
    pub fn told(
        position: u32,
        text_length: usize,
        answer: ExplainAnswer,
    ) -> Result<Explained, Unexplained> {
        Ok(Explained {
            position: position as usize,
            text_length,
            explanation: answer.try_into()?,
        })
    }

    /// The text's position under a position of the pattern.
    fn under(&self, place: usize) -> ChainPlace {
        ChainPlace {
            place: self.position + place,
            cards: self.text_length,
        }
    }
}

/// A position of the text as a minder reads it: where it is n or more, with the number of the byte
/// that lies there.
struct ChainPlace {
    place: usize,
    cards: usize,
}

impl Display for ChainPlace {
    fn fmt(&self, formatter: &mut Formatter) -> fmt::Result {
        let ChainPlace { place, cards } = self;
        match place.checked_rem(*cards) {
            Some(card) if card < *place => write!(
                formatter,
                "chain place {place} (card number {card}, over the seam)"
            ),
            _ => write!(formatter, "chain place {place}"),
        }
    }
}

/// The documents' name of the kind.
impl Display for ShiftKind {
    fn fmt(&self, formatter: &mut Formatter) -> fmt::Result {
        formatter.write_str(match self {
            ShiftKind::LastByte => "last card",
            ShiftKind::Order => "order",
            ShiftKind::AfterOccurrence => "after a find",
            ShiftKind::LongRepeat => "long repeat",
        })
    }
}

/// A sentence or two for a minder, with every number.
impl Display for Explained {
    fn fmt(&self, formatter: &mut Formatter) -> fmt::Result {
        let b = self.position;
        match self.explanation {
            Explanation::Listed => {
                write!(formatter, "Listed: the motif is found at chain place {b}.")
            }
            Explanation::Tried { place } => write!(
                formatter,
                "Tried: the motif was laid at chain place {b}, and the look at motif place {place} \
                 differed: {} has another card.",
                self.under(place)
            ),
            Explanation::PassedOver { from, place, kind } => {
                let cause = match kind {
                    ShiftKind::LastByte => "differed in its last card",
                    ShiftKind::Order => "agreed in its last card and differed in another",
                    ShiftKind::AfterOccurrence => "was found",
                    ShiftKind::LongRepeat => "differed in the repeat after a find",
                };
                write!(
                    formatter,
                    "Passed over ({kind}): at chain place {from} the motif {cause}, and from there \
                     it was shifted past chain place {b}. The earliest look that rules place {b} \
                     out was at {}: its card is not that of motif place {place}.",
                    self.under(place)
                )
            }
        }
    }
}
