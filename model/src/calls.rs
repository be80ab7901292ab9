//! The public calls: what each answers, and what it leaves in the caller's buffers.
//!
//! A call is handed the lengths of the caller's buffers. It gives its answer and, for each buffer,
//! the entries that it puts at the front of it; entries past those keep what they held. A refused
//! call puts no entry into any buffer.

use crate::answers::{
    Answer, ExplainAnswer, PriceAnswer, ReadAnswer, Refusal, ReportAnswer, TurnAnswer, WriteAnswer,
};
use crate::explain::{check_position, explanation};
use crate::job::{check_hold, check_pattern_length, check_text_length, Job};
use crate::job::{file_length, first_line, lines};
use crate::restore::restored;
use crate::tables::Tables;
use crate::turn::{turned_job, Way};
use crate::{convert, job, price, seek, steps};

/// Refusal 7 for one buffer.
pub(crate) fn check_buffer(length: usize, needed: usize) -> Result<(), Refusal> {
    if length < needed {
        Err(Refusal::ShortBuffer)
    } else {
        Ok(())
    }
}

/// A number of an answer.
fn count(value: usize) -> u32 {
    u32::try_from(value).expect("the numbers of an answer are below 2^32")
}

/// What reading a job file leaves.
#[derive(Clone, Debug, Default, PartialEq, Eq)]
pub struct ReadOutcome {
    pub answer: ReadAnswer,
    pub pattern: Vec<u8>,
    pub text: Vec<u8>,
}

/// Reads a job file into a buffer for the pattern and one for the text.
pub fn read_job(file: &[u8], pattern_length: usize, text_length: usize) -> ReadOutcome {
    match try_read_job(file, pattern_length, text_length) {
        Ok(job) => ReadOutcome {
            answer: ReadAnswer {
                answer: Answer::default(),
                m: count(job.pattern.len()),
                q: count(job.hold),
                n: count(job.text.len()),
            },
            pattern: job.pattern,
            text: job.text,
        },
        Err(refusal) => ReadOutcome {
            answer: refusal.into(),
            ..ReadOutcome::default()
        },
    }
}

fn try_read_job(file: &[u8], pattern_length: usize, text_length: usize) -> Result<Job, Refusal> {
    let job = job::read(file)?;
    check_buffer(pattern_length, job.pattern.len())?;
    check_buffer(text_length, job.text.len())?;
    Ok(job)
}

/// What writing a job file leaves.
#[derive(Clone, Debug, Default, PartialEq, Eq)]
pub struct WriteOutcome {
    pub answer: WriteAnswer,
    pub file: Vec<u8>,
}

/// Writes a job file into a buffer.
pub fn write_job(hold: u32, pattern: &[u8], text: &[u8], buffer_length: usize) -> WriteOutcome {
    match try_write_job(hold, pattern, text, buffer_length) {
        Ok(file) => WriteOutcome {
            answer: WriteAnswer {
                answer: Answer::default(),
                bytes: count(file.len()),
            },
            file,
        },
        Err(refusal) => WriteOutcome {
            answer: refusal.into(),
            ..WriteOutcome::default()
        },
    }
}

fn try_write_job(
    hold: u32,
    pattern: &[u8],
    text: &[u8],
    buffer_length: usize,
) -> Result<Vec<u8>, Refusal> {
    let (m, n) = (pattern.len(), text.len());
    check_pattern_length(m)?;
    check_hold(hold as usize, m)?;
    check_text_length(n)?;
    check_buffer(buffer_length, file_length(m, n))?;
    let first = first_line(1, m as u8, hold as u8, n as u16);
    Ok([first, lines(pattern), lines(text)].concat())
}

/// The lengths of the buffers for the tables.
#[derive(Clone, Copy, Debug)]
pub struct TableLengths {
    pub order: usize,
    pub delta1: usize,
    pub delta2: usize,
    pub delta3: usize,
}

impl TableLengths {
    /// The lengths that a pattern of m bytes needs.
    pub fn needed(m: usize) -> TableLengths {
        TableLengths {
            order: m + 1,
            delta1: 256 * m,
            delta2: m + 1,
            delta3: m,
        }
    }

    fn check(&self, m: usize) -> Result<(), Refusal> {
        self.check_needed(TableLengths::needed(m))
    }

    /// Refusal 7 where one of these is less than what is needed.
    pub(crate) fn check_needed(&self, needed: TableLengths) -> Result<(), Refusal> {
        check_buffer(self.order, needed.order)?;
        check_buffer(self.delta1, needed.delta1)?;
        check_buffer(self.delta2, needed.delta2)?;
        check_buffer(self.delta3, needed.delta3)
    }
}

/// What preparing, searching and converting leave. A buffer that a call does not take has no
/// entries here.
#[derive(Clone, Debug, Default, PartialEq, Eq)]
pub struct Outcome {
    pub answer: Answer,
    pub order: Vec<i16>,
    pub delta1: Vec<usize>,
    pub delta2: Vec<usize>,
    pub delta3: Vec<usize>,
    pub occurrences: Vec<usize>,
    pub frames: Vec<u16>,
}

impl From<Refusal> for Outcome {
    fn from(refusal: Refusal) -> Outcome {
        Outcome {
            answer: refusal.into(),
            ..Outcome::default()
        }
    }
}

impl From<Result<Outcome, Refusal>> for Outcome {
    fn from(result: Result<Outcome, Refusal>) -> Outcome {
        result.unwrap_or_else(Outcome::from)
    }
}

/// Prepares a pattern: works its tables and its period out.
pub fn prepare(pattern: &[u8], lengths: TableLengths) -> Outcome {
    try_prepare(pattern, lengths).into()
}

fn try_prepare(pattern: &[u8], lengths: TableLengths) -> Result<Outcome, Refusal> {
    check_pattern_length(pattern.len())?;
    lengths.check(pattern.len())?;
    let tables = Tables::of(pattern);
    Ok(Outcome {
        answer: Answer {
            period: count(tables.period),
            ..Answer::default()
        },
        order: tables.order,
        delta1: tables.delta1,
        delta2: tables.delta2,
        delta3: tables.delta3,
        ..Outcome::default()
    })
}

/// Searches a text for a pattern.
pub fn search(
    pattern: &[u8],
    text: &[u8],
    lengths: TableLengths,
    occurrences_length: usize,
) -> Outcome {
    try_search(pattern, text, lengths, occurrences_length).into()
}

fn try_search(
    pattern: &[u8],
    text: &[u8],
    lengths: TableLengths,
    occurrences_length: usize,
) -> Result<Outcome, Refusal> {
    check_pattern_length(pattern.len())?;
    check_text_length(text.len())?;
    lengths.check(pattern.len())?;
    check_buffer(occurrences_length, text.len())?;
    let tables = Tables::of(pattern);
    let comparisons = steps::search_with(&tables, pattern, text).comparisons.len();
    let occurrences = convert::occurrences(pattern, text);
    let bound = steps::bound(&tables, text.len(), occurrences.len());
    Ok(Outcome {
        answer: Answer {
            occurrences: count(occurrences.len()),
            comparisons: count(comparisons),
            period: count(tables.period),
            bound: count(bound),
            ..Answer::default()
        },
        order: tables.order,
        delta1: tables.delta1,
        delta2: tables.delta2,
        delta3: tables.delta3,
        occurrences,
        frames: Vec::new(),
    })
}

/// Converts a text to frames.
pub fn convert(
    hold: u32,
    pattern: &[u8],
    text: &[u8],
    lengths: TableLengths,
    occurrences_length: usize,
    frames_length: usize,
) -> Outcome {
    try_convert(
        hold,
        pattern,
        text,
        lengths,
        occurrences_length,
        frames_length,
    )
    .into()
}

fn try_convert(
    hold: u32,
    pattern: &[u8],
    text: &[u8],
    lengths: TableLengths,
    occurrences_length: usize,
    frames_length: usize,
) -> Result<Outcome, Refusal> {
    check_pattern_length(pattern.len())?;
    check_hold(hold as usize, pattern.len())?;
    check_text_length(text.len())?;
    check_buffer(frames_length, text.len())?;
    let mut outcome = try_search(pattern, text, lengths, occurrences_length)?;
    outcome.answer.ones = convert::ones(text);
    outcome.frames = convert::frames(pattern, hold as usize, text);
    Ok(outcome)
}

/// Counts the ones of a text.
pub fn count_ones(text: &[u8]) -> Answer {
    match check_text_length(text.len()) {
        Ok(()) => Answer {
            ones: convert::ones(text),
            ..Answer::default()
        },
        Err(refusal) => refusal.into(),
    }
}

/// What writing SEEK's report leaves.
#[derive(Clone, Debug, Default, PartialEq, Eq)]
pub struct ReportOutcome {
    pub answer: ReportAnswer,
    pub report: Vec<u8>,
}

/// Writes what SEEK prints for a file into a buffer. The file may be one that is refused: that is
/// then in the report, and the call is done.
pub fn seek_report(file: &[u8], buffer_length: usize) -> ReportOutcome {
    let report = seek::seek(file).into_bytes();
    match check_buffer(buffer_length, report.len()) {
        Ok(()) => ReportOutcome {
            answer: ReportAnswer {
                answer: Answer::default(),
                bytes: count(report.len()),
            },
            report,
        },
        Err(refusal) => ReportOutcome {
            answer: refusal.into(),
            ..ReportOutcome::default()
        },
    }
}

/// What turning a job leaves.
#[derive(Clone, Debug, Default, PartialEq, Eq)]
pub struct TurnOutcome {
    pub answer: TurnAnswer,
    pub turned_pattern: Vec<u8>,
    pub turned_text: Vec<u8>,
}

/// Turns a job: its pattern and its text into a buffer each, its hold offset into the answer.
pub fn turn(
    way: u32,
    hold: u32,
    pattern: &[u8],
    text: &[u8],
    turned_pattern_length: usize,
    turned_text_length: usize,
) -> TurnOutcome {
    match try_turn(
        way,
        hold,
        pattern,
        text,
        turned_pattern_length,
        turned_text_length,
    ) {
        Ok(turned) => TurnOutcome {
            answer: TurnAnswer {
                answer: Answer::default(),
                q: count(turned.hold),
            },
            turned_pattern: turned.pattern,
            turned_text: turned.text,
        },
        Err(refusal) => TurnOutcome {
            answer: refusal.into(),
            ..TurnOutcome::default()
        },
    }
}

fn try_turn(
    way: u32,
    hold: u32,
    pattern: &[u8],
    text: &[u8],
    turned_pattern_length: usize,
    turned_text_length: usize,
) -> Result<Job, Refusal> {
    let way = Way::numbered(way)?;
    check_pattern_length(pattern.len())?;
    check_hold(hold as usize, pattern.len())?;
    check_text_length(text.len())?;
    check_buffer(turned_pattern_length, pattern.len())?;
    check_buffer(turned_text_length, text.len())?;
    let job = Job {
        pattern: pattern.to_vec(),
        hold: hold as usize,
        text: text.to_vec(),
    };
    Ok(turned_job(way, &job))
}

/// What restoring a text leaves.
#[derive(Clone, Debug, Default, PartialEq, Eq)]
pub struct RestoreOutcome {
    pub answer: Answer,
    pub text: Vec<u8>,
}

impl From<Refusal> for RestoreOutcome {
    fn from(refusal: Refusal) -> RestoreOutcome {
        RestoreOutcome {
            answer: refusal.into(),
            ..RestoreOutcome::default()
        }
    }
}

/// Restores the text that converts to these frames into a buffer.
pub fn restore(hold: u32, pattern: &[u8], frames: &[u16], text_length: usize) -> RestoreOutcome {
    match try_restore(hold, pattern, frames, text_length) {
        Ok(text) => RestoreOutcome {
            answer: Answer::default(),
            text,
        },
        Err(refusal) => refusal.into(),
    }
}

fn try_restore(
    hold: u32,
    pattern: &[u8],
    frames: &[u16],
    text_length: usize,
) -> Result<Vec<u8>, Refusal> {
    check_pattern_length(pattern.len())?;
    check_hold(hold as usize, pattern.len())?;
    check_text_length(frames.len())?;
    check_buffer(text_length, frames.len())?;
    restored(pattern, hold as usize, frames)
}

/// What pricing a job leaves.
#[derive(Clone, Debug, Default, PartialEq, Eq)]
pub struct PriceOutcome {
    pub answer: PriceAnswer,
    /// What searching leaves in the buffers. The answer in it is the one without the pence.
    pub left: Outcome,
}

impl From<Refusal> for PriceOutcome {
    fn from(refusal: Refusal) -> PriceOutcome {
        PriceOutcome {
            answer: refusal.into(),
            left: refusal.into(),
        }
    }
}

/// Prices a job: its text with the frames that it converts to.
pub fn price(
    hold: u32,
    pattern: &[u8],
    text: &[u8],
    lengths: TableLengths,
    occurrences_length: usize,
) -> PriceOutcome {
    try_price(hold, pattern, text, lengths, occurrences_length).unwrap_or_else(PriceOutcome::from)
}

fn try_price(
    hold: u32,
    pattern: &[u8],
    text: &[u8],
    lengths: TableLengths,
    occurrences_length: usize,
) -> Result<PriceOutcome, Refusal> {
    check_pattern_length(pattern.len())?;
    check_hold(hold as usize, pattern.len())?;
    let searched = try_search(pattern, text, lengths, occurrences_length)?;
    let frames = convert::frames(pattern, hold as usize, text);
    Ok(PriceOutcome {
        answer: PriceAnswer {
            answer: Answer::default(),
            pence: price::cost(text, &frames),
        },
        left: Outcome {
            answer: Answer::default(),
            ..searched
        },
    })
}

/// What explaining a position leaves.
#[derive(Clone, Debug, Default, PartialEq, Eq)]
pub struct ExplainOutcome {
    pub answer: ExplainAnswer,
    /// What preparing leaves in the buffers. The answer in it is the one without the explanation.
    pub left: Outcome,
}

impl From<Refusal> for ExplainOutcome {
    fn from(refusal: Refusal) -> ExplainOutcome {
        ExplainOutcome {
            answer: refusal.into(),
            left: refusal.into(),
        }
    }
}

/// Explains a position of the text: why it is an occurrence or is none.
pub fn explain(
    position: u32,
    pattern: &[u8],
    text: &[u8],
    lengths: TableLengths,
) -> ExplainOutcome {
    try_explain(position, pattern, text, lengths).unwrap_or_else(ExplainOutcome::from)
}

fn try_explain(
    position: u32,
    pattern: &[u8],
    text: &[u8],
    lengths: TableLengths,
) -> Result<ExplainOutcome, Refusal> {
    check_pattern_length(pattern.len())?;
    check_text_length(text.len())?;
    lengths.check(pattern.len())?;
    check_position(position as usize, text.len())?;
    let tables = Tables::of(pattern);
    let done = steps::search_with(&tables, pattern, text);
    Ok(ExplainOutcome {
        answer: explanation(&done, pattern, text, position as usize).into(),
        left: Outcome {
            order: tables.order,
            delta1: tables.delta1,
            delta2: tables.delta2,
            delta3: tables.delta3,
            ..Outcome::default()
        },
    })
}
