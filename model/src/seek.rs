//! What SEEK prints for a job on its standard input.

use crate::answers::Refusal;
use crate::tables::Tables;
use crate::{convert, job, steps};

/// h in four digits, C in eight, the ones in eight, p in four, the bound in eight, then each
/// occurrence in four, then each frame in four, a line each. A refused job gives the single line FF
/// followed by the refusal in two digits.
pub fn seek(file: &[u8]) -> String {
    match job::read(file) {
        Ok(job) => report(&job),
        Err(refusal) => refused(refusal),
    }
}

fn report(job: &job::Job) -> String {
    let tables = Tables::of(&job.pattern);
    let occurrences = convert::occurrences(&job.pattern, &job.text);
    let searched = steps::search_with(&tables, &job.pattern, &job.text);
    let bound = steps::bound(&tables, job.text.len(), occurrences.len());
    let mut printed = String::new();
    printed += &format!("{:04X}\n", occurrences.len());
    printed += &format!("{:08X}\n", searched.comparisons.len());
    printed += &format!("{:08X}\n", convert::ones(&job.text));
    printed += &format!("{:04X}\n", tables.period);
    printed += &format!("{bound:08X}\n");
    for occurrence in occurrences {
        printed += &format!("{occurrence:04X}\n");
    }
    for frame in convert::frames(&job.pattern, job.hold, &job.text) {
        printed += &format!("{frame:04X}\n");
    }
    printed
}

fn refused(refusal: Refusal) -> String {
    format!("FF{:02X}\n", refusal.status())
}
