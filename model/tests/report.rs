//! What SEEK prints, by the library, written in Rattle, against the model.

#[macro_use]
mod common;
mod library;

use std::thread;

use common::files::largest_job;
use library::calls::{seek_report, REPORT_STACK};
use library::Library;
use ruffarmoire_model::calls;
use ruffarmoire_model::job;

report_suite!(Library);

/// A thread with the stack that the README states writes the report of the largest job. With less
/// than `seek_report` takes, the test program crashes.
#[test]
fn the_largest_job_on_the_stack_stated() {
    let file = job::write(&largest_job());
    let expected = calls::seek_report(&file, usize::MAX).report;
    let printed = thread::Builder::new()
        .stack_size(REPORT_STACK)
        .spawn(move || {
            let mut out = vec![0; 163_877];
            let answer = seek_report(&file, &mut out);
            out.truncate(answer.bytes as usize);
            out
        })
        .expect("a thread starts")
        .join()
        .expect("it ends well");
    assert_eq!(printed, expected);
}
