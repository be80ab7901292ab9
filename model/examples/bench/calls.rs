//! Each call but preparing, searching, turning, restoring and pricing on the largest job, and
//! counting ones on short texts too, beside its plain Rust version.

use std::hint::black_box;

use ruffarmoire_model::answers::{Answer, ReadAnswer, ReportAnswer, WriteAnswer};
use ruffarmoire_model::calls::{self, TableLengths};
use ruffarmoire_model::gen::{Random, Shape};
use ruffarmoire_model::job::{self, Job};
use ruffarmoire_model::seek;

use crate::baseline;
use crate::library;
use crate::table_buffers::TableBuffers;
use crate::timing::{medians, Timed};

pub fn run() {
    let job = Shape::AnyBytes.job(&mut Random::seeded(31), 128, 16_384);
    let file = job::write(&job);
    println!(
        "The largest job: m {}, n {}, random bytes, a file of {} bytes. µs a call.",
        job.pattern.len(),
        job.text.len(),
        file.len()
    );
    println!(
        "{:12} {:>9} {:>9} {:>12}",
        "", "Rattle", "Rust", "Rattle/Rust"
    );
    print(
        "read_job",
        [
            reading(&job, &file, library::read_job),
            reading(&job, &file, baseline::job::read_job),
        ],
    );
    print(
        "write_job",
        [
            writing(&job, &file, library::write_job),
            writing(&job, &file, baseline::job::write_job),
        ],
    );
    print(
        "convert",
        [
            converting(&job, library::convert),
            converting(&job, baseline::converter::convert),
        ],
    );
    print(
        "count_ones",
        [
            counting(&job.text, library::count_ones),
            counting(&job.text, baseline::converter::count_ones),
        ],
    );
    print(
        "seek_report",
        [
            reporting(&file, library::seek_report),
            reporting(&file, baseline::report::seek_report),
        ],
    );
    print_short_counts(&job);
}

/// Counting where a text has no word of eight bytes, few words, or words and a rest.
fn print_short_counts(job: &Job) {
    println!("\ncount_ones of the first n bytes, in the same columns. ns a call.");
    for n in [1, 7, 8, 15, 63, 64, 255, 1_023] {
        let text = &job.text[..n];
        let [rattle, rust] = medians([
            counting(text, library::count_ones),
            counting(text, baseline::converter::count_ones),
        ]);
        println!(
            "{:12} {:9.1} {:9.1} {:12.2}",
            format!("n = {n}"),
            1_000.0 * rattle,
            1_000.0 * rust,
            rattle / rust
        );
    }
}

fn print(name: &str, both: [Timed; 2]) {
    let [rattle, rust] = medians(both);
    println!("{name:12} {rattle:9.2} {rust:9.2} {:12.2}", rattle / rust);
}

type Read = fn(&[u8], &mut [u8], &mut [u8]) -> ReadAnswer;

fn reading<'a>(job: &'a Job, file: &'a [u8], call: Read) -> Timed<'a> {
    let mut pattern = vec![0; job.pattern.len()];
    let mut text = vec![0; job.text.len()];
    assert_eq!(call(file, &mut pattern, &mut text).answer.status, 0);
    assert_eq!((&pattern, &text), (&job.pattern, &job.text));
    Timed::new(1, move || {
        black_box(call(black_box(file), &mut pattern, &mut text));
        black_box((&mut pattern, &mut text));
    })
}

type Write = fn(u32, &[u8], &[u8], &mut [u8]) -> WriteAnswer;

fn writing<'a>(job: &'a Job, file: &'a [u8], call: Write) -> Timed<'a> {
    let hold = job.hold as u32;
    let mut written = vec![0; file.len()];
    let answer = call(hold, &job.pattern, &job.text, &mut written).answer;
    assert_eq!((answer.status, &written[..]), (0, file));
    Timed::new(1, move || {
        let (pattern, text) = black_box((&job.pattern, &job.text));
        black_box(call(hold, pattern, text, &mut written));
        black_box(&mut written);
    })
}

type Convert = fn(
    u32,
    &[u8],
    &[u8],
    &mut [i16],
    &mut [u16],
    &mut [u16],
    &mut [u16],
    &mut [u16],
    &mut [u16],
) -> Answer;

/// The buffers that a conversion is lent.
struct ConvertBuffers {
    tables: TableBuffers,
    found: Vec<u16>,
    frames: Vec<u16>,
}

fn converting(job: &Job, call: Convert) -> Timed<'_> {
    let n = job.text.len();
    let mut lent = ConvertBuffers {
        tables: TableBuffers::needed(job.pattern.len()),
        found: vec![0; n],
        frames: vec![0; n],
    };
    let convert_to = move |lent: &mut ConvertBuffers| {
        let (pattern, text) = black_box((&job.pattern, &job.text));
        call(
            job.hold as u32,
            pattern,
            text,
            &mut lent.tables.order,
            &mut lent.tables.delta2,
            &mut lent.tables.delta1,
            &mut lent.tables.delta3,
            &mut lent.found,
            &mut lent.frames,
        )
    };
    let lengths = TableLengths::needed(job.pattern.len());
    let hold = job.hold as u32;
    let expected = calls::convert(hold, &job.pattern, &job.text, lengths, n, n);
    assert_eq!(convert_to(&mut lent), expected.answer);
    assert_eq!(lent.frames, expected.frames);
    Timed::new(1, move || {
        black_box(convert_to(&mut lent));
        black_box(&mut lent);
    })
}

type Count = fn(&[u8]) -> Answer;

fn counting(text: &[u8], call: Count) -> Timed<'_> {
    assert_eq!(call(text), calls::count_ones(text));
    Timed::new(1, move || {
        black_box(call(black_box(text)));
    })
}

type Report = fn(&[u8], &mut [u8]) -> ReportAnswer;

fn reporting(file: &[u8], call: Report) -> Timed<'_> {
    let expected = seek::seek(file);
    let mut out = vec![0; expected.len()];
    assert_eq!(call(file, &mut out).answer.status, 0);
    assert_eq!(out, expected.as_bytes());
    Timed::new(1, move || {
        black_box(call(black_box(file), &mut out));
        black_box(&mut out);
    })
}
