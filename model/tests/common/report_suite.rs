//! Everything that is asked of writing SEEK's report, for any implementation of the call. Each call
//! is held to the model: its whole answer, and every entry of the buffer.

use ruffarmoire_model::answers::{Answer, ReportAnswer};
use ruffarmoire_model::calls;
use ruffarmoire_model::gen::{Random, SHAPES};
use ruffarmoire_model::job::{self, Job};

use super::bounds;
use super::examples::example_jobs;
use super::files::{largest_job, small_job, spoiled_files};
use super::harness::{reserved, shown, Buffer};
use super::{repeats, rings};

/// An implementation of writing SEEK's report.
pub trait ReportCalls {
    fn seek_report(file: &[u8], out: &mut [u8]) -> ReportAnswer;
}

/// A test program's tests: all of this module on one implementation.
macro_rules! report_suite {
    ($calls:ty) => {
        tests_of!(report_suite, $calls:
            worked_examples,
            periods_and_bounds,
            generated_jobs,
            longer_jobs,
            long_repeats,
            rings,
            largest_jobs,
            every_buffer_length,
            spoiled_jobs,
            cut_jobs,
            changed_jobs,
            random_files,
            lengths_beyond_32_bits,
        );
    };
}

/// The bytes of the lines before the occurrences: h, C, the ones, p and the bound.
const NUMBERS: usize = 5 + 9 + 9 + 5 + 9;

/// The bytes of the longest report: every byte of the text is an occurrence and a frame.
const LONGEST: usize = NUMBERS + 5 * 16_384 + 5 * 16_384;

/// Writes the report of a file into a buffer of this length and holds the outcome to the model.
fn check_report<T: ReportCalls>(file: &[u8], buffer_length: usize) -> ReportAnswer {
    let expected = calls::seek_report(file, buffer_length);
    // Two fillings of the buffer: an entry that is left by chance as it should be is seen in one.
    for seed in [file.len(), file.len() + 101] {
        let before = Buffer::junk(buffer_length, seed);
        let mut out = before.clone();
        let answer = T::seek_report(file, out.lent());
        let context = || format!("report of {}, buffer of {buffer_length}", shown(file));
        assert_eq!(answer, expected.answer, "{}", context());
        out.expect(&before.after(&expected.report), "out", &context);
    }
    expected.answer
}

/// The report of a file with buffers that are exact, longer and too short.
fn check_file<T: ReportCalls>(file: &[u8]) {
    let length = calls::seek_report(file, usize::MAX).report.len();
    for (buffer_length, status) in [(length, 0), (length + 11, 0), (length - 1, 7), (0, 7)] {
        let answer = check_report::<T>(file, buffer_length);
        assert_eq!(answer.answer.status, status);
    }
}

fn check_job<T: ReportCalls>(job: &Job) {
    check_file::<T>(&job::write(job));
}

pub fn worked_examples<T: ReportCalls>() {
    for job in example_jobs() {
        check_job::<T>(&job);
    }
    let listing = b"0105020009\n06\n06\n18\n06\n06\n06\n06\n18\n06\n06\n06\n18\n06\n06\n";
    let printed = b"0002\n0000000D\n00000012\n0003\n00000015\n0000\n0004\n\
                    0006\n0006\n0100\n0006\n0006\n0006\n0100\n0006\n0006\n";
    check_file::<T>(listing);
    let mut out = vec![0; printed.len()];
    let answer = T::seek_report(listing, &mut out);
    assert_eq!(answer.bytes as usize, printed.len());
    assert_eq!(out, printed);
}

pub fn periods_and_bounds<T: ReportCalls>() {
    for search in bounds::written_out() {
        let job = search.job();
        check_job::<T>(&job);
        let mut out = vec![0; LONGEST];
        let answer = T::seek_report(&job::write(&job), &mut out);
        out.truncate(answer.bytes as usize);
        search.expect_printed(&String::from_utf8(out).expect("digits and line ends"));
    }
}

pub fn generated_jobs<T: ReportCalls>() {
    let mut random = Random::seeded(91);
    for round in 0..1_000 {
        let (m, n) = (random.between(1, 10), random.between(0, 50));
        check_job::<T>(&SHAPES[round % SHAPES.len()].job(&mut random, m, n));
    }
}

pub fn longer_jobs<T: ReportCalls>() {
    let mut random = Random::seeded(92);
    for round in 0..60 {
        let (m, n) = (random.between(1, 128), random.between(0, 1_000));
        let job = SHAPES[round % SHAPES.len()].job(&mut random, m, n);
        check_report::<T>(&job::write(&job), NUMBERS + 5 * n + 5 * n);
    }
}

pub fn long_repeats<T: ReportCalls>() {
    for (pattern, text) in repeats::mixed().chain(repeats::largest()) {
        let hold = text.len() % pattern.len();
        let job = Job {
            pattern,
            hold,
            text,
        };
        check_report::<T>(&job::write(&job), LONGEST);
    }
}

pub fn rings<T: ReportCalls>() {
    let pairs = rings::short()
        .step_by(5)
        .chain(rings::longer())
        .chain(rings::largest().step_by(4));
    for (pattern, text) in pairs {
        let hold = (text.len() + 1) % pattern.len();
        let job = Job {
            pattern,
            hold,
            text,
        };
        check_report::<T>(&job::write(&job), LONGEST);
    }
}

pub fn largest_jobs<T: ReportCalls>() {
    let mut random = Random::seeded(93);
    for shape in SHAPES {
        for m in [1, 128] {
            let file = job::write(&shape.job(&mut random, m, 16_384));
            check_report::<T>(&file, LONGEST);
        }
    }
    check_job::<T>(&largest_job());
    let all_found = Job {
        pattern: vec![0xFF],
        hold: 0,
        text: vec![0xFF; 16_384],
    };
    check_job::<T>(&all_found);
    let answer = check_report::<T>(&job::write(&all_found), LONGEST);
    assert_eq!(answer.bytes as usize, LONGEST);
}

pub fn every_buffer_length<T: ReportCalls>() {
    for file in [
        job::write(&small_job()),
        b"0101000000\n0A\n".to_vec(),
        Vec::new(),
    ] {
        let length = calls::seek_report(&file, usize::MAX).report.len();
        for buffer_length in 0..length + 8 {
            let answer = check_report::<T>(&file, buffer_length);
            let enough = buffer_length >= length;
            assert_eq!(answer.answer.status, if enough { 0 } else { 7 });
        }
    }
}

pub fn spoiled_jobs<T: ReportCalls>() {
    let mut seen = [0; 8];
    for file in spoiled_files() {
        for buffer_length in [5, 6, 40, 4, 0] {
            check_report::<T>(&file, buffer_length);
        }
        if let Err(refusal) = job::read(&file) {
            seen[refusal.status() as usize] += 1;
        }
    }
    assert!(seen[1..7].iter().all(|&times| times > 0), "{seen:?}");
}

pub fn cut_jobs<T: ReportCalls>() {
    let file = job::write(&small_job());
    for start in 0..file.len() {
        for end in start..=file.len() {
            check_report::<T>(&file[start..end], 200);
            check_report::<T>(&[&file[..start], &file[end..]].concat(), 200);
        }
    }
}

/// Each byte of a small job changed to each of the 256 values.
pub fn changed_jobs<T: ReportCalls>() {
    let file = job::write(&small_job());
    for position in 0..file.len() {
        for value in 0..=255 {
            let mut changed = file.clone();
            changed[position] = value;
            check_report::<T>(&changed, 200);
        }
    }
}

pub fn random_files<T: ReportCalls>() {
    let mut random = Random::seeded(94);
    for round in 0..2_000 {
        let length = random.between(0, 60);
        let file = match round % 2 {
            0 => random.bytes(length),
            _ => random.picked(b"0123456789ABCDEF\n", length),
        };
        check_report::<T>(&file, random.below(12));
    }
}

/// Lengths of more than 32 bits: none may be taken for what is left of it in 32.
pub fn lengths_beyond_32_bits<T: ReportCalls>() {
    const BEYOND: usize = 1 << 32;
    let file = job::write(&small_job());
    let long = reserved(BEYOND + file.len());
    long[..file.len()].copy_from_slice(&file);
    let mut out = [0xEE; 80];
    let answer = T::seek_report(long, &mut out);
    let expected = ReportAnswer {
        answer: Answer::default(),
        bytes: 5,
    };
    assert_eq!(answer, expected);
    assert_eq!(out[..5], *b"FF01\n");
    assert_eq!(out[5..], [0xEE; 75]);

    // A buffer of which nothing would be left in 32 bits is longer than needed, and that is fine.
    let expected = calls::seek_report(&file, usize::MAX);
    let length = expected.report.len();
    let out = &mut long[..BEYOND];
    out[..length + 8].fill(0xEE);
    assert_eq!(T::seek_report(&file, out), expected.answer);
    assert_eq!(out[..length], expected.report);
    assert_eq!(out[length..length + 8], [0xEE; 8]);
}
