//! Everything that is asked of reading and writing job files, for any implementation of the two
//! calls. Each call is held to the model: its whole answer, and every entry of every buffer.

use ruffarmoire_model::answers::{ReadAnswer, WriteAnswer};
use ruffarmoire_model::calls;
use ruffarmoire_model::gen::{Random, Shape, SHAPES};
use ruffarmoire_model::job::{self, file_length, first_line, lines, Job};

use super::examples::example_jobs;
use super::harness::{reserved, shown, Buffer, MARGIN};

/// An implementation of the calls for job files.
pub trait JobCalls {
    fn read_job(file: &[u8], pattern: &mut [u8], text: &mut [u8]) -> ReadAnswer;
    fn write_job(hold: u32, pattern: &[u8], text: &[u8], file: &mut [u8]) -> WriteAnswer;
}

/// A test program's tests: all of this module on one implementation.
macro_rules! job_suite {
    ($calls:ty) => {
        tests_of!(job_suite, $calls:
            worked_examples,
            generated_jobs,
            largest_jobs,
            buffers_around_the_needed_lengths,
            header_edges,
            order_of_refusals,
            cut_files,
            padded_files,
            changed_first_line,
            changed_body,
            changed_largest_job,
            every_byte_in_every_role,
            lower_case_digits,
            other_line_ends,
            random_files,
            round_trips,
            writing_every_pattern_length,
            writing_text_edges,
            writing_generated_jobs,
            lengths_beyond_32_bits,
        );
    };
}

/// Reads a file with buffers of these lengths and holds the outcome to the model.
fn check_read<T: JobCalls>(file: &[u8], pattern_length: usize, text_length: usize) -> ReadAnswer {
    let expected = calls::read_job(file, pattern_length, text_length);
    // Two fillings of the buffers: an entry that is left by chance as it should be is seen in one.
    for seed in [file.len(), file.len() + 101] {
        let pattern_before = Buffer::junk(pattern_length, seed);
        let text_before = Buffer::junk(text_length, seed + 7);
        let (mut pattern, mut text) = (pattern_before.clone(), text_before.clone());
        let answer = T::read_job(file, pattern.lent(), text.lent());
        let context = || {
            format!(
                "reading {}, buffers of {pattern_length} and {text_length}",
                shown(file)
            )
        };
        assert_eq!(answer, expected.answer, "{}", context());
        pattern.expect(
            &pattern_before.after(&expected.pattern),
            "pattern",
            &context,
        );
        text.expect(&text_before.after(&expected.text), "text", &context);
    }
    expected.answer
}

/// Reads a file with buffers that are always long enough.
fn check_read_freely<T: JobCalls>(file: &[u8]) -> ReadAnswer {
    // Long enough for the job, and not much longer, so that small files are quickly checked.
    let needed = calls::read_job(file, usize::MAX, usize::MAX).answer;
    check_read::<T>(file, needed.m as usize + 3, needed.n as usize + 5)
}

/// Writes a job with a buffer of this length and holds the outcome to the model.
fn check_write<T: JobCalls>(
    hold: u32,
    pattern: &[u8],
    text: &[u8],
    buffer_length: usize,
) -> WriteAnswer {
    let expected = calls::write_job(hold, pattern, text, buffer_length);
    for seed in [text.len(), text.len() + 101] {
        let before = Buffer::junk(buffer_length, seed);
        let mut file = before.clone();
        let answer = T::write_job(hold, pattern, text, file.lent());
        let context = || {
            format!(
                "writing m {}, q {hold}, n {}, buffer of {buffer_length}",
                pattern.len(),
                text.len()
            )
        };
        assert_eq!(answer, expected.answer, "{}", context());
        file.expect(&before.after(&expected.file), "file", &context);
    }
    expected.answer
}

/// A file with any numbers in its first line, and after it as many of the body's lines as they ask
/// for.
fn file_of(edition: u8, m: u8, q: u8, n: u16, body: &[u8]) -> Vec<u8> {
    let due = 3 * (usize::from(m) + usize::from(n));
    [&first_line(edition, m, q, n), &body[..due]].concat()
}

/// A small job that has every kind of digit in its file.
fn small_job() -> Job {
    Job {
        pattern: vec![0x06, 0xAF, 0x10],
        hold: 2,
        text: vec![0x9E, 0x06, 0xAF, 0x10, 0xFF, 0x00, 0xDB, 0xC8],
    }
}

/// A job within the limits, read and written with buffers that are exact, longer, and one too
/// short for each.
fn check_job<T: JobCalls>(job: &Job) {
    let file = job::write(job);
    let (m, n) = (job.pattern.len(), job.text.len());
    let hold = job.hold as u32;
    assert_eq!(check_read::<T>(&file, m, n).answer.status, 0);
    assert_eq!(check_read::<T>(&file, m + 1, n + 1).answer.status, 0);
    assert_eq!(check_read::<T>(&file, m + 200, n + 1_000).answer.status, 0);
    assert_eq!(check_read::<T>(&file, m - 1, n + 1_000).answer.status, 7);
    if n > 0 {
        assert_eq!(check_read::<T>(&file, m + 200, n - 1).answer.status, 7);
        assert_eq!(check_read::<T>(&file, m - 1, n - 1).answer.status, 7);
    }
    let length = file.len();
    for (buffer_length, status) in [
        (length, 0),
        (length + 1, 0),
        (length + 1_000, 0),
        (length - 1, 7),
        (11, 7),
        (10, 7),
        (0, 7),
    ] {
        let answer = check_write::<T>(hold, &job.pattern, &job.text, buffer_length);
        assert_eq!(answer.answer.status, status);
    }
}

pub fn worked_examples<T: JobCalls>() {
    for job in example_jobs() {
        check_job::<T>(&job);
    }
    let listing = b"0105020009\n06\n06\n18\n06\n06\n06\n06\n18\n06\n06\n06\n18\n06\n06\n";
    let answer = check_read::<T>(listing, 5, 9);
    assert_eq!((answer.m, answer.q, answer.n), (5, 2, 9));
}

pub fn generated_jobs<T: JobCalls>() {
    let mut random = Random::seeded(11);
    for round in 0..400 {
        let (most_m, most_n) = if round % 4 == 0 { (128, 700) } else { (12, 40) };
        let m = random.between(1, most_m);
        let n = random.between(0, most_n);
        check_job::<T>(&SHAPES[round % SHAPES.len()].job(&mut random, m, n));
    }
}

pub fn largest_jobs<T: JobCalls>() {
    let mut random = Random::seeded(12);
    for shape in SHAPES {
        check_job::<T>(&shape.job(&mut random, 128, 16_384));
        check_job::<T>(&shape.job(&mut random, 1, 16_384));
        check_job::<T>(&shape.job(&mut random, 127, 16_383));
        check_job::<T>(&shape.job(&mut random, 128, 0));
    }
}

pub fn buffers_around_the_needed_lengths<T: JobCalls>() {
    let mut random = Random::seeded(13);
    for (m, n) in [(1, 0), (1, 1), (2, 5), (5, 2), (6, 6)] {
        let job = Shape::AnyBytes.job(&mut random, m, n);
        let file = job::write(&job);
        for pattern_length in 0..12 {
            for text_length in 0..12 {
                check_read::<T>(&file, pattern_length, text_length);
            }
        }
        for buffer_length in 0..file.len() + 12 {
            check_write::<T>(job.hold as u32, &job.pattern, &job.text, buffer_length);
        }
    }
}

/// Lengths of files that do not fit a first line, beside the one that does.
fn lengths_beside(right: usize) -> [usize; 7] {
    [
        right,
        right - 1,
        right - 3,
        right + 1,
        right + 3,
        11,
        right.div_ceil(2),
    ]
}

pub fn header_edges<T: JobCalls>() {
    let mut random = Random::seeded(14);
    let body = lines(&random.bytes(255 + 65_535));
    for m in [0_u8, 1, 2, 127, 128, 129, 130, 254, 255] {
        for n in [0, 1, 255, 256, 16_383, 16_384, 16_385, 32_768, 65_535] {
            let mut holds = vec![0, 1, m / 2, m, 127, 128, 255];
            holds.extend(m.checked_sub(1));
            holds.extend(m.checked_add(1));
            holds.sort();
            holds.dedup();
            for q in holds {
                let file = file_of(1, m, q, n, &body);
                let answer = check_read_freely::<T>(&file);
                let status = if m == 0 || m > 128 {
                    4
                } else if q >= m {
                    5
                } else if n > 16_384 {
                    6
                } else {
                    0
                };
                assert_eq!(answer.answer.status, status);
            }
        }
    }
    for m in 0..=255 {
        for q in 0..=255 {
            let file = file_of(1, m, q, 1, &body);
            check_read::<T>(&file, 255, 1);
        }
    }
    for edition in 0..=255 {
        check_read::<T>(&file_of(edition, 1, 0, 1, &body), 1, 1);
        check_read::<T>(&file_of(edition, 0, 0, 0, &body), 1, 1);
    }
}

/// Files and buffers with several faults at once: the first refusal in document 01's order counts.
pub fn order_of_refusals<T: JobCalls>() {
    let mut random = Random::seeded(15);
    let body = lines(&random.bytes(129 + 16_385));
    let mut seen = [0; 8];
    for edition in [1, 2] {
        for m in [0, 1, 3, 128, 129] {
            for q in [0, m / 2, m, 255] {
                for n in [0, 2, 16_384, 16_385] {
                    let file = file_of(edition, m, q, n, &body);
                    for length in lengths_beside(file.len().max(14)) {
                        let mut sized = file.clone();
                        sized.resize(length, b'0');
                        for wrong_first in [None, Some(0), Some(5), Some(10)] {
                            for wrong_rest in [None, Some(11), Some(length - 1)] {
                                let mut faulty = sized.clone();
                                for position in [wrong_first, wrong_rest].into_iter().flatten() {
                                    if position < length {
                                        faulty[position] = b'g';
                                    }
                                }
                                for (pattern_length, text_length) in
                                    [(usize::from(m), usize::from(n)), (0, 0)]
                                {
                                    let answer =
                                        check_read::<T>(&faulty, pattern_length, text_length);
                                    seen[answer.answer.status as usize] += 1;
                                }
                            }
                        }
                    }
                }
            }
        }
    }
    assert!(seen.iter().all(|&times| times > 0), "{seen:?}");
}

pub fn cut_files<T: JobCalls>() {
    let mut jobs = example_jobs();
    jobs.push(small_job());
    for job in jobs {
        let file = job::write(&job);
        for length in 0..file.len() {
            let answer = check_read::<T>(&file[..length], job.pattern.len(), job.text.len());
            assert_eq!(answer.answer.status, 1);
        }
    }
    let mut random = Random::seeded(16);
    let largest = job::write(&Shape::AnyBytes.job(&mut random, 128, 16_384));
    let lengths = (0..60)
        .chain(380..410)
        .chain(largest.len() - 60..largest.len())
        .chain((0..40).map(|_| random.below(largest.len())));
    for length in lengths {
        let answer = check_read::<T>(&largest[..length], 128, 16_384);
        assert_eq!(answer.answer.status, 1);
    }
    // A piece cut out of the middle, or from the front.
    let file = job::write(&small_job());
    for start in 0..file.len() {
        check_read::<T>(&file[start..], 200, 200);
        for length in 1..file.len() - start {
            let mut cut = file.clone();
            cut.drain(start..start + length);
            check_read::<T>(&cut, 200, 200);
        }
    }
}

pub fn padded_files<T: JobCalls>() {
    let mut random = Random::seeded(17);
    let mut files: Vec<Vec<u8>> = example_jobs().iter().map(job::write).collect();
    files.push(job::write(&small_job()));
    files.push(job::write(&Shape::AnyBytes.job(&mut random, 128, 16_384)));
    for file in files {
        for padding in [1, 2, 3, 4, 6, 11, 100, 65_536, 3 * 65_536] {
            for byte in [0x0A, 0x0D, 0x00, b'0', b' '] {
                let mut padded = file.clone();
                padded.resize(file.len() + padding, byte);
                let answer = check_read::<T>(&padded, 128, 16_384);
                assert_eq!(answer.answer.status, 1);
            }
        }
        for more in [
            &b"06\n"[..],
            b"\n06",
            b"06\n06\n",
            b"\0",
            b"\x1A",
            &random.bytes(3),
        ] {
            check_read::<T>(&[&file, more].concat(), 128, 16_384);
            check_read::<T>(&[more, &file].concat(), 128, 16_384);
        }
        check_read::<T>(&[&file[..], &file[..]].concat(), 128, 16_384);
    }
}

/// Each byte of the first line changed to each of the 256 values.
pub fn changed_first_line<T: JobCalls>() {
    let mut random = Random::seeded(18);
    let jobs = [
        small_job(),
        Shape::AnyBytes.job(&mut random, 1, 0),
        Shape::AnyBytes.job(&mut random, 128, 16_384),
    ];
    for job in jobs {
        let file = job::write(&job);
        for position in 0..11 {
            for value in 0..=255 {
                let mut changed = file.clone();
                changed[position] = value;
                // Buffers for any length that is taken, so that no 7 hides another answer.
                check_read_freely::<T>(&changed);
            }
        }
    }
}

/// Each byte of the body of small jobs changed to each of the 256 values.
pub fn changed_body<T: JobCalls>() {
    let mut random = Random::seeded(19);
    for job in [small_job(), Shape::AnyBytes.job(&mut random, 1, 1)] {
        let file = job::write(&job);
        let (m, n) = (job.pattern.len(), job.text.len());
        for position in 11..file.len() {
            for value in 0..=255 {
                let mut changed = file.clone();
                changed[position] = value;
                let status = check_read::<T>(&changed, m + 1, n + 1).answer.status;
                let due = if position % 3 == 1 {
                    value == b'\n'
                } else {
                    value.is_ascii_digit() || (b'A'..=b'F').contains(&value)
                };
                assert_eq!(status, if due { 0 } else { 2 });
                // A wrong byte comes before a short buffer.
                check_read::<T>(&changed, m - 1, n);
                check_read::<T>(&changed, m, n - 1);
            }
        }
    }
}

/// Bytes here and there in the largest job changed, the first and the last lines among them.
pub fn changed_largest_job<T: JobCalls>() {
    let mut random = Random::seeded(20);
    let file = job::write(&Shape::AnyBytes.job(&mut random, 128, 16_384));
    let last = file.len() - 1;
    let mut positions: Vec<usize> = (11..20).chain(390..400).chain(last - 8..=last).collect();
    positions.extend((0..100).map(|_| random.between(11, last)));
    for position in positions {
        for value in [b'0', b'F', b'G', b'a', b'/', b':', b'@', b'\n', b'\r', 0] {
            let mut changed = file.clone();
            changed[position] = value;
            check_read::<T>(&changed, 128, 16_384);
        }
    }
}

/// Every byte value as pattern and text, so every pair of digits is written and read.
pub fn every_byte_in_every_role<T: JobCalls>() {
    let all: Vec<u8> = (0..=255).collect();
    for half in all.chunks(128) {
        check_job::<T>(&Job {
            pattern: half.to_vec(),
            hold: 127,
            text: all.clone(),
        });
    }
    for byte in all {
        check_job::<T>(&Job {
            pattern: vec![byte],
            hold: 0,
            text: vec![byte ^ 0x5A],
        });
    }
    for hold in 0..128 {
        check_job::<T>(&Job {
            pattern: vec![0xC3; 128],
            hold,
            text: vec![hold as u8; 2],
        });
    }
    for n in (0..=16_384).step_by(111) {
        let job = Job {
            pattern: vec![1, 2],
            hold: 1,
            text: vec![n as u8; n],
        };
        let file = job::write(&job);
        assert_eq!(check_read::<T>(&file, 2, n).n as usize, n);
        let written = check_write::<T>(1, &job.pattern, &job.text, file.len());
        assert_eq!(written.bytes as usize, file_length(2, n));
    }
}

pub fn lower_case_digits<T: JobCalls>() {
    let mut random = Random::seeded(21);
    let mut files = vec![job::write(&small_job())];
    // m, q and n with letters among their digits.
    files.push(job::write(&Job {
        pattern: random.bytes(0x7F),
        hold: 0x3C,
        text: random.bytes(0x1AB),
    }));
    for file in files {
        assert_eq!(
            check_read_freely::<T>(&file.to_ascii_lowercase())
                .answer
                .status,
            2
        );
        for position in 0..file.len() {
            if file[position].is_ascii_uppercase() {
                let mut changed = file.clone();
                changed[position] = changed[position].to_ascii_lowercase();
                assert_eq!(check_read_freely::<T>(&changed).answer.status, 2);
            }
        }
    }
}

pub fn other_line_ends<T: JobCalls>() {
    for job in [
        small_job(),
        Shape::FewBytes.job(&mut Random::seeded(22), 128, 16_384),
    ] {
        let file = job::write(&job);
        let with_ends = |end: &[u8]| -> Vec<u8> {
            let mut changed = Vec::new();
            for line in file.split_inclusive(|&byte| byte == b'\n') {
                changed.extend(&line[..line.len() - 1]);
                changed.extend(end);
            }
            changed
        };
        for end in [&b"\r\n"[..], b"\n\r", b"\r", b"", b" ", b"\0", b"\n\n"] {
            let answer = check_read::<T>(&with_ends(end), 128, 16_384);
            assert_ne!(answer.answer.status, 0);
        }
        // Only the first line ends in CR LF, with the rest's length right or not.
        let mut first = file.clone();
        first.insert(10, b'\r');
        check_read::<T>(&first, 128, 16_384);
        first.pop();
        check_read::<T>(&first, 128, 16_384);
        // Only the last line does, or it has no end.
        let mut last = file.clone();
        last.insert(file.len() - 1, b'\r');
        check_read::<T>(&last, 128, 16_384);
        check_read::<T>(&file[..file.len() - 1], 128, 16_384);
        // A mark of the coding in front.
        let marked = [&b"\xEF\xBB\xBF"[..], &file].concat();
        assert_eq!(check_read::<T>(&marked, 128, 16_384).answer.status, 2);
    }
}

pub fn random_files<T: JobCalls>() {
    check_read::<T>(b"", 0, 0);
    check_read::<T>(b"", 128, 16_384);
    let mut random = Random::seeded(23);
    for round in 0..20_000 {
        let length = random.between(0, 60);
        let mut file = match round % 3 {
            0 => random.bytes(length),
            1 => random.picked(b"0123456789ABCDEF\n", length),
            _ => random.picked(b"0123456789ABCDEF", length),
        };
        // In most rounds with line ends where they are due, and an edition that is taken.
        if round % 3 == 2 {
            for position in (10..length).step_by(3) {
                file[position] = b'\n';
            }
            if length > 9 {
                file[..9].copy_from_slice(b"010400000");
                file[3] = random.pick(b"0123456789");
            }
        }
        check_read::<T>(&file, random.below(16), random.below(16));
    }
    for _ in 0..40 {
        check_read::<T>(&random.bytes(49_547), 128, 16_384);
        let mut body = random.bytes(49_547);
        body[..11].copy_from_slice(b"01807F4000\n");
        check_read::<T>(&body, 128, 16_384);
    }
}

/// Writing and then reading gives back the job, and reading and then writing the file, by the calls
/// alone.
pub fn round_trips<T: JobCalls>() {
    let mut random = Random::seeded(24);
    for round in 0..400 {
        let (m, n) = match round % 20 {
            0 => (128, 16_384),
            1 => (1, 0),
            _ => (random.between(1, 128), random.between(0, 400)),
        };
        let job = SHAPES[round % SHAPES.len()].job(&mut random, m, n);
        let mut file = vec![0xEE; 49_547 + MARGIN];
        let written = T::write_job(job.hold as u32, &job.pattern, &job.text, &mut file);
        assert_eq!(written.answer.status, 0);
        file.truncate(written.bytes as usize);

        let (mut pattern, mut text) = (vec![0xEE; 128], vec![0xEE; 16_384]);
        let read = T::read_job(&file, &mut pattern, &mut text);
        assert_eq!(read.answer.status, 0);
        pattern.truncate(read.m as usize);
        text.truncate(read.n as usize);
        let back = Job {
            pattern,
            hold: read.q as usize,
            text,
        };
        assert_eq!(back, job);

        let mut again = Buffer::junk(file.len(), round);
        let written = T::write_job(read.q, &back.pattern, &back.text, again.lent());
        assert_eq!(written.bytes as usize, file.len());
        assert_eq!(again.lent(), file);
    }
}

/// Hold offsets around m, and such as would fit if some of their bits were dropped.
fn holds_around(m: usize) -> Vec<u32> {
    let m = m as u32;
    let mut holds = vec![
        0,
        1,
        m.wrapping_sub(1),
        m,
        m + 1,
        127,
        128,
        255,
        256,
        0x1_0000,
        0x8000_0000,
        u32::MAX,
    ];
    holds.sort();
    holds.dedup();
    holds
}

pub fn writing_every_pattern_length<T: JobCalls>() {
    let mut random = Random::seeded(25);
    for m in 0..=130 {
        let pattern = random.bytes(m);
        for n in [0, 1, 37] {
            let text = random.bytes(n);
            let length = file_length(m, n);
            for hold in holds_around(m) {
                for buffer_length in [length, length + 1, length + 300, length - 1, 0] {
                    let answer = check_write::<T>(hold, &pattern, &text, buffer_length);
                    let status = if m == 0 || m > 128 {
                        4
                    } else if hold as usize >= m {
                        5
                    } else if buffer_length < length {
                        7
                    } else {
                        0
                    };
                    assert_eq!(answer.answer.status, status);
                }
            }
        }
    }
    for m in [255, 256, 257, 384, 65_536, 65_537] {
        let pattern = random.bytes(m);
        for hold in [0, u32::MAX] {
            assert_eq!(
                check_write::<T>(hold, &pattern, &[], 49_547).answer.status,
                4
            );
        }
    }
}

pub fn writing_text_edges<T: JobCalls>() {
    let mut random = Random::seeded(26);
    let bytes = random.bytes(65_536 + 5);
    for m in (0..=130).filter(|m| m % 8 < 2 || *m > 125) {
        let pattern = random.bytes(m);
        for n in [16_383, 16_384, 16_385, 32_768, 65_535, 65_536, 65_541] {
            let text = &bytes[..n];
            let length = file_length(m, n);
            for hold in [0, m.saturating_sub(1) as u32, m as u32, u32::MAX] {
                for buffer_length in [length, length + 50, length - 1, 0] {
                    let answer = check_write::<T>(hold, &pattern, text, buffer_length);
                    let status = if m == 0 || m > 128 {
                        4
                    } else if hold as usize >= m {
                        5
                    } else if n > 16_384 {
                        6
                    } else if buffer_length < length {
                        7
                    } else {
                        0
                    };
                    assert_eq!(answer.answer.status, status);
                }
            }
        }
    }
}

pub fn writing_generated_jobs<T: JobCalls>() {
    let mut random = Random::seeded(27);
    for round in 0..2_000 {
        let (m, n) = (random.between(0, 140), random.between(0, 300));
        let (pattern, text) = SHAPES[round % SHAPES.len()].pattern_and_text(&mut random, m, n);
        let hold = random.below(m + 3) as u32;
        let buffer_length = file_length(m, n) + 2 - random.below(5);
        check_write::<T>(hold, &pattern, &text, buffer_length);
    }
}

/// Lengths of more than 32 bits: none may be taken for what is left of it in 32.
pub fn lengths_beyond_32_bits<T: JobCalls>() {
    let job = small_job();
    let file = job::write(&job);
    let (m, n) = (job.pattern.len(), job.text.len());
    let hold = job.hold as u32;

    let long = reserved((1 << 32) + file.len());
    long[..file.len()].copy_from_slice(&file);
    let (mut pattern, mut text) = (vec![0xEE; m], vec![0xEE; n]);
    let answer = T::read_job(long, &mut pattern, &mut text);
    assert_eq!(answer, calls::read_job(long, m, n).answer);
    assert_eq!(answer.answer.status, 1);
    assert_eq!((pattern, text), (vec![0xEE; m], vec![0xEE; n]));

    let mut short = vec![0xEE; file.len()];
    let long_pattern = &long[..(1 << 32) + m];
    let answer = T::write_job(hold, long_pattern, &job.text, &mut short);
    assert_eq!(answer.answer.status, 4);
    let long_text = &long[..(1 << 32) + n];
    let answer = T::write_job(hold, &job.pattern, long_text, &mut short);
    assert_eq!(answer.answer.status, 6);
    assert_eq!(short, vec![0xEE; file.len()]);

    // A buffer of which nothing would be left in 32 bits is longer than needed, and that is fine.
    long[..file.len() + 8].fill(0xEE);
    let answer = T::write_job(hold, &job.pattern, &job.text, &mut long[..1 << 32]);
    assert_eq!(answer.answer.status, 0);
    assert_eq!(long[..file.len()], file);
    assert_eq!(long[file.len()..file.len() + 8], [0xEE; 8]);

    long[..16].fill(0xEE);
    let (mut pattern, mut text) = (vec![0xEE; m + 8], vec![0xEE; n + 8]);
    let answer = T::read_job(&file, &mut long[..1 << 32], &mut text);
    assert_eq!(answer, calls::read_job(&file, m, n).answer);
    assert_eq!(long[..m], job.pattern);
    assert_eq!(long[m..16], vec![0xEE; 16 - m]);
    assert_eq!(text[..n], job.text);
    long[..16].fill(0xEE);
    let answer = T::read_job(&file, &mut pattern, &mut long[..1 << 32]);
    assert_eq!(answer, calls::read_job(&file, m, n).answer);
    assert_eq!(long[..n], job.text);
    assert_eq!(long[n..16], vec![0xEE; 16 - n]);
    assert_eq!(pattern[..m], job.pattern);
}
