//! Job files for the report and for SEEK.

use ruffarmoire_model::gen::{Random, Shape};
use ruffarmoire_model::job::{self, first_line, lines, Job};

/// A small job that has every kind of digit in its file.
pub fn small_job() -> Job {
    Job {
        pattern: vec![0x06, 0xAF, 0x06],
        hold: 2,
        text: vec![0x9E, 0x06, 0xAF, 0x06, 0xAF, 0x06, 0x00, 0xDB, 0xC8, 0xFF],
    }
}

/// A job that is as large as may be.
pub fn largest_job() -> Job {
    Shape::Planted.job(&mut Random::seeded(81), 128, 16_384)
}

/// Spoiled files of every kind, and some with several faults at once.
pub fn spoiled_files() -> Vec<Vec<u8>> {
    let mut files = vec![Vec::new(), vec![b'\n'], b"0101000000".to_vec()];
    for job in [small_job(), largest_job()] {
        let file = job::write(&job);
        files.extend(cut(&file));
        files.extend(padded(&file));
        files.extend(with_wrong_bytes(&file));
        files.extend(with_other_lines(&file));
    }
    files.extend(with_wrong_numbers());
    files.extend(too_large());
    files
}

/// Cut at the end, at the front and in the middle.
fn cut(file: &[u8]) -> Vec<Vec<u8>> {
    let whole = file.len();
    let mut cut: Vec<Vec<u8>> = [1, 10, 11, 12, 20, whole / 2, whole - 3, whole - 1]
        .iter()
        .map(|&length| file[..length].to_vec())
        .collect();
    cut.push(file[1..].to_vec());
    cut.push(file[11..].to_vec());
    cut.push([&file[..14], &file[17..]].concat());
    cut
}

fn padded(file: &[u8]) -> Vec<Vec<u8>> {
    [&b"\n"[..], b"0", b"\0", b"06\n", b"06\n06\n", &[0; 100]]
        .iter()
        .map(|more| [file, more].concat())
        .chain([[b"\n", file].concat(), [file, file].concat()])
        .collect()
}

/// A wrong byte in the first line, in the pattern, in the text, and at the very end.
fn with_wrong_bytes(file: &[u8]) -> Vec<Vec<u8>> {
    const NO_DIGITS: &[u8] = b"Ga/:@ \n\0\xFF";
    const NO_LINE_ENDS: &[u8] = b"\r0 ";
    let last = file.len() - 1;
    let mut files = Vec::new();
    let mut change = |position: usize, byte: u8| {
        let mut changed = file.to_vec();
        changed[position] = byte;
        files.push(changed);
    };
    for (number, position) in [0, 3, 5, 9, 11, 12, 20, last - 2, last - 1]
        .into_iter()
        .enumerate()
    {
        // Three of the nine at each position.
        for byte in NO_DIGITS.iter().cycle().skip(2 * number).take(3) {
            change(position, *byte);
        }
    }
    for position in [10, 13, last] {
        for byte in NO_LINE_ENDS {
            change(position, *byte);
        }
    }
    files
}

/// Digits that are not capital, other line ends, and a mark of the coding in front.
fn with_other_lines(file: &[u8]) -> Vec<Vec<u8>> {
    let mut files = vec![file.to_ascii_lowercase(), [b"\xEF\xBB\xBF", file].concat()];
    for end in [&b"\r\n"[..], b"\r", b"", b"\n\n"] {
        let lines = file.split_inclusive(|&byte| byte == b'\n');
        let changed = lines.flat_map(|line| [&line[..line.len() - 1], end].concat());
        files.push(changed.collect());
    }
    files
}

/// First lines with numbers that are refused, alone and together, with a body that is right, too
/// short or wrong.
fn with_wrong_numbers() -> Vec<Vec<u8>> {
    let body = lines(&Random::seeded(82).bytes(255 + 16_385));
    let mut files = Vec::new();
    for (edition, m, q, n) in [
        (0, 1, 0, 1),
        (2, 1, 0, 1),
        (0x10, 3, 1, 2),
        (0xFF, 0, 0, 0),
        (2, 129, 129, 16_385),
        (1, 0, 0, 0),
        (1, 0, 0, 5),
        (1, 129, 0, 5),
        (1, 129, 129, 16_385),
        (1, 255, 3, 5),
        (1, 3, 3, 5),
        (1, 3, 255, 5),
        (1, 128, 128, 5),
        (1, 3, 3, 16_385),
        (1, 3, 2, 16_385),
        (1, 128, 127, 16_385),
        (1, 1, 0, 65_535),
    ] {
        let first = first_line(edition, m, q, n);
        let due = 3 * (usize::from(m) + usize::from(n));
        let whole = [&first, &body[..due.min(body.len())]].concat();
        let mut wrong = whole.clone();
        *wrong.last_mut().expect("there is a first line") = b'g';
        files.extend([first, wrong, whole]);
    }
    files
}

/// Files that are longer than the longest job.
fn too_large() -> Vec<Vec<u8>> {
    let largest = job::write(&largest_job());
    let small = job::write(&small_job());
    let mut files = Vec::new();
    for length in [49_548, 49_549, 49_550, 49_600, 65_536, 99_094, 131_072] {
        for (file, padding) in [(&largest, b'\n'), (&largest, b'0'), (&small, 0)] {
            let mut padded = file.clone();
            padded.resize(length, padding);
            files.push(padded);
        }
    }
    let first_lines: [&[u8]; 4] = [
        b"01807F4000\n",
        b"01807FFFFF\n",
        b"0101000001\n",
        b"xxxxxxxxxxx",
    ];
    for first in first_lines {
        let mut long = first.to_vec();
        long.resize(1 << 20, b'0');
        files.push(long);
    }
    files
}
