//! Job files: lines of capital hexadecimal, each ended by the byte 0A.
//!
//! The first line has ten digits: the edition 01, m in two, q in two, n in four. Then come m lines
//! of two digits, the pattern, and n lines of two digits, the text.

use std::io::Write;

use crate::answers::Refusal;
use crate::{MAX_PATTERN, MAX_TEXT};

/// The byte that ends each line.
pub const LINE_END: u8 = 0x0A;

/// The bytes of the first line, its end included.
pub const FIRST_LINE: usize = 11;

/// What a job file says.
#[derive(Clone, Debug, PartialEq, Eq)]
pub struct Job {
    /// The pattern w.
    pub pattern: Vec<u8>,
    /// The hold offset q.
    pub hold: usize,
    /// The text t.
    pub text: Vec<u8>,
}

/// The length of the file of a job with a pattern of m bytes and a text of n.
pub fn file_length(m: usize, n: usize) -> usize {
    FIRST_LINE + 3 * m + 3 * n
}

/// The first line with any numbers in it, so also with those that are refused.
pub fn first_line(edition: u8, m: u8, q: u8, n: u16) -> Vec<u8> {
    format!("{edition:02X}{m:02X}{q:02X}{n:04X}\n").into_bytes()
}

/// One line of two digits for each byte.
pub fn lines(bytes: &[u8]) -> Vec<u8> {
    let mut lines = Vec::new();
    for byte in bytes {
        writeln!(lines, "{byte:02X}").expect("a vector takes any bytes");
    }
    lines
}

/// The file of a job that is within the limits.
pub fn write(job: &Job) -> Vec<u8> {
    let m = u8::try_from(job.pattern.len()).expect("m is at most 128");
    let q = u8::try_from(job.hold).expect("q is below m");
    let n = u16::try_from(job.text.len()).expect("n is at most 16,384");
    [
        first_line(1, m, q, n),
        lines(&job.pattern),
        lines(&job.text),
    ]
    .concat()
}

/// The value of a digit: only 0 to 9 and the capitals A to F count.
pub fn digit(byte: u8) -> Option<u8> {
    match byte {
        b'0' => Some(0),
        b'1' => Some(1),
        b'2' => Some(2),
        b'3' => Some(3),
        b'4' => Some(4),
        b'5' => Some(5),
        b'6' => Some(6),
        b'7' => Some(7),
        b'8' => Some(8),
        b'9' => Some(9),
        b'A' => Some(10),
        b'B' => Some(11),
        b'C' => Some(12),
        b'D' => Some(13),
        b'E' => Some(14),
        b'F' => Some(15),
        _ => None,
    }
}

/// The number that a run of digits stands for.
fn number(digits: &[u8]) -> Result<usize, Refusal> {
    let mut value = 0;
    for &byte in digits {
        value = 16 * value + usize::from(digit(byte).ok_or(Refusal::Byte)?);
    }
    Ok(value)
}

/// The number on a line: all bytes but the last are digits, and the last ends the line.
fn line(bytes: &[u8]) -> Result<usize, Refusal> {
    let (end, digits) = bytes.split_last().expect("a line is not empty");
    let value = number(digits)?;
    if *end == LINE_END {
        Ok(value)
    } else {
        Err(Refusal::Byte)
    }
}

/// Reads a file, with refusals 1 to 6 in document 01's order: 1 (under 11 bytes), 2 in the first
/// line, 3, 4, 5, 6, 1 (length), 2 in the rest.
pub fn read(file: &[u8]) -> Result<Job, Refusal> {
    if file.len() < FIRST_LINE {
        return Err(Refusal::FileLength);
    }
    let (first, rest) = file.split_at(FIRST_LINE);
    line(first)?;
    let edition = number(&first[0..2])?;
    let m = number(&first[2..4])?;
    let q = number(&first[4..6])?;
    let n = number(&first[6..10])?;
    if edition != 1 {
        return Err(Refusal::Edition);
    }
    check_pattern_length(m)?;
    check_hold(q, m)?;
    check_text_length(n)?;
    if file.len() != file_length(m, n) {
        return Err(Refusal::FileLength);
    }
    let mut bytes = Vec::new();
    for two_digits in rest.chunks(3) {
        let value = line(two_digits)?;
        bytes.push(u8::try_from(value).expect("two digits are at most FF"));
    }
    let text = bytes.split_off(m);
    Ok(Job {
        pattern: bytes,
        hold: q,
        text,
    })
}

/// Refusal 4.
pub fn check_pattern_length(m: usize) -> Result<(), Refusal> {
    if m == 0 || m > MAX_PATTERN {
        Err(Refusal::PatternLength)
    } else {
        Ok(())
    }
}

/// Refusal 5.
pub fn check_hold(q: usize, m: usize) -> Result<(), Refusal> {
    if q < m {
        Ok(())
    } else {
        Err(Refusal::HoldOffset)
    }
}

/// Refusal 6.
pub fn check_text_length(n: usize) -> Result<(), Refusal> {
    if n > MAX_TEXT {
        Err(Refusal::TextLength)
    } else {
        Ok(())
    }
}
