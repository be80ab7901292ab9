//! Reading and writing job files.

use ruffarmoire_model::answers::{Answer, ReadAnswer, Refusal, WriteAnswer};
use ruffarmoire_model::{MAX_PATTERN, MAX_TEXT};

/// What [`DIGIT_VALUES`] holds for a byte that is no digit.
const NO_DIGIT: u8 = 0xFF;

/// The value of each byte as a capital hexadecimal digit.
static DIGIT_VALUES: [u8; 256] = {
    let mut values = [NO_DIGIT; 256];
    let mut digit = 0;
    while digit < 16 {
        values[DIGITS[digit] as usize] = digit as u8;
        digit += 1;
    }
    values
};

/// The digit of each value.
const DIGITS: &[u8; 16] = b"0123456789ABCDEF";

/// The two digits of each byte.
pub(super) static DIGIT_PAIRS: [[u8; 2]; 256] = {
    let mut pairs = [[0; 2]; 256];
    let mut byte = 0;
    while byte < 256 {
        pairs[byte] = [DIGITS[byte >> 4], DIGITS[byte & 15]];
        byte += 1;
    }
    pairs
};

fn value(byte: u8) -> u8 {
    DIGIT_VALUES[usize::from(byte)]
}

/// Reads a job file. Everything is checked before the first byte goes into a buffer.
pub fn read_job(file: &[u8], pattern: &mut [u8], text: &mut [u8]) -> ReadAnswer {
    try_read_job(file, pattern, text).unwrap_or_else(ReadAnswer::from)
}

fn try_read_job(file: &[u8], pattern: &mut [u8], text: &mut [u8]) -> Result<ReadAnswer, Refusal> {
    let (first, rest) = file.split_first_chunk::<11>().ok_or(Refusal::FileLength)?;
    let digits: [u8; 10] = std::array::from_fn(|position| value(first[position]));
    if digits.contains(&NO_DIGIT) || first[10] != b'\n' {
        return Err(Refusal::Byte);
    }
    let pair =
        |position: usize| usize::from(digits[position]) << 4 | usize::from(digits[position + 1]);
    let (edition, m, q, n) = (pair(0), pair(2), pair(4), pair(6) << 8 | pair(8));
    if edition != 1 {
        return Err(Refusal::Edition);
    }
    if m == 0 || m > MAX_PATTERN {
        return Err(Refusal::PatternLength);
    }
    if q >= m {
        return Err(Refusal::HoldOffset);
    }
    if n > MAX_TEXT {
        return Err(Refusal::TextLength);
    }
    if rest.len() != 3 * (m + n) {
        return Err(Refusal::FileLength);
    }
    if !all_lines(rest) {
        return Err(Refusal::Byte);
    }
    if pattern.len() < m || text.len() < n {
        return Err(Refusal::ShortBuffer);
    }
    let (pattern_lines, text_lines) = rest.split_at(3 * m);
    read_lines(pattern_lines, &mut pattern[..m]);
    read_lines(text_lines, &mut text[..n]);
    Ok(ReadAnswer {
        answer: Answer::default(),
        m: m as u32,
        q: q as u32,
        n: n as u32,
    })
}

/// Whether every three bytes are two digits and a line end.
fn all_lines(lines: &[u8]) -> bool {
    let wrong = lines.chunks_exact(3).fold(0, |wrong, line| {
        wrong | ((value(line[0]) | value(line[1])) & 0xF0) | (line[2] ^ b'\n')
    });
    wrong == 0
}

fn read_lines(lines: &[u8], bytes: &mut [u8]) {
    for (line, byte) in lines.chunks_exact(3).zip(bytes) {
        *byte = value(line[0]) << 4 | value(line[1]);
    }
}

/// Writes a job file. Everything is checked before the first byte goes into the buffer.
pub fn write_job(hold: u32, pattern: &[u8], text: &[u8], file: &mut [u8]) -> WriteAnswer {
    try_write_job(hold, pattern, text, file).unwrap_or_else(WriteAnswer::from)
}

fn try_write_job(
    hold: u32,
    pattern: &[u8],
    text: &[u8],
    file: &mut [u8],
) -> Result<WriteAnswer, Refusal> {
    let (m, n) = (pattern.len(), text.len());
    if m == 0 || m > MAX_PATTERN {
        return Err(Refusal::PatternLength);
    }
    if hold as usize >= m {
        return Err(Refusal::HoldOffset);
    }
    if n > MAX_TEXT {
        return Err(Refusal::TextLength);
    }
    let length = 11 + 3 * (m + n);
    let file = file.get_mut(..length).ok_or(Refusal::ShortBuffer)?;
    let (first, rest) = file.split_at_mut(11);
    let numbers = [1, m as u8, hold as u8, (n >> 8) as u8, n as u8];
    for (digits, number) in first.chunks_exact_mut(2).zip(numbers) {
        digits.copy_from_slice(&DIGIT_PAIRS[usize::from(number)]);
    }
    first[10] = b'\n';
    let (pattern_lines, text_lines) = rest.split_at_mut(3 * m);
    write_lines(pattern, pattern_lines);
    write_lines(text, text_lines);
    Ok(WriteAnswer {
        answer: Answer::default(),
        bytes: length as u32,
    })
}

fn write_lines(bytes: &[u8], lines: &mut [u8]) {
    for (line, &byte) in lines.chunks_exact_mut(3).zip(bytes) {
        let [high, low] = DIGIT_PAIRS[usize::from(byte)];
        line.copy_from_slice(&[high, low, b'\n']);
    }
}
