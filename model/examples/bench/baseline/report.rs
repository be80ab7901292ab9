//! What SEEK prints.

use ruffarmoire_model::answers::{Answer, Refusal, ReportAnswer};
use ruffarmoire_model::{MAX_PATTERN, MAX_TEXT};

use super::converter::convert;
use super::job::{read_job, DIGIT_PAIRS};

/// The bytes of the lines before the occurrences: h, C, the ones, p and the bound.
pub const NUMBERS: usize = 5 + 9 + 9 + 5 + 9;

/// Writes what SEEK prints for a file.
pub fn seek_report(file: &[u8], out: &mut [u8]) -> ReportAnswer {
    let mut pattern = [0; MAX_PATTERN];
    let mut text = [0; MAX_TEXT];
    let read = read_job(file, &mut pattern, &mut text);
    if read.answer.status != 0 {
        let [_, digit] = DIGIT_PAIRS[read.answer.status as usize];
        return write(out, 5, |lines| {
            lines.copy_from_slice(&[b'F', b'F', b'0', digit, b'\n']);
        });
    }
    let (m, n) = (read.m as usize, read.n as usize);
    let mut order = [0; MAX_PATTERN + 1];
    let mut delta2 = [0; MAX_PATTERN + 1];
    let mut delta1 = [0; 256 * MAX_PATTERN];
    let mut delta3 = [0; MAX_PATTERN];
    let mut found = [0; MAX_TEXT];
    let mut frames = [0; MAX_TEXT];
    let answer = convert(
        read.q,
        &pattern[..m],
        &text[..n],
        &mut order,
        &mut delta2,
        &mut delta1,
        &mut delta3,
        &mut found,
        &mut frames,
    );
    let occurrences = &found[..answer.occurrences as usize];
    let length = NUMBERS + 5 * (occurrences.len() + n);
    write(out, length, |lines| {
        let (numbers, lines) = lines.split_at_mut(NUMBERS);
        write_four_digits(answer.occurrences as u16, &mut numbers[..5]);
        write_eight_digits(answer.comparisons, &mut numbers[5..14]);
        write_eight_digits(answer.ones, &mut numbers[14..23]);
        write_four_digits(answer.period as u16, &mut numbers[23..28]);
        write_eight_digits(answer.bound, &mut numbers[28..]);
        let (occurrence_lines, frame_lines) = lines.split_at_mut(5 * occurrences.len());
        write_lines(occurrences, occurrence_lines);
        write_lines(&frames[..n], frame_lines);
    })
}

/// A report of this length, where the buffer has room for it.
fn write(out: &mut [u8], length: usize, fill: impl FnOnce(&mut [u8])) -> ReportAnswer {
    match out.get_mut(..length) {
        Some(front) => {
            fill(front);
            ReportAnswer {
                answer: Answer::default(),
                bytes: length as u32,
            }
        }
        None => Refusal::ShortBuffer.into(),
    }
}

fn write_lines(numbers: &[u16], lines: &mut [u8]) {
    for (line, &number) in lines.chunks_exact_mut(5).zip(numbers) {
        write_four_digits(number, line);
    }
}

fn write_four_digits(number: u16, line: &mut [u8]) {
    let [high, low] = number
        .to_be_bytes()
        .map(|byte| DIGIT_PAIRS[usize::from(byte)]);
    line.copy_from_slice(&[high[0], high[1], low[0], low[1], b'\n']);
}

fn write_eight_digits(number: u32, line: &mut [u8]) {
    for (digits, byte) in line.chunks_exact_mut(2).zip(number.to_be_bytes()) {
        digits.copy_from_slice(&DIGIT_PAIRS[usize::from(byte)]);
    }
    line[8] = b'\n';
}
