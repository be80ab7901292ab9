//! Words: all short ones, long ones that repeat themselves on many scales, runs with a break, and the
//! period of a word.

use std::ops::Range;

use ruffarmoire_model::gen::Random;

/// Every word over the given letters with one of the given lengths.
pub fn words<T: Copy>(letters: &[T], lengths: Range<usize>) -> impl Iterator<Item = Vec<T>> + '_ {
    lengths.flat_map(move |length| {
        (0..letters.len().pow(length as u32)).map(move |number| {
            let mut rest = number;
            (0..length)
                .map(|_| {
                    let letter = letters[rest % letters.len()];
                    rest /= letters.len();
                    letter
                })
                .collect()
        })
    })
}

/// Words of the given length, each made by one rule again and again: Fibonacci's, Thue's and
/// Morse's, the ruler's, the one that doubles periods, and runs of growing length.
pub fn structured_words(length: usize) -> Vec<Vec<u8>> {
    let rules: [&dyn Fn(u8) -> Vec<u8>; 4] = [
        &|letter| if letter == 0 { vec![0, 1] } else { vec![0] },
        &|letter| vec![letter, 1 - letter],
        &|letter| vec![0, letter + 1],
        &|letter| vec![0, 1 - letter],
    ];
    let mut made: Vec<Vec<u8>> = rules.iter().map(|rule| grown(rule, length)).collect();
    let runs = (1..).flat_map(|run| (0..=run).map(move |position| u8::from(position == run)));
    made.push(runs.take(length).collect());
    made
}

/// Words of the given length, of 3 or more, that are a run of one letter but for another: at the start
/// and the end, next to these, a third of the way and in the middle. Each whole, and with letters at
/// random for its first third and for its first half.
pub fn broken_runs(random: &mut Random, length: usize) -> Vec<Vec<u8>> {
    let (third, half) = (length / 3, length / 2);
    let mut runs = Vec::new();
    for position in [0, 1, third, half - 1, half, length - 2, length - 1] {
        let mut run = vec![0x18; length];
        run[position] = 0xE7;
        for front in [0, third, half] {
            let mut word = run.clone();
            word[..front].copy_from_slice(&random.bytes(front));
            runs.push(word);
        }
    }
    runs
}

/// The period of a word: the least shift, of 1 or more, after which it agrees with itself wherever the
/// two overlap.
pub fn period(word: &[u8]) -> u32 {
    let overlap_agrees = |shift: &usize| word[*shift..] == word[..word.len() - shift];
    let least = (1..=word.len()).find(overlap_agrees);
    least.expect("a shift by the whole length leaves no overlap") as u32
}

/// The word that a rule, which turns each letter into some, grows from one letter.
fn grown(rule: impl Fn(u8) -> Vec<u8>, length: usize) -> Vec<u8> {
    let mut word = vec![0];
    while word.len() < length {
        word = word.iter().flat_map(|&letter| rule(letter)).collect();
    }
    word.truncate(length);
    word
}
