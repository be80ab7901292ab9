//! Restoring a text from its frames, beside the same in plain Rust, and beside restoring random bytes
//! by the library.

use std::hint::black_box;

use ruffarmoire_model::answers::Answer;
use ruffarmoire_model::convert::{self, HOLD};
use ruffarmoire_model::gen::Random;
use ruffarmoire_model::job::Job;

use crate::baseline;
use crate::library;
use crate::timing::{medians, Timed};

/// The bytes of each pattern, and the frames.
const M: usize = 128;
const N: usize = 16_384;

pub fn run() {
    println!(
        "restore: µs a call, m {M}, n {N}. Rattle/random is beside Rattle for random bytes, the first row's text."
    );
    println!(
        "{:24} {:>4} {:>6} {:>8} {:>8} {:>12} {:>14}",
        "text", "q", "holds", "Rattle", "Rust", "Rattle/Rust", "Rattle/random"
    );
    let mut random = Random::seeded(37);
    let jobs = KINDS.map(|(kind, hold)| Converted::new(kind.job(&mut random, hold)));
    let [random_bytes, ..] = &jobs;
    for ((kind, hold), converted) in KINDS.into_iter().zip(&jobs) {
        let [rattle, rust, random] = medians([
            timed(converted, library::restore),
            timed(converted, baseline::restore::restore),
            timed(random_bytes, library::restore),
        ]);
        println!(
            "{:24} {hold:4} {:6} {rattle:8.2} {rust:8.2} {:12.2} {:14.2}",
            kind.name(),
            converted.holds(),
            rattle / rust,
            rattle / random
        );
    }
}

/// How a pattern and a text are chosen.
#[derive(Clone, Copy)]
enum Kind {
    /// Both at random, over so many different bytes.
    Random(usize),
    /// Random bytes, with the pattern here and there in the text.
    Planted,
    /// One byte throughout, in both.
    AllEqual,
    /// A root of so many random bytes again and again, in both.
    Periodic(usize),
    /// One byte throughout the text; in the pattern too, but for its last byte.
    LastDiffers,
    /// The Fibonacci word, of which the pattern is a prefix.
    Fibonacci,
    /// The pattern is a prefix of the Fibonacci word. The text is that prefix but for its last byte,
    /// again and again, each time with another byte after it.
    FibonacciCut,
}

/// The kinds, each with a hold offset.
const KINDS: [(Kind, usize); 13] = [
    (Kind::Random(256), 64),
    (Kind::Random(26), 64),
    (Kind::Random(2), 64),
    (Kind::Planted, 0),
    (Kind::Planted, 127),
    (Kind::AllEqual, 0),
    (Kind::AllEqual, 64),
    (Kind::AllEqual, 127),
    (Kind::Periodic(4), 64),
    (Kind::Periodic(24), 64),
    (Kind::LastDiffers, 64),
    (Kind::Fibonacci, 64),
    (Kind::FibonacciCut, 64),
];

impl Kind {
    fn name(self) -> String {
        match self {
            Kind::Random(bytes) => format!("random over {bytes}"),
            Kind::Planted => "random, pattern planted".to_string(),
            Kind::AllEqual => "all equal".to_string(),
            Kind::Periodic(period) => format!("period {period}"),
            Kind::LastDiffers => "all equal, no match".to_string(),
            Kind::Fibonacci => "Fibonacci".to_string(),
            Kind::FibonacciCut => "Fibonacci, no match".to_string(),
        }
    }

    fn job(self, random: &mut Random, hold: usize) -> Job {
        let (pattern, text) = self.pattern_and_text(random);
        Job {
            pattern,
            hold,
            text,
        }
    }

    fn pattern_and_text(self, random: &mut Random) -> (Vec<u8>, Vec<u8>) {
        let mut over = |bytes: usize, length: usize| -> Vec<u8> {
            (0..length).map(|_| random.below(bytes) as u8).collect()
        };
        match self {
            Kind::Random(bytes) => (over(bytes, M), over(bytes, N)),
            Kind::Planted => {
                let (pattern, mut text) = (over(256, M), over(256, N));
                for part in text.chunks_exact_mut(4 * M) {
                    part[M..2 * M].copy_from_slice(&pattern);
                }
                (pattern, text)
            }
            Kind::AllEqual => (vec![0x06; M], vec![0x06; N]),
            Kind::Periodic(period) => {
                let root = over(26, period);
                (repeated(&root, M), repeated(&root, N))
            }
            Kind::LastDiffers => {
                let mut pattern = vec![0x06; M];
                pattern[M - 1] = 0x18;
                (pattern, vec![0x06; N])
            }
            Kind::Fibonacci => (fibonacci(M), fibonacci(N)),
            Kind::FibonacciCut => {
                let pattern = fibonacci(M);
                let mut root = pattern.clone();
                root[M - 1] = 0x01;
                (pattern, repeated(&root, N))
            }
        }
    }
}

/// Some bytes again and again.
fn repeated(root: &[u8], length: usize) -> Vec<u8> {
    root.iter().copied().cycle().take(length).collect()
}

/// The first bytes of the Fibonacci word: each word of the sequence is the one before it, followed
/// by the one before that.
fn fibonacci(length: usize) -> Vec<u8> {
    let (mut before, mut word) = (vec![0x06], vec![0x06, 0x18]);
    while word.len() < length {
        let next = [&word[..], &before].concat();
        before = std::mem::replace(&mut word, next);
    }
    word.truncate(length);
    word
}

/// A job and its frames.
struct Converted {
    job: Job,
    frames: Vec<u16>,
}

impl Converted {
    fn new(job: Job) -> Converted {
        let frames = convert::frames(&job.pattern, job.hold, &job.text);
        Converted { job, frames }
    }

    fn holds(&self) -> usize {
        let is_hold = |frame: &&u16| **frame == HOLD;
        self.frames.iter().filter(is_hold).count()
    }
}

/// A call that restores a text.
type Restore = fn(u32, &[u8], &[u16], &mut [u8]) -> Answer;

/// Restoring one text, timed.
fn timed(converted: &Converted, call: Restore) -> Timed<'_> {
    let Converted { job, frames } = converted;
    let hold = job.hold as u32;
    let mut text = vec![0; frames.len()];
    let answer = call(hold, &job.pattern, frames, &mut text);
    assert_eq!(answer, Answer::default());
    assert!(text == job.text);
    Timed::new(1, move || {
        let (pattern, frames) = black_box((&job.pattern, frames));
        black_box(call(hold, pattern, frames, &mut text));
        black_box(&mut text);
    })
}
