//! Turning a job in each way, beside the same in plain Rust.

use std::hint::black_box;

use ruffarmoire_model::answers::TurnAnswer;
use ruffarmoire_model::calls;
use ruffarmoire_model::gen::{Random, Shape};
use ruffarmoire_model::job::Job;

use crate::baseline;
use crate::library;
use crate::timing::{medians, Timed};

/// The bytes of each pattern.
const M: usize = 128;

pub fn run() {
    println!("turn: µs a call, m {M}, random bytes.");
    println!(
        "{:>6} {:22} {:>8} {:>8} {:>12}",
        "n", "way", "Rattle", "Rust", "Rattle/Rust"
    );
    let mut random = Random::seeded(36);
    for n in [1_024, 16_384] {
        let job = Shape::AnyBytes.job(&mut random, M, n);
        for (way, name) in WAYS {
            let [rattle, rust] = medians([
                timed(way, &job, library::turn),
                timed(way, &job, baseline::turn::turn),
            ]);
            println!(
                "{n:6} {name:22} {rattle:8.3} {rust:8.3} {:12.2}",
                rattle / rust
            );
        }
    }
}

/// The ways, and what each does.
const WAYS: [(u32, &str); 4] = [
    (0, "0 as it is"),
    (1, "1 mirrored"),
    (2, "2 reversed"),
    (3, "3 both"),
];

/// A call that turns a job.
type Turn = fn(u32, u32, &[u8], &[u8], &mut [u8], &mut [u8]) -> TurnAnswer;

/// Turning one job, timed.
fn timed(way: u32, job: &Job, call: Turn) -> Timed<'_> {
    let (m, n) = (job.pattern.len(), job.text.len());
    let hold = job.hold as u32;
    let (mut pattern, mut text) = (vec![0; m], vec![0; n]);
    let answer = call(way, hold, &job.pattern, &job.text, &mut pattern, &mut text);
    let expected = calls::turn(way, hold, &job.pattern, &job.text, m, n);
    assert_eq!(answer, expected.answer);
    assert!(pattern == expected.turned_pattern && text == expected.turned_text);
    Timed::new(1, move || {
        let (from_pattern, from_text) = black_box((&job.pattern, &job.text));
        black_box(call(
            way,
            hold,
            from_pattern,
            from_text,
            &mut pattern,
            &mut text,
        ));
        black_box((&mut pattern, &mut text));
    })
}
