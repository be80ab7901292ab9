//! Preparing patterns, beside a plain fill of as many entries as Δ1 has, beside the same algorithm
//! in plain Rust, and beside that with Δ1 by document 002's listing.

use std::hint::black_box;

use ruffarmoire_model::answers::Answer;
use ruffarmoire_model::gen::Random;

use crate::baseline::tables::{prepare, prepare_as_listed};
use crate::library;
use crate::table_buffers::TableBuffers;
use crate::timing::{medians, Timed};

/// Patterns of each kind, over which a time is the mean.
const PATTERNS: usize = 8;

pub fn run() {
    println!("prepare: µs a pattern, each time over {PATTERNS} patterns of a kind.");
    println!(
        "{:>4} {:22} {:>8} {:>8} {:>8} {:>9} {:>12} {:>12} {:>15}",
        "m",
        "pattern",
        "fill",
        "Rattle",
        "Rust",
        "listing",
        "Rattle/fill",
        "Rattle/Rust",
        "Rattle/listing"
    );
    let mut random = Random::seeded(32);
    for m in [1, 2, 8, 32, 128] {
        for kind in KINDS.into_iter().filter(|kind| kind.has_length(m)) {
            let patterns: Vec<Vec<u8>> = (0..PATTERNS)
                .map(|_| kind.pattern(&mut random, m))
                .collect();
            let mut filled = vec![0; 256 * m];
            let fill = Timed::new(PATTERNS, || {
                for _ in 0..PATTERNS {
                    black_box(&mut filled[..]).fill(black_box(m as u16));
                }
                black_box(&mut filled);
            });
            let [fill, rattle, rust, listing] = medians([
                fill,
                timed(&patterns, library::prepare),
                timed(&patterns, prepare),
                timed(&patterns, prepare_as_listed),
            ]);
            println!(
                "{m:4} {:22} {fill:8.3} {rattle:8.3} {rust:8.3} {listing:9.3} {:12.2} {:12.2} {:15.3}",
                kind.name(),
                rattle / fill,
                rattle / rust,
                rattle / listing
            );
        }
    }
}

/// How the bytes of a pattern are chosen.
#[derive(Clone, Copy)]
enum Kind {
    /// At random, over so many different bytes.
    Random(usize),
    /// A random quarter again and again.
    Periodic,
    /// A root of so many random bytes again and again, at least three times.
    Repeated(usize),
    AllEqual,
    /// All equal but for one, which comes after so many 128ths of the pattern.
    Broken(usize),
    /// All equal but for the first and one that comes after two thirds of the pattern.
    BrokenTwice,
    /// A random half, and then all equal.
    HalfEqual,
    /// A random third over 48 different bytes, and then all equal but for one.
    ThirdAndBroken,
}

const KINDS: [Kind; 18] = [
    Kind::Random(2),
    Kind::Random(5),
    Kind::Random(26),
    Kind::Random(48),
    Kind::Random(256),
    Kind::Periodic,
    Kind::Repeated(2),
    Kind::Repeated(3),
    Kind::Repeated(8),
    Kind::Repeated(24),
    Kind::Repeated(42),
    Kind::AllEqual,
    Kind::Broken(0),
    Kind::Broken(42),
    Kind::Broken(63),
    Kind::BrokenTwice,
    Kind::HalfEqual,
    Kind::ThirdAndBroken,
];

impl Kind {
    fn name(self) -> String {
        match self {
            Kind::Random(bytes) => format!("random over {bytes}"),
            Kind::Periodic => "periodic".to_string(),
            Kind::Repeated(period) => format!("period {period}"),
            Kind::AllEqual => "all equal".to_string(),
            Kind::Broken(parts) => format!("broken at {parts}/128"),
            Kind::BrokenTwice => "broken twice".to_string(),
            Kind::HalfEqual => "half equal".to_string(),
            Kind::ThirdAndBroken => "third, then broken".to_string(),
        }
    }

    /// Whether there are patterns of m bytes of this kind.
    fn has_length(self, m: usize) -> bool {
        match self {
            Kind::Repeated(period) => m >= 3 * period,
            Kind::Broken(_) | Kind::BrokenTwice | Kind::HalfEqual | Kind::ThirdAndBroken => m >= 8,
            _ => true,
        }
    }

    fn pattern(self, random: &mut Random, m: usize) -> Vec<u8> {
        match self {
            Kind::Random(bytes) => (0..m).map(|_| random.below(bytes) as u8).collect(),
            Kind::Periodic => repeated_root(random, m.div_ceil(4)).take(m).collect(),
            Kind::Repeated(period) => repeated_root(random, period).take(m).collect(),
            Kind::AllEqual => vec![random.byte(); m],
            Kind::Broken(parts) => {
                let mut pattern = Kind::AllEqual.pattern(random, m);
                pattern[m * parts / 128] ^= 1;
                pattern
            }
            Kind::BrokenTwice => {
                let mut pattern = Kind::Broken(85).pattern(random, m);
                pattern[0] ^= 2;
                pattern
            }
            Kind::HalfEqual => {
                let mut pattern = Kind::AllEqual.pattern(random, m);
                pattern[..m / 2].fill_with(|| random.byte());
                pattern
            }
            Kind::ThirdAndBroken => {
                let mut pattern = Kind::Broken(100).pattern(random, m);
                pattern[..m / 3].fill_with(|| random.below(48) as u8);
                pattern
            }
        }
    }
}

/// A root of so many random bytes again and again. Its first byte is in it once, so that it has no
/// shorter period.
pub fn repeated_root(random: &mut Random, period: usize) -> impl Iterator<Item = u8> {
    let mut root: Vec<u8> = (0..period).map(|_| random.below(26) as u8).collect();
    root[0] = 26;
    root.into_iter().cycle()
}

/// A call that prepares a pattern.
pub type Prepare = fn(&[u8], &mut [i16], &mut [u16], &mut [u16], &mut [u16]) -> Answer;

fn call_with(call: Prepare, pattern: &[u8], tables: &mut TableBuffers) -> Answer {
    let (order, delta2) = (&mut tables.order, &mut tables.delta2);
    let (delta1, delta3) = (&mut tables.delta1, &mut tables.delta3);
    call(pattern, order, delta2, delta1, delta3)
}

/// Preparing each of some patterns of one length, timed.
pub fn timed(patterns: &[Vec<u8>], call: Prepare) -> Timed<'_> {
    let m = patterns[0].len();
    let mut tables = TableBuffers::needed(m);
    let mut expected = tables.clone();
    for pattern in patterns {
        let prepare = |call: Prepare, tables: &mut TableBuffers| {
            let answer = call_with(call, pattern, tables);
            assert_eq!(answer.status, 0);
            answer
        };
        let answer = prepare(call, &mut tables);
        assert_eq!(answer, prepare(prepare_as_listed, &mut expected));
        assert!(tables == expected, "the tables of {pattern:?}");
    }
    Timed::new(patterns.len(), move || {
        for pattern in patterns {
            black_box(call_with(call, black_box(pattern), &mut tables));
            black_box(&mut tables);
        }
    })
}
