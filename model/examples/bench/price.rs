//! Pricing a job, beside the same in plain Rust. "Beyond the search" is what a price takes beyond a
//! search of the same text: the library beside its own search, plain Rust beside that in plain Rust.

use std::cell::RefCell;
use std::hint::black_box;

use ruffarmoire_model::answers::{Answer, PriceAnswer};
use ruffarmoire_model::convert;
use ruffarmoire_model::gen::Random;
use ruffarmoire_model::price::cost;

use crate::baseline::{matcher, price};
use crate::library;
use crate::search::{searching, Buffers, Pair};
use crate::timing::{differences, medians, Timed};

/// Patterns and texts of each kind, over which a time is the mean.
const PAIRS: usize = 4;

pub fn run() {
    println!("price: µs a call, each time over {PAIRS} patterns and texts of a kind.");
    println!("{:21} | {:30} | beyond the search", "", "whole calls");
    println!(
        "{:>6} {:>4} {:9} | {:>8} {:>8} {:>12} | {:>8} {:>8} {:>12}",
        "n", "m", "text", "Rattle", "Rust", "Rattle/Rust", "Rattle", "Rust", "Rattle/Rust"
    );
    let mut random = Random::seeded(38);
    for n in [256, 1_024, 16_384] {
        for kind in [Kind::Random, Kind::AllEqual] {
            for m in [1, 128] {
                let pairs: Vec<Pair> = (0..PAIRS).map(|_| kind.pair(&mut random, m, n)).collect();
                print(kind, m, n, &pairs);
            }
        }
    }
}

fn print(kind: Kind, m: usize, n: usize, pairs: &[Pair]) {
    let buffers = RefCell::new(Buffers::needed(m));
    let pricing = |call| pricing(pairs, call, &buffers);
    let searching = |call| searching(pairs, call, n, &buffers);
    let [rattle, rust] = medians([pricing(library::price), pricing(price::price)]);
    print!(
        "{n:6} {m:4} {:9} | {rattle:8.2} {rust:8.2} {:12.2} |",
        kind.name(),
        rattle / rust
    );
    let [rattle, rust] = differences([
        [pricing(library::price), searching(library::search)],
        [pricing(price::price), searching(matcher::search)],
    ]);
    println!(" {rattle:8.2} {rust:8.2} {:12.2}", rattle / rust);
}

/// How a pattern and a text are chosen.
#[derive(Clone, Copy)]
enum Kind {
    /// Any bytes.
    Random,
    /// One byte throughout, in both: an occurrence at every position.
    AllEqual,
}

impl Kind {
    fn name(self) -> &'static str {
        match self {
            Kind::Random => "random",
            Kind::AllEqual => "all equal",
        }
    }

    fn pair(self, random: &mut Random, m: usize, n: usize) -> Pair {
        match self {
            Kind::Random => (random.bytes(m), random.bytes(n)),
            Kind::AllEqual => (vec![0x06; m], vec![0x06; n]),
        }
    }
}

/// A call that prices a job.
type Price = fn(
    u32,
    &[u8],
    &[u8],
    &mut [i16],
    &mut [u16],
    &mut [u16],
    &mut [u16],
    &mut [u16],
) -> PriceAnswer;

/// A price, with the middle of the pattern as the hold offset.
fn priced(call: Price, pair: &Pair, buffers: &mut Buffers) -> PriceAnswer {
    let (pattern, text) = black_box(pair);
    let Buffers { tables, found } = buffers;
    let (order, delta2) = (&mut tables.order, &mut tables.delta2);
    let (delta1, delta3) = (&mut tables.delta1, &mut tables.delta3);
    let hold = hold_offset(pattern) as u32;
    let answer = call(hold, pattern, text, order, delta2, delta1, delta3, found);
    black_box((answer, buffers)).0
}

fn hold_offset(pattern: &[u8]) -> usize {
    pattern.len() / 2
}

/// Pricing some jobs, timed.
fn pricing<'a>(pairs: &'a [Pair], call: Price, buffers: &'a RefCell<Buffers>) -> Timed<'a> {
    for pair in pairs {
        let (pattern, text) = pair;
        let frames = convert::frames(pattern, hold_offset(pattern), text);
        let expected = PriceAnswer {
            answer: Answer::default(),
            pence: cost(text, &frames),
        };
        assert_eq!(priced(call, pair, &mut buffers.borrow_mut()), expected);
    }
    Timed::new(pairs.len(), move || {
        for pair in pairs {
            priced(call, pair, &mut buffers.borrow_mut());
        }
    })
}
