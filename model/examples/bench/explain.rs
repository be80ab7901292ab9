//! Explaining a position, beside the same in plain Rust and beside a search of the same text: the last
//! position, to which the steps of a search have to be followed, and one near the front.

use std::cell::RefCell;
use std::hint::black_box;

use ruffarmoire_model::answers::ExplainAnswer;
use ruffarmoire_model::explain::explanation;
use ruffarmoire_model::gen::Random;
use ruffarmoire_model::steps;

use crate::baseline::explain;
use crate::library;
use crate::search::{searching, Buffers, Kind, Pair, N};
use crate::timing::{medians, Timed};

/// Patterns and texts of each kind, over which a time is the mean.
const PAIRS: usize = 8;

/// The position near the front.
const EARLY: usize = 5;

/// The lengths of the patterns.
const LENGTHS: [usize; 7] = [128, 64, 16, 8, 4, 2, 1];

const KINDS: [Kind; 10] = [
    Kind::Random(256),
    Kind::Random(4),
    Kind::Random(2),
    Kind::Periodic(2),
    Kind::Periodic(5),
    Kind::Periodic(21),
    Kind::Broken(2),
    Kind::Broken(5),
    Kind::Broken(21),
    Kind::AllEqual,
];

pub fn run() {
    println!(
        "explain: µs a call in a text of {N} bytes, each time over {PAIRS} patterns and texts of a kind."
    );
    println!(
        "{:29} | {:8} | {:44} | position {EARLY}",
        "", "", "the last position"
    );
    println!(
        "{:>4} {:24} | {:>8} | {:>8} {:>8} {:>12} {:>13} | {:>8} {:>8} {:>12} {:>13}",
        "m",
        "text",
        "search",
        "Rattle",
        "Rust",
        "Rattle/Rust",
        "Rattle/search",
        "Rattle",
        "Rust",
        "Rattle/Rust",
        "Rattle/search"
    );
    let mut random = Random::seeded(39);
    for kind in KINDS {
        for m in LENGTHS.into_iter().filter(|&m| has_length(kind, m)) {
            let pairs: Vec<Pair> = (0..PAIRS).map(|_| kind.pair(&mut random, m)).collect();
            print(kind, m, &pairs);
        }
    }
}

/// Whether a pattern of m bytes of this kind repeats its root at least three times, where it has one.
fn has_length(kind: Kind, m: usize) -> bool {
    match kind {
        Kind::Periodic(period) | Kind::Broken(period) | Kind::Spoiled(period) => m >= 3 * period,
        Kind::Random(_) | Kind::AllEqual => true,
    }
}

fn print(kind: Kind, m: usize, pairs: &[Pair]) {
    let buffers = RefCell::new(Buffers::needed(m));
    let explaining = |call, position| explaining(pairs, call, position, &buffers);
    let [search, rattle, rust, rattle_early, rust_early] = medians([
        searching(pairs, library::search, N, &buffers),
        explaining(library::explain, N - 1),
        explaining(explain::explain, N - 1),
        explaining(library::explain, EARLY),
        explaining(explain::explain, EARLY),
    ]);
    println!(
        "{m:4} {:24} | {search:8.2} | {rattle:8.2} {rust:8.2} {:12.2} {:13.2} | \
         {rattle_early:8.2} {rust_early:8.2} {:12.2} {:13.2}",
        kind.name(),
        rattle / rust,
        rattle / search,
        rattle_early / rust_early,
        rattle_early / search,
    );
}

/// A call that explains a position.
type Explain =
    fn(u32, &[u8], &[u8], &mut [i16], &mut [u16], &mut [u16], &mut [u16]) -> ExplainAnswer;

fn explained(call: Explain, position: usize, pair: &Pair, buffers: &mut Buffers) -> ExplainAnswer {
    let (pattern, text) = black_box(pair);
    let position = black_box(position as u32);
    let tables = &mut buffers.tables;
    let (order, delta2) = (&mut tables.order, &mut tables.delta2);
    let (delta1, delta3) = (&mut tables.delta1, &mut tables.delta3);
    let answer = call(position, pattern, text, order, delta2, delta1, delta3);
    black_box((answer, buffers)).0
}

/// Explaining a position of some texts, timed.
fn explaining<'a>(
    pairs: &'a [Pair],
    call: Explain,
    position: usize,
    buffers: &'a RefCell<Buffers>,
) -> Timed<'a> {
    for pair in pairs {
        let (pattern, text) = pair;
        let done = steps::search(pattern, text);
        let expected = explanation(&done, pattern, text, position);
        let answer = explained(call, position, pair, &mut buffers.borrow_mut());
        assert_eq!(answer, expected.into());
    }
    Timed::new(pairs.len(), move || {
        for pair in pairs {
            explained(call, position, pair, &mut buffers.borrow_mut());
        }
    })
}
