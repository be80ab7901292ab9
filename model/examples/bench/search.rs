//! Searching, beside the same algorithm in plain Rust, beside the C library's `memmem` in a loop
//! that finds overlapping occurrences, and beside a plain scan. These two go through the text as a row
//! of bytes, and then through a copy of the bytes around the seam. "Tables apart" is twice
//! what a search takes beyond the same search of the text's first half: the tables, what a call costs
//! by itself and the alignments over the seam are in both.

use std::cell::RefCell;
use std::hint::black_box;

use ruffarmoire_model::answers::Answer;
use ruffarmoire_model::gen::Random;

use crate::baseline::matcher;
use crate::library;
use crate::prepare::repeated_root;
use crate::table_buffers::TableBuffers;
use crate::timing::{differences, medians, Timed};

/// The bytes of each text.
pub const N: usize = 16_384;

/// Patterns and texts of each kind, over which a time is the mean.
const PAIRS: usize = 16;

pub fn run() {
    println!(
        "search: µs a search in a text of {N} bytes, each time over {PAIRS} patterns and texts of a kind."
    );
    println!("{:29} | {:76} | tables apart", "", "whole searches");
    println!(
        "{:>4} {:24} | {:>8} {:>8} {:>8} {:>8} {:>12} {:>14} {:>12} | {:>8} {:>8} {:>12} {:>14}",
        "m",
        "text",
        "Rattle",
        "Rust",
        "memmem",
        "scan",
        "Rattle/Rust",
        "Rattle/memmem",
        "Rattle/scan",
        "Rattle",
        "Rust",
        "Rattle/Rust",
        "ns/comparison"
    );
    let mut random = Random::seeded(33);
    for kind in KINDS {
        for &m in kind.lengths() {
            let pairs: Vec<Pair> = (0..PAIRS).map(|_| kind.pair(&mut random, m)).collect();
            print(kind, m, &pairs);
        }
    }
}

/// A pattern and a text.
pub type Pair = (Vec<u8>, Vec<u8>);

fn print(kind: Kind, m: usize, pairs: &[Pair]) {
    let buffers = RefCell::new(Buffers::needed(m));
    let searching = |call, n| searching(pairs, call, n, &buffers);
    let [rattle, rust, memmem, scan] = medians([
        searching(library::search, N),
        searching(matcher::search, N),
        finding(pairs, matcher::occurrences_by_memmem),
        finding(pairs, matcher::occurrences_by_scan),
    ]);
    let [rattle_apart, rust_apart] = differences(
        [library::search, matcher::search]
            .map(|call: Search| [searching(call, N), searching(call, N / 2)]),
    )
    .map(|half| 2.0 * half);
    let comparisons = comparisons(pairs, N) as f64 / PAIRS as f64;
    println!(
        "{m:4} {:24} | {rattle:8.1} {rust:8.1} {memmem:8.1} {scan:8.1} {:12.2} {:14.2} {:12.2} | \
         {rattle_apart:8.1} {rust_apart:8.1} {:12.2} {:14.2}",
        kind.name(),
        rattle / rust,
        rattle / memmem,
        rattle / scan,
        rattle_apart / rust_apart,
        rattle_apart * 1e3 / comparisons,
    );
}

/// How a pattern and a text are chosen.
#[derive(Clone, Copy)]
pub enum Kind {
    /// Both at random, over so many different bytes.
    Random(usize),
    /// One byte throughout, in both.
    AllEqual,
    /// A root of so many random bytes again and again, in both.
    Periodic(usize),
    /// The same, with another byte in the text now and then.
    Broken(usize),
    /// The same, with another byte in the pattern's middle, so that it does not occur.
    Spoiled(usize),
}

/// The bytes of a text among which one is another where a run is broken now and then.
const UNBROKEN: usize = 512;

const KINDS: [Kind; 17] = [
    Kind::Random(2),
    Kind::Random(5),
    Kind::Random(26),
    Kind::Random(256),
    Kind::AllEqual,
    Kind::Periodic(2),
    Kind::Periodic(3),
    Kind::Periodic(4),
    Kind::Periodic(8),
    Kind::Periodic(24),
    Kind::Periodic(42),
    Kind::Broken(1),
    Kind::Broken(2),
    Kind::Broken(3),
    Kind::Broken(8),
    Kind::Broken(42),
    Kind::Spoiled(4),
];

impl Kind {
    pub fn name(self) -> String {
        match self {
            Kind::Random(bytes) => format!("random over {bytes}"),
            Kind::AllEqual => "all equal".to_string(),
            Kind::Periodic(period) => format!("period {period}"),
            Kind::Broken(period) => format!("period {period}, broken"),
            Kind::Spoiled(period) => format!("period {period}, no match"),
        }
    }

    fn lengths(self) -> &'static [usize] {
        match self {
            Kind::Random(_) | Kind::AllEqual => &[2, 8, 32, 128],
            Kind::Periodic(42) => &[126, 128],
            Kind::Broken(42) => &[126],
            Kind::Broken(_) => &[128],
            Kind::Periodic(_) | Kind::Spoiled(_) => &[8, 32, 128],
        }
    }

    pub fn pair(self, random: &mut Random, m: usize) -> Pair {
        let mut over = |bytes: usize, length: usize| -> Vec<u8> {
            (0..length).map(|_| random.below(bytes) as u8).collect()
        };
        match self {
            Kind::Random(bytes) => (over(bytes, m), over(bytes, N)),
            Kind::AllEqual => (vec![0x18; m], vec![0x18; N]),
            Kind::Periodic(period) => {
                let text: Vec<u8> = repeated_root(random, period).take(N).collect();
                (text[..m].to_vec(), text)
            }
            Kind::Broken(period) => {
                let (pattern, mut text) = Kind::Periodic(period).pair(random, m);
                for piece in text.chunks_mut(UNBROKEN) {
                    // A byte that the root may have or, above 26, one that it has not.
                    piece[random.below(piece.len())] = random.below(52) as u8;
                }
                (pattern, text)
            }
            Kind::Spoiled(period) => {
                let (mut pattern, text) = Kind::Periodic(period).pair(random, m);
                pattern[m / 2] = 0xFF;
                (pattern, text)
            }
        }
    }
}

/// A call that searches.
type Search =
    fn(&[u8], &[u8], &mut [i16], &mut [u16], &mut [u16], &mut [u16], &mut [u16]) -> Answer;

/// A call that finds occurrences and does nothing else.
type Find = fn(&[u8], &[u8], &mut [u16]) -> usize;

/// The buffers of a search.
pub struct Buffers {
    pub tables: TableBuffers,
    pub found: Vec<u16>,
}

impl Buffers {
    pub fn needed(m: usize) -> Buffers {
        Buffers {
            tables: TableBuffers::needed(m),
            found: vec![0; N],
        }
    }
}

/// A search's answer, with its occurrences in the buffer.
fn search(call: Search, pair: &Pair, n: usize, buffers: &mut Buffers) -> Answer {
    let (pattern, text) = black_box(pair);
    let text = &text[..n];
    let Buffers { tables, found } = buffers;
    let (order, delta2) = (&mut tables.order, &mut tables.delta2);
    let (delta1, delta3) = (&mut tables.delta1, &mut tables.delta3);
    let answer = call(pattern, text, order, delta2, delta1, delta3, found);
    black_box((answer, buffers)).0
}

/// Searching the first n bytes of some texts, timed.
pub fn searching<'a>(
    pairs: &'a [Pair],
    call: Search,
    n: usize,
    buffers: &'a RefCell<Buffers>,
) -> Timed<'a> {
    let mut expected = Buffers::needed(pairs[0].0.len());
    for pair in pairs {
        let answer = search(call, pair, n, &mut buffers.borrow_mut());
        let other = search(matcher::search, pair, n, &mut expected);
        let h = answer.occurrences as usize;
        let found = &buffers.borrow().found;
        assert_eq!((answer, &found[..h]), (other, &expected.found[..h]));
    }
    Timed::new(pairs.len(), move || {
        for pair in pairs {
            search(call, pair, n, &mut buffers.borrow_mut());
        }
    })
}

fn finding(pairs: &[Pair], call: Find) -> Timed<'_> {
    let mut expected = Buffers::needed(pairs[0].0.len());
    let mut found = vec![0; N];
    for pair in pairs {
        let count = call(&pair.0, &pair.1, &mut found);
        let answer = search(matcher::search, pair, N, &mut expected);
        assert_eq!(count, answer.occurrences as usize);
        assert_eq!(found[..count], expected.found[..count]);
    }
    Timed::new(pairs.len(), move || {
        for pair in pairs {
            let (pattern, text) = black_box(pair);
            black_box(call(pattern, text, &mut found));
            black_box(&mut found);
        }
    })
}

/// The comparisons of all these searches, each of a text's first n bytes.
fn comparisons(pairs: &[Pair], n: usize) -> u32 {
    let mut buffers = Buffers::needed(pairs[0].0.len());
    pairs
        .iter()
        .map(|pair| search(library::search, pair, n, &mut buffers).comparisons)
        .sum()
}
