//! Patterns that repeat their period at least three times, or hardly less, and texts made of runs of
//! it.

use ruffarmoire_model::gen::Random;
use ruffarmoire_model::{MAX_PATTERN, MAX_TEXT};

use super::searches::Pair;
use super::words::{period, structured_words, words};

/// A byte that none of the patterns has.
pub const FOREIGN: u8 = 0xE7;

/// The longest period of which a pattern has room for three.
const LONGEST_PERIOD: usize = MAX_PATTERN / 3;

/// A root again and again.
pub fn run(root: &[u8], length: usize) -> Vec<u8> {
    root.iter().copied().cycle().take(length).collect()
}

/// The root of a pattern: its first bytes, a period of them.
fn root(pattern: &[u8]) -> &[u8] {
    &pattern[..period(pattern) as usize]
}

/// A root of so many bytes that is no shorter one again and again.
pub fn random_root(random: &mut Random, length: usize) -> Vec<u8> {
    loop {
        let root = match random.below(3) {
            0 => random.picked(&[0x06, 0x18], length),
            1 => random.picked(&[0x06, 0x18, 0x01], length),
            _ => structured_root(random, length),
        };
        if period(&run(&root, 2 * length)) as usize == length {
            return root;
        }
    }
}

/// A part of a word that repeats itself on many scales.
fn structured_root(random: &mut Random, length: usize) -> Vec<u8> {
    let words = structured_words(100);
    let word = &words[random.below(words.len())];
    let from = random.below(word.len() - length);
    word[from..from + length].to_vec()
}

/// Patterns of every period from 1 to 42: just below three periods, three, just above, four and a
/// part, and as long as can be.
pub fn patterns() -> impl Iterator<Item = Vec<u8>> {
    let mut random = Random::seeded(56);
    (1..=LONGEST_PERIOD).flat_map(move |p| {
        let part = random.below(p);
        [3 * p - 1, 3 * p, 3 * p + 1, 4 * p + part, MAX_PATTERN]
            .into_iter()
            .filter(|&m| m <= MAX_PATTERN)
            .map(|m| run(&random_root(&mut random, p), m))
            .collect::<Vec<_>>()
    })
}

/// Some pieces joined to as few texts as can hold them.
fn joined(pieces: impl Iterator<Item = Vec<u8>>) -> Vec<Vec<u8>> {
    let mut texts = vec![Vec::new()];
    for piece in pieces {
        let last = texts.last_mut().expect("there is a text");
        if last.len() + piece.len() <= MAX_TEXT {
            last.extend(piece);
        } else {
            texts.push(piece);
        }
    }
    texts
}

/// The length of a run that is an occurrence and two repeats of it.
fn with_two_repeats(pattern: &[u8]) -> usize {
    pattern.len() + 2 * root(pattern).len()
}

/// The byte of a run at a position, changed to another byte of the pattern where it has one.
pub fn another_of(pattern: &[u8], position: usize) -> u8 {
    let root = root(pattern);
    let due = root[position % root.len()];
    let others = pattern.iter().skip(position % root.len());
    others.copied().find(|&byte| byte != due).unwrap_or(FOREIGN)
}

/// Runs of the period from its start that are broken at each position in turn, by another byte of the
/// pattern and by a foreign one: begun again after the break, or gone on with as if there were none.
pub fn broken() -> impl Iterator<Item = Pair> {
    patterns().flat_map(|pattern| {
        let root = root(&pattern);
        let ends = 0..with_two_repeats(&pattern);
        let begun_again = |break_by: fn(&[u8], usize) -> u8| {
            joined(ends.clone().map(|end| {
                let mut piece = run(root, end);
                piece.push(break_by(&pattern, end));
                piece
            }))
        };
        let gone_on = |break_by: fn(&[u8], usize) -> u8| {
            joined(ends.clone().map(|end| {
                let mut piece = run(root, end + pattern.len());
                piece[end] = break_by(&pattern, end);
                piece
            }))
        };
        let mut texts = begun_again(another_of);
        texts.extend(begun_again(|_, _| FOREIGN));
        texts.extend(gone_on(another_of));
        texts.extend(gone_on(|_, _| FOREIGN));
        with_each(&pattern, texts)
    })
}

/// Runs of the period of every length, each followed at once by a run that begins with an occurrence:
/// so two occurrences share as many bytes as they can, with repeat alignments between them.
pub fn copies() -> impl Iterator<Item = Pair> {
    patterns().flat_map(|pattern| {
        let root = root(&pattern);
        let second = pattern.len() + root.len();
        let pieces = (1..with_two_repeats(&pattern))
            .map(|length| [run(root, length), run(root, second)].concat());
        with_each(&pattern, joined(pieces))
    })
}

fn with_each(pattern: &[u8], texts: Vec<Vec<u8>>) -> Vec<Pair> {
    let with = |text| (pattern.to_vec(), text);
    texts.into_iter().map(with).collect()
}

/// Texts of pieces at random: runs, copies that share bytes with what is before, parts, and bytes
/// alone.
pub fn mixed() -> impl Iterator<Item = Pair> {
    let mut random = Random::seeded(57);
    patterns().map(move |pattern| {
        let length = random.between(0, 1_200);
        let text = mixed_text(&mut random, &pattern, length);
        (pattern, text)
    })
}

fn mixed_text(random: &mut Random, pattern: &[u8], length: usize) -> Vec<u8> {
    let (m, p) = (pattern.len(), root(pattern).len());
    let mut text = Vec::new();
    while text.len() < length {
        match random.below(6) {
            0 => text.push(random.pick(pattern)),
            1 => text.push(FOREIGN),
            2 => text.extend(&pattern[random.below(m)..]),
            3 => {
                let shared = random.below(m).min(text.len());
                text.truncate(text.len() - shared);
                text.extend(pattern);
            }
            _ => text.extend(run(pattern, m + random.below(3 * p))),
        }
    }
    text.truncate(length);
    text
}

/// The largest: runs of periods up to the longest and one more, whole, begun anywhere, with a
/// break now and then, and with one at their very end.
pub fn largest() -> impl Iterator<Item = Pair> {
    let mut random = Random::seeded(58);
    let sizes = [
        (1, 128),
        (1, 127),
        (2, 128),
        (3, 128),
        (8, 128),
        (41, 128),
        (42, 126),
        (42, 127),
        (42, 128),
        (43, 128),
    ];
    sizes.into_iter().flat_map(move |(p, m)| {
        let root = random_root(&mut random, p);
        let pattern = run(&root, m);
        let whole = run(&root, MAX_TEXT);
        let begun_anywhere = run(&root, MAX_TEXT + p)[random.below(p)..][..MAX_TEXT].to_vec();
        let broken = |every: usize, random: &mut Random| {
            let mut text = whole.clone();
            for _ in 0..MAX_TEXT / every {
                text[random.below(MAX_TEXT)] = random.pick(&[root[0], root[p - 1], FOREIGN]);
            }
            text
        };
        let texts = [
            broken(2_000, &mut random),
            broken(300, &mut random),
            [&whole[1..], &[FOREIGN]].concat(),
            begun_anywhere,
            whole.clone(),
        ];
        with_each(&pattern, texts.to_vec())
    })
}

/// A pattern of m bytes with a period of p, and the largest text: a run of the same with a break now
/// and then.
pub fn run_with_breaks(random: &mut Random, p: usize, m: usize) -> Pair {
    let root = random_root(random, p);
    let mut text = run(&root, MAX_TEXT);
    for _ in 0..MAX_TEXT / 300 {
        text[random.below(MAX_TEXT)] = random.pick(&[root[0], root[p - 1], FOREIGN]);
    }
    (run(&root, m), text)
}

/// Short ones of every period up to 6: an occurrence and three repeats of it, broken at each position in
/// turn by another byte of the pattern and by a foreign one, and then gone on with as if there were no
/// break or begun again, for another occurrence and a repeat.
pub fn short_broken() -> impl Iterator<Item = Pair> {
    let mut random = Random::seeded(60);
    let mut pairs = Vec::new();
    for p in 1..=6 {
        for m in [3 * p - 1, 3 * p, 3 * p + 1, 4 * p + 1] {
            let root = random_root(&mut random, p);
            let pattern = run(&root, m);
            for end in 0..m + 3 * p {
                for byte in [another_of(&pattern, end), FOREIGN] {
                    let mut gone_on = run(&root, end + 1 + m + p);
                    gone_on[end] = byte;
                    let begun_again = [&run(&root, end), &[byte][..], &run(&root, m + p)].concat();
                    pairs.extend(with_each(&pattern, vec![gone_on, begun_again]));
                }
            }
        }
    }
    pairs.into_iter()
}

/// The two bytes of the short patterns.
const TWO: [u8; 2] = [0x06, 0x18];

/// Every pattern of up to 11 bytes over two that has at least three periods.
pub fn all_short() -> impl Iterator<Item = Vec<u8>> {
    words(&TWO, 3..12).filter(|pattern| pattern.len() >= 3 * root(pattern).len())
}

/// A pattern followed by every word of up to 11 bytes over those of the short patterns, and of up to 7
/// over these and a foreign one.
pub fn with_any_end(pattern: &[u8]) -> impl Iterator<Item = Vec<u8>> + '_ {
    const THREE: [u8; 3] = [TWO[0], TWO[1], FOREIGN];
    let ends = words(&TWO, 0..12).chain(words(&THREE, 1..8));
    ends.map(move |end| [pattern, &end].concat())
}
