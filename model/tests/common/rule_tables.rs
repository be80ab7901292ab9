//! Tables of rules, with texts for them.

use std::collections::BTreeSet;

use ruffarmoire_model::calls::TableLengths;
use ruffarmoire_model::gen::{Random, SHAPES};
use ruffarmoire_model::rules::{Rule, TableBytes, TABLE};
use ruffarmoire_model::MAX_TEXT;

use super::repeats::{run, FOREIGN};
use super::rings;
use super::words::words;

const A: u8 = 0x06;
const C: u8 = 0x18;

/// Rules and a text.
#[derive(Clone, Debug)]
pub struct Job {
    pub rules: Vec<Rule>,
    pub text: Vec<u8>,
}

/// A rule with this hold offset.
pub fn rule(pattern: &[u8], hold: usize) -> Rule {
    Rule {
        pattern: pattern.to_vec(),
        hold,
    }
}

/// The bytes of a table with these rules. Past each pattern and past the last rule there is noise, of
/// this seed.
pub fn table_of(rules: &[Rule], noise: u64) -> TableBytes {
    let mut table: TableBytes = Random::seeded(noise)
        .bytes(TABLE)
        .try_into()
        .expect("as many bytes as a table has");
    table[0] = rules.len() as u8;
    for (index, rule) in rules.iter().enumerate() {
        let slot = &mut table[130 * index + 1..];
        slot[0] = rule.pattern.len() as u8;
        slot[1] = rule.hold as u8;
        slot[2..2 + rule.pattern.len()].copy_from_slice(&rule.pattern);
    }
    table
}

/// The lengths that the tables of these rules need in sum.
pub fn needed(rules: &[Rule]) -> TableLengths {
    let bytes: usize = rules.iter().map(|rule| rule.pattern.len()).sum();
    TableLengths {
        order: bytes + rules.len(),
        delta2: bytes + rules.len(),
        delta1: 256 * bytes,
        delta3: bytes,
    }
}

/// The bytes of the text that a rule claims.
pub fn claims(rule: &Rule, text: &[u8]) -> BTreeSet<usize> {
    let occurrences = rings::occurrences(&rule.pattern, text);
    let held = |b: usize| (b + rule.hold) % text.len();
    occurrences.into_iter().map(held).collect()
}

/// Whether no byte of the text is claimed by two of the rules.
pub fn are_apart(rules: &[Rule], text: &[u8]) -> bool {
    let all: Vec<BTreeSet<usize>> = rules.iter().map(|rule| claims(rule, text)).collect();
    let sum: usize = all.iter().map(BTreeSet::len).sum();
    all.into_iter().flatten().collect::<BTreeSet<_>>().len() == sum
}

/// A rule of up to so many bytes: any, a part of the text, one of the rules before, a part of one of
/// them, one that contains it, or one with another byte.
fn candidate(random: &mut Random, before: &[Rule], text: &[u8], few: &[u8], most: usize) -> Rule {
    let m = random.between(1, most);
    let other = || before.last().map_or(few, |rule| &rule.pattern[..]);
    let pattern = match random.below(8) {
        0 => random.picked(few, m),
        1 => other().to_vec(),
        2 => other()[random.below(other().len())..].to_vec(),
        3 => [other(), few].concat(),
        4 => [few, other()].concat(),
        5 => {
            let mut pattern = other().to_vec();
            let position = random.below(pattern.len());
            pattern[position] = random.pick(few);
            pattern
        }
        _ if text.is_empty() => random.picked(few, m),
        _ => {
            let from = random.below(text.len());
            run(text, from + m)[from..].to_vec()
        }
    };
    let m = pattern.len().min(most);
    rule(&pattern[..m], random.below(m))
}

/// So many rules of up to so many bytes for a text over a few bytes. Where they are asked to be apart, no
/// two claim the same byte.
fn rules_for(
    random: &mut Random,
    text: &[u8],
    few: &[u8],
    (count, most): (usize, usize),
    apart: bool,
) -> Vec<Rule> {
    let mut rules: Vec<Rule> = Vec::new();
    let mut claimed = BTreeSet::new();
    for _ in 0..4 * count {
        let new = candidate(random, &rules, text, few, most);
        let own = claims(&new, text);
        if rules.len() < count && !(apart && own.intersection(&claimed).next().is_some()) {
            claimed.extend(own);
            rules.push(new);
        }
    }
    // The others have a byte that few texts have.
    while rules.len() < count {
        let position = random.below(rules.len() + 1);
        rules.insert(position, rule(&[few[0], FOREIGN][..most.min(2)], 0));
        rules[position].pattern[0] = FOREIGN;
    }
    rules
}

/// Tables of 1 to 16 rules, in texts of every shape and of a length up to the last.
fn generated(
    seed: u64,
    rounds: usize,
    longest_pattern: usize,
    longest_text: usize,
) -> impl Iterator<Item = Job> {
    let mut random = Random::seeded(seed);
    (0..rounds).map(move |round| {
        let n = random.between(0, longest_text);
        let shape = SHAPES[round % SHAPES.len()];
        let (part, text) = shape.pattern_and_text(&mut random, 1 + round % 7, n);
        let few: BTreeSet<u8> = part.into_iter().collect();
        let few = Vec::from_iter(few);
        let sizes = (round / 2 % 16 + 1, longest_pattern);
        let rules = rules_for(&mut random, &text, &few, sizes, round % 4 != 0);
        Job { rules, text }
    })
}

/// Short ones.
pub fn short() -> impl Iterator<Item = Job> {
    generated(161, 960, 6, 40)
}

/// Longer ones.
pub fn longer() -> impl Iterator<Item = Job> {
    generated(162, 48, 128, 1_500)
}

/// Every two rules of 1 to 3 bytes and every hold offset of each, in every text of up to 5, over two
/// bytes.
pub fn all_short() -> impl Iterator<Item = Job> {
    let all: Vec<Rule> = words(&[A, C], 1..4)
        .flat_map(|pattern| (0..pattern.len()).map(move |hold| rule(&pattern, hold)))
        .collect();
    let texts: Vec<Vec<u8>> = words(&[A, C], 0..6).collect();
    let pairs = all
        .clone()
        .into_iter()
        .enumerate()
        .flat_map(move |(index, first)| {
            let others: Vec<Rule> = all[..=index].to_vec();
            others
                .into_iter()
                .map(move |second| (first.clone(), second))
        });
    pairs.flat_map(move |(first, second)| {
        let rules = vec![first, second];
        let jobs: Vec<Job> = texts
            .iter()
            .map(|text| Job {
                rules: rules.clone(),
                text: text.clone(),
            })
            .collect();
        jobs
    })
}

/// A text with each of these rules at a position, over the seam too.
fn laid(mut text: Vec<u8>, laid: &[(&Rule, usize)]) -> Vec<u8> {
    let n = text.len();
    for (rule, position) in laid {
        for (j, &byte) in rule.pattern.iter().enumerate() {
            text[(position + j) % n] = byte;
        }
    }
    text
}

/// A net of period 16: rule k is the net from its k-th byte on and claims every 16th byte, so that each
/// byte is claimed once.
pub fn net(m: usize, n: usize, hold: usize) -> Job {
    let root: Vec<u8> = (0x40..0x50).collect();
    let begun = |from: usize| run(&root, from + m)[from..].to_vec();
    Job {
        rules: (0..16).map(|from| rule(&begun(from), hold)).collect(),
        text: run(&root, n),
    }
}

/// The largest: 16 rules of 128 bytes in texts of 16,384, with what the call is to answer, 0 or 12.
pub fn largest() -> Vec<(Job, u32)> {
    let mut random = Random::seeded(163);
    let mut all = Vec::new();
    // Random rules, each in the text, the last over the seam.
    let hold = |index: usize| [0, 127, index * 8][index % 3];
    let rules: Vec<Rule> = (0..16)
        .map(|index| rule(&random.bytes(128), hold(index)))
        .collect();
    let at = |index: usize| 1_000 * index + if index == 15 { 1_300 } else { 0 };
    let all_laid: Vec<(&Rule, usize)> = (0..16).map(|index| (&rules[index], at(index))).collect();
    let text = laid(random.bytes(MAX_TEXT), &all_laid);
    let mut equal = rules.clone();
    equal[0] = rules[15].clone();
    all.push((
        Job {
            rules: equal,
            text: text.clone(),
        },
        12,
    ));
    all.push((Job { rules, text }, 0));
    // Nets, in which each byte is claimed, or each by two rules.
    for hold in [0, 127] {
        all.push((net(128, MAX_TEXT, hold), 0));
    }
    let mut twice = net(128, MAX_TEXT, 64);
    twice.rules[15].hold = 63;
    all.push((twice, 12));
    // One byte throughout: only the first rule occurs, or only the last.
    for place in [0, 15] {
        let mut rules: Vec<Rule> = (0..16_usize)
            .map(|index| {
                let mut pattern = vec![A; 128];
                pattern[(127 - index) % 128] = C;
                rule(&pattern, (index * 7) % 120)
            })
            .collect();
        rules[place].pattern.fill(A);
        all.push((
            Job {
                rules,
                text: vec![A; MAX_TEXT],
            },
            0,
        ));
    }
    // Two rules that claim one byte, and only the last of the ring.
    let mut rules = net(128, MAX_TEXT, 0).rules;
    rules[3] = rule(&[C; 128], 127);
    rules[9] = rule(&[&[C; 100][..], &[A; 28]].concat(), 99);
    let text = laid(vec![FOREIGN; MAX_TEXT], &[(&rules[3], MAX_TEXT - 128)]);
    let text = laid(text, &[(&rules[9], MAX_TEXT - 100)]);
    all.push((Job { rules, text }, 12));
    all
}

/// Rules of each of these kinds with texts around which they lie, each with whether two claim one byte.
pub fn by_hand() -> Vec<(Job, bool)> {
    let mut all = Vec::new();
    let mut add = |rules: &[Rule], text: &[u8], claimed_twice: bool| {
        let job = Job {
            rules: rules.to_vec(),
            text: text.to_vec(),
        };
        all.push((job, claimed_twice));
    };
    // Equal rules: in a text without them, in one with them, and with other hold offsets.
    let once = [A, A, C, FOREIGN, FOREIGN];
    for hold in 0..3 {
        let equal = [rule(&[A, A, C], hold), rule(&[A, A, C], hold)];
        add(&equal, &[A, C, A, FOREIGN], false);
        add(&equal, &once, true);
        add(&equal, &[], false);
        let other = [rule(&[A, A, C], hold), rule(&[A, A, C], (hold + 1) % 3)];
        add(&other, &once, false);
        // Round a ring of three bytes and of one.
        add(&other, &[A, A, C], false);
        let others = [rule(&[A, A, A], hold), rule(&[A, A, A], (hold + 1) % 3)];
        add(&others, &[A], true);
        add(&others, &[A, A], true);
    }
    // Rules of which one contains the other: they meet where their holds do.
    for hold in 0..5 {
        let whole = rule(&[A, C, A, A, C], hold);
        for part_hold in 0..2 {
            let part = rule(&[A, A], part_hold);
            let meets = hold == 2 + part_hold;
            add(&[whole.clone(), part.clone()], &[A, C, A, A, C, C], meets);
            add(&[part, whole.clone()], &[C, A, A, C, C, A], meets);
        }
    }
    // Two rules on either side of the seam, whose holds meet on the first byte or on the last, or
    // miss each other by one.
    for (first, second, meets) in [(2, 0, true), (1, 0, false), (2, 1, false)] {
        let rules = [rule(&[A, A, C], first), rule(&[C, C, A], second)];
        add(&rules, &[C, C, A, FOREIGN, A, A], meets);
        add(&rules, &[C, A, FOREIGN, A, A, C], meets);
        add(&rules, &[A, FOREIGN, A, A, C, C], meets);
    }
    // Rings shorter than every pattern, which go round more than once: the holds meet where they are on
    // one byte of the ring, though not on one position.
    for (first, second) in (0..5).flat_map(|first| (0..7).map(move |second| (first, second))) {
        let rules = [
            rule(&run(&[A, C], 5), first),
            rule(&run(&[C, A], 7), second),
        ];
        let is_met = first % 2 == (second + 1) % 2;
        add(&rules, &[A, C], is_met);
        add(&rules, &[C, A], is_met);
        add(&rules, &[A, A], false);
        add(&rules, &[A], false);
        add(&rules, &[A, A, C], false);
    }
    all
}
