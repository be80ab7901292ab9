//! The model against itself: what the documents say of the definitions must hold of them.

mod common;

use std::collections::{BTreeMap, BTreeSet};

use common::explanations::{Compared, LastTables, Seen};
use common::searches::{self, Pair};
use common::words::words;
use common::{bounds, facts, repeats, rings};
use ruffarmoire_model::answers::{Answer, ExplainAnswer, Refusal};
use ruffarmoire_model::calls::{self, TableLengths};
use ruffarmoire_model::convert;
use ruffarmoire_model::explain::{explanation, Explanation, ShiftKind, Unexplained, SHIFT_KINDS};
use ruffarmoire_model::gen::{Random, Shape, SHAPES};
use ruffarmoire_model::job::{self, Job};
use ruffarmoire_model::price::{cost, rebate, total};
use ruffarmoire_model::restore::restored;
use ruffarmoire_model::ring::{started_later, turned_back};
use ruffarmoire_model::seek::seek;
use ruffarmoire_model::steps::{bound, search_with, Search};
use ruffarmoire_model::tables::{in_neg, in_pos, period, Tables};
use ruffarmoire_model::turn::{
    mirrored, turned_bytes, turned_frames, turned_job, turned_occurrences, Way, WAYS,
};

/// The steps find what occurs, by its meaning and in the ring's row, within the bound.
fn check_search(tables: &Tables, pattern: &[u8], text: &[u8]) -> Search {
    let done = search_with(tables, pattern, text);
    let context = || format!("pattern {pattern:?}, text {text:?}");
    assert_eq!(
        done.occurrences,
        convert::occurrences(pattern, text),
        "{}",
        context()
    );
    assert_eq!(
        done.occurrences,
        rings::occurrences(pattern, text),
        "{}",
        context()
    );
    check_comparisons(&done, pattern, text);
    let (n, h) = (text.len(), done.occurrences.len());
    let bound = bound(tables, n, h);
    assert!(done.comparisons.len() <= bound, "{}", context());
    assert_eq!(
        bound,
        bounds::bound_by_parts(pattern, n, h),
        "{}",
        context()
    );
    done
}

/// Each alignment is below n and has the comparisons from its own position on, each of which agrees in
/// the ring's row but for the one that is told to differ.
fn check_comparisons(done: &Search, pattern: &[u8], text: &[u8]) {
    let row = rings::row(text, pattern.len());
    let mut rest = done.comparisons.iter().peekable();
    for laid in &done.alignments {
        assert!(laid.position < text.len());
        let mut differing = None;
        while let Some(made) =
            rest.next_if(|made| made.text_position - made.pattern_position == laid.position)
        {
            assert_eq!(differing, None);
            if row[made.text_position] != pattern[made.pattern_position] {
                differing = Some(made.pattern_position);
            }
        }
        assert_eq!(differing, laid.differing);
    }
    assert_eq!(rest.next(), None);
}

/// A ring that agrees with the first one on every byte that was compared has the same comparisons in
/// the same order, the same alignments, occurrences and holds, and the same explanations. Tells whether
/// the two differ.
fn check_pair(
    random: &mut Random,
    tables: &Tables,
    pattern: &[u8],
    text: &[u8],
    few: &[u8],
) -> bool {
    let first = check_search(tables, pattern, text);
    let mut compared = vec![false; text.len()];
    for comparison in &first.comparisons {
        compared[comparison.text_position % text.len()] = true;
    }
    let often = random.between(1, 4);
    let mut other = text.to_vec();
    for position in 0..text.len() {
        if !compared[position] && random.below(often) == 0 {
            other[position] = random.pick(few);
        }
    }
    let second = check_search(tables, pattern, &other);
    assert_eq!(
        first, second,
        "pattern {pattern:?}, texts {text:?} and {other:?}"
    );
    // All positions of a short text, five of a long one.
    let n = text.len();
    for b in (0..n).rev().step_by(if n < 40 { 1 } else { n / 5 + 1 }) {
        assert_eq!(
            explanation(&first, pattern, text, b),
            explanation(&second, pattern, &other, b)
        );
    }
    let last = pattern.len() - 1;
    for hold in [0, random.between(0, last), last] {
        let marked = |text: &[u8]| -> Vec<usize> {
            let frames = convert::frames(pattern, hold, text);
            (0..text.len())
                .filter(|&position| frames[position] == convert::HOLD)
                .collect()
        };
        assert_eq!(marked(text), marked(&other));
        // Each occurrence has a hold of its own. In their order the holds go round.
        let mut holds = convert::holds(pattern, hold, text);
        assert_eq!(holds, convert::holds(pattern, hold, &other));
        holds.sort();
        assert_eq!(marked(text), holds);
    }
    other != text
}

/// The word of the given length over the first `base` bytes with this number.
fn word(number: usize, base: usize, length: usize) -> Vec<u8> {
    let mut rest = number;
    (0..length)
        .map(|_| {
            let byte = (rest % base) as u8;
            rest /= base;
            byte
        })
        .collect()
}

#[test]
fn all_short_texts_over_two_bytes() {
    let (mut met, mut met_by_long_repeats) = ([0; 6], [0; 6]);
    for m in 1..=6 {
        for pattern_number in 0..1 << m {
            let pattern = word(pattern_number, 2, m);
            let tables = Tables::of(&pattern);
            for n in 0..=11 {
                for text_number in 0..1 << n {
                    let done = check_search(&tables, &pattern, &word(text_number, 2, n));
                    let bound = bound(&tables, n, done.occurrences.len());
                    let is_met = bound > 0 && done.comparisons.len() == bound;
                    met[m - 1] += usize::from(is_met);
                    met_by_long_repeats[m - 1] += usize::from(is_met && tables.is_long_repeat());
                }
            }
        }
    }
    assert_eq!(met, bounds::MET);
    assert_eq!(met_by_long_repeats, bounds::MET_BY_LONG_REPEATS);
}

#[test]
fn all_short_texts_over_three_bytes() {
    for m in 1..=4 {
        for pattern_number in 0..3_usize.pow(m) {
            let pattern = word(pattern_number, 3, m as usize);
            let tables = Tables::of(&pattern);
            for n in 0..=7 {
                for text_number in 0..3_usize.pow(n) {
                    check_search(&tables, &pattern, &word(text_number, 3, n as usize));
                }
            }
        }
    }
}

#[test]
fn short_searches_and_their_pairs() {
    let mut random = Random::seeded(1);
    let mut different = 0;
    for round in 0..6_000 {
        let m = random.between(1, 9);
        let n = random.between(0, 40);
        let (pattern, text) = SHAPES[round % SHAPES.len()].pattern_and_text(&mut random, m, n);
        let mut few: Vec<u8> = pattern.iter().chain(&text).copied().collect();
        few.push(random.byte());
        let tables = Tables::of(&pattern);
        different += usize::from(check_pair(&mut random, &tables, &pattern, &text, &few));
    }
    assert!(different > 2_000, "only {different} pairs differed");
}

#[test]
fn longer_searches_and_their_pairs() {
    let mut random = Random::seeded(2);
    let mut different = 0;
    for round in 0..300 {
        let m = random.between(1, 128);
        let n = random.between(0, 600);
        let (pattern, text) = SHAPES[round % SHAPES.len()].pattern_and_text(&mut random, m, n);
        let mut few = pattern.clone();
        few.push(random.byte());
        let tables = Tables::of(&pattern);
        different += usize::from(check_pair(&mut random, &tables, &pattern, &text, &few));
    }
    assert!(different > 150, "only {different} pairs differed");
}

#[test]
fn largest_searches() {
    let mut random = Random::seeded(3);
    for shape in SHAPES {
        for m in [1, 2, 127, 128] {
            let (pattern, text) = shape.pattern_and_text(&mut random, m, 16_384);
            check_search(&Tables::of(&pattern), &pattern, &text);
        }
    }
}

/// Every pattern of up to 8 bytes over two, and longer ones, in texts with an occurrence just as far on
/// as a shift goes; and texts that differ from these only where nothing was compared.
#[test]
fn occurrences_as_far_on_as_each_shift_and_their_pairs() {
    let mut random = Random::seeded(14);
    let mut different = 0;
    for pattern in words(&[0, 1], 1..9).chain(facts::patterns()) {
        let tables = Tables::of(&pattern);
        let few = facts::bytes_and_another(&pattern);
        for text in facts::texts_of_shifts(&tables, &pattern) {
            different += usize::from(check_pair(&mut random, &tables, &pattern, &text, &few));
        }
    }
    assert!(different > 25_000, "only {different} pairs differed");
}

/// Of one byte throughout, two bytes are compared whole at every alignment, and meet the bound. From
/// three on, each position is compared once, as far as the last alignment goes.
#[test]
fn comparisons_of_one_byte_throughout() {
    for m in [2, 3, 5, 128] {
        for n in [1, 2, 127, 128, 300] {
            let (pattern, text) = (vec![7; m], vec![7; n]);
            let tables = Tables::of(&pattern);
            let done = check_search(&tables, &pattern, &text);
            assert!(done.occurrences.iter().copied().eq(0..n));
            if m == 2 {
                assert_eq!(done.comparisons.len(), bound(&tables, n, n));
            } else {
                let positions = done.comparisons.iter().map(|made| made.text_position);
                let compared: BTreeSet<usize> = positions.collect();
                assert!(compared.into_iter().eq(0..n + m - 1));
                assert_eq!(done.comparisons.len(), n + m - 1);
            }
        }
    }
}

/// Rings of every length up to three times the pattern's, shorter ones, nets and the largest: the steps
/// find what occurs within the bound, and a ring that differs only where nothing was compared has the
/// same.
#[test]
fn rings_and_their_pairs() {
    let mut random = Random::seeded(17);
    let mut different = 0;
    let mut tables = LastTables::default();
    let all = rings::short()
        .chain(rings::longer())
        .chain(rings::largest());
    for (pattern, text) in all {
        let mut few = pattern.clone();
        few.push(random.byte());
        let tables = tables.of(&pattern);
        different += usize::from(check_pair(&mut random, tables, &pattern, &text, &few));
    }
    assert!(different > 400, "only {different} pairs differed");
    for (pattern, texts) in rings::families() {
        let tables = Tables::of(&pattern);
        for text in texts {
            check_search(&tables, &pattern, &text);
        }
    }
}

/// Runs of a period broken anywhere, copies that share their ends, and the largest: the steps find
/// what occurs within the bound, and a text that differs only where nothing was compared has the same.
#[test]
fn long_repeats_and_their_pairs() {
    let mut random = Random::seeded(13);
    let mut different = 0;
    let texts = repeats::broken()
        .chain(repeats::copies())
        .chain(repeats::mixed());
    for (pattern, text) in texts.chain(repeats::largest()) {
        let tables = Tables::of(&pattern);
        let mut few = pattern.clone();
        few.push(random.byte());
        different += usize::from(check_pair(&mut random, &tables, &pattern, &text, &few));
    }
    assert!(different > 700, "only {different} pairs differed");
}

/// Every long repeat of up to 11 bytes over two, followed by anything short.
#[test]
fn long_repeats_with_any_end() {
    for pattern in repeats::all_short() {
        let tables = Tables::of(&pattern);
        for text in repeats::with_any_end(&pattern) {
            check_search(&tables, &pattern, &text);
        }
    }
}

#[test]
fn tables_are_well_formed() {
    let mut random = Random::seeded(4);
    for round in 0..400 {
        let m = if round % 8 == 0 {
            128
        } else {
            random.between(1, 24)
        };
        let (pattern, _) = SHAPES[round % SHAPES.len()].pattern_and_text(&mut random, m, 0);
        let tables = Tables::of(&pattern);

        // The order has each position once, with m - 1 in front and -1 at the end.
        assert_eq!(tables.order.len(), m + 1);
        assert_eq!(tables.order[0], m as i16 - 1);
        let mut sorted = tables.order.clone();
        sorted.sort();
        let positions: Vec<i16> = (-1..m as i16).collect();
        assert_eq!(sorted, positions);

        // Every shift is from 1 to m.
        assert_eq!(tables.delta2.len(), m + 1);
        assert_eq!(tables.delta2[0], 0);
        assert!(tables.delta2[1..].iter().all(|k| (1..=m).contains(k)));
        assert_eq!(tables.delta2[m], tables.period);
        assert_eq!(tables.delta1.len(), 256 * m);
        assert!(tables.delta1.iter().all(|k| (1..=m).contains(k)));

        // The period is what is left of the pattern before its longest border.
        let border = (0..m).rev().find(|&b| pattern[..b] == pattern[m - b..]);
        assert_eq!(tables.period, m - border.unwrap());
        let by_h_min = (1..=m).find(|&k| tables.h_min[k] == k - 1);
        assert_eq!(tables.period, by_h_min.unwrap());

        // Where h_min(k) is at least k, the byte k positions lower differs there and nowhere above.
        for k in 1..=m {
            let h = tables.h_min[k];
            assert!((k - 1..m).contains(&h));
            assert!((h + 1..m).all(|j| j < k || pattern[j - k] == pattern[j]));
            assert!(h < k || pattern[h - k] != pattern[h]);
        }

        // Entries that no definition fills stay 0.
        assert_eq!(tables.h_min[0], 0);
        assert!(tables.h_min[m + 1..].iter().all(|&h| h == 0));
        assert!(tables.k_min[m..].iter().all(|&k| k == 0));
    }
}

#[test]
fn sets_split_the_positions() {
    let pattern = [1, 2, 1, 1, 3];
    for c in 0..5 {
        for i in -1..5 {
            for k in 0..8 {
                let within = k as isize <= i;
                let (pos, neg) = (in_pos(&pattern, c, i, k), in_neg(&pattern, c, i, k));
                assert_eq!(pos || neg, within);
                assert!(!(pos && neg));
            }
        }
    }
    assert_eq!(period(&pattern), 5);
}

#[test]
fn frames_hold_at_each_occurrence() {
    let mut random = Random::seeded(5);
    for round in 0..1_000 {
        let (m, n) = (random.between(1, 6), random.between(0, 30));
        let job = SHAPES[round % SHAPES.len()].job(&mut random, m, n);
        let frames = convert::frames(&job.pattern, job.hold, &job.text);
        let found = rings::occurrences(&job.pattern, &job.text);
        let holds: Vec<usize> = found.iter().map(|b| (b + job.hold) % n).collect();
        assert_eq!(convert::holds(&job.pattern, job.hold, &job.text), holds);
        let expected: Vec<u16> = (0..n)
            .map(|position| match holds.contains(&position) {
                true => 256,
                false => u16::from(job.text[position]),
            })
            .collect();
        assert_eq!(frames, expected);
        assert_eq!(
            convert::ones(&job.text),
            job.text.iter().map(|byte| byte.count_ones()).sum::<u32>()
        );
    }
}

#[test]
fn calls_agree_with_seek() {
    let mut random = Random::seeded(6);
    for round in 0..400 {
        let (m, n) = (random.between(1, 12), random.between(0, 60));
        let job = SHAPES[round % SHAPES.len()].job(&mut random, m, n);
        let lengths = TableLengths::needed(m);
        let hold = job.hold as u32;
        let converted = calls::convert(hold, &job.pattern, &job.text, lengths, n, n);
        let searched = calls::search(&job.pattern, &job.text, lengths, n);
        let prepared = calls::prepare(&job.pattern, lengths);
        let counted = calls::count_ones(&job.text);
        let answer = converted.answer;
        let (ones, period) = (answer.ones, answer.period);
        let none = Answer::default();
        assert_eq!(answer.status, 0);
        assert_eq!(searched.answer, Answer { ones: 0, ..answer });
        assert_eq!(prepared.answer, Answer { period, ..none });
        assert_eq!(counted, Answer { ones, ..none });
        assert_eq!(converted.occurrences, searched.occurrences);
        assert_eq!(
            (&prepared.order, &prepared.delta1, &prepared.delta2),
            (&converted.order, &converted.delta1, &converted.delta2)
        );
        assert_eq!(prepared.delta3, converted.delta3);

        let printed = seek(&job::write(&job));
        let lines: Vec<usize> = printed
            .lines()
            .map(|line| usize::from_str_radix(line, 16).unwrap())
            .collect();
        let h = converted.occurrences.len();
        assert_eq!(lines.len(), 5 + h + n);
        assert_eq!(lines[0], h);
        let numbers = [answer.comparisons, ones, period, answer.bound];
        assert_eq!(lines[1..5], numbers.map(|number| number as usize));
        assert_eq!(lines[5..5 + h], converted.occurrences);
        let frames: Vec<usize> = converted.frames.iter().map(|&f| f.into()).collect();
        assert_eq!(lines[5 + h..], frames);
    }
}

#[test]
fn job_files_round_trip() {
    let mut random = Random::seeded(7);
    for round in 0..300 {
        let (m, n) = (random.between(1, 128), random.between(0, 200));
        let job = SHAPES[round % SHAPES.len()].job(&mut random, m, n);
        let file = job::write(&job);
        assert_eq!(file.len(), job::file_length(m, n));
        assert_eq!(job::read(&file), Ok(job));
    }
    let largest = Shape::AnyBytes.job(&mut random, 128, 16_384);
    let file = job::write(&largest);
    assert_eq!(file.len(), 49_547);
    assert_eq!(job::read(&file), Ok(largest));
}

/// A file that is taken is the one that its job is written as.
#[test]
fn taken_files_are_written_files() {
    let mut random = Random::seeded(8);
    let mut taken = 0;
    for _ in 0..60_000 {
        let mut file = job::write(&Shape::AnyBytes.job(&mut random, 2, 1));
        let position = random.below(file.len());
        file[position] = random.pick(b"0129AFag\n\r ");
        match job::read(&file) {
            Ok(job) => {
                taken += 1;
                assert_eq!(job::write(&job), file);
            }
            Err(refusal) => assert_ne!(refusal, Refusal::ShortBuffer),
        }
    }
    assert!(taken > 1_000);
}

#[test]
fn bytes_are_mirrored() {
    for byte in 0..=255_u8 {
        assert_eq!(mirrored(byte), byte.reverse_bits());
        assert_eq!(mirrored(mirrored(byte)), byte);
        assert_eq!(convert::ones(&[mirrored(byte)]), convert::ones(&[byte]));
    }
    assert_eq!(
        [0x06, 0x18, 0x01, 0x0B].map(mirrored),
        [0x60, 0x18, 0x80, 0xD0]
    );
}

#[test]
fn ways_are_numbered() {
    for (number, way) in WAYS.into_iter().enumerate() {
        assert_eq!(Way::numbered(number as u32), Ok(way));
    }
    for number in [4, 5, 255, 256, u32::MAX] {
        assert_eq!(Way::numbered(number), Err(Refusal::Way));
    }
    let bytes = [0x06, 0x01, 0x18];
    let turned = WAYS.map(|way| turned_bytes(way, &bytes));
    assert_eq!(
        turned,
        [
            [0x06, 0x01, 0x18],
            [0x60, 0x80, 0x18],
            [0x18, 0x01, 0x06],
            [0x18, 0x80, 0x60]
        ]
    );
}

/// The same turn twice gives the job back, the byte at the hold offset stays there, and the
/// occurrences, the frames and the ones are those of the job, turned.
fn check_turned(job: &Job) {
    let (m, n) = (job.pattern.len(), job.text.len());
    let found = convert::occurrences(&job.pattern, &job.text);
    let frames = convert::frames(&job.pattern, job.hold, &job.text);
    for way in WAYS {
        let turned = turned_job(way, job);
        assert_eq!(turned_job(way, &turned), *job);
        assert_eq!(
            [turned.pattern[turned.hold]],
            *turned_bytes(way, &[job.pattern[job.hold]])
        );
        assert_eq!(
            convert::occurrences(&turned.pattern, &turned.text),
            turned_occurrences(way, &found, m, n)
        );
        assert_eq!(
            convert::frames(&turned.pattern, turned.hold, &turned.text),
            turned_frames(way, &frames)
        );
        assert_eq!(convert::ones(&turned.text), convert::ones(&job.text));
    }
}

#[test]
fn all_short_jobs_turned() {
    for m in 1..=4 {
        for pattern_number in 0..1 << m {
            for n in 0..=8 {
                for text_number in 0..1 << n {
                    for hold in 0..m {
                        check_turned(&Job {
                            pattern: word(pattern_number, 2, m),
                            hold,
                            text: word(text_number, 2, n),
                        });
                    }
                }
            }
        }
    }
}

#[test]
fn rings_turned() {
    let all = rings::short().chain(rings::longer());
    for (round, (pattern, text)) in all.enumerate() {
        let hold = round % pattern.len();
        check_turned(&Job {
            pattern,
            hold,
            text,
        });
    }
}

#[test]
fn jobs_turned() {
    let mut random = Random::seeded(9);
    for round in 0..1_200 {
        let (most_m, most_n) = if round % 4 == 0 { (128, 600) } else { (9, 40) };
        let (m, n) = (random.between(1, most_m), random.between(0, most_n));
        check_turned(&SHAPES[round % SHAPES.len()].job(&mut random, m, n));
    }
    check_turned(&Shape::Planted.job(&mut random, 128, 16_384));
}

/// Started at each of its bytes, and after the last, a ring has the same occurrences, turned back and again
/// ascending, the same frames started there and the same ones, and the comparisons keep the bound. Gives
/// whether their number differs anywhere.
fn check_started_later(tables: &Tables, job: &Job) -> bool {
    let n = job.text.len();
    let done = search_with(tables, &job.pattern, &job.text);
    let frames = convert::frames(&job.pattern, job.hold, &job.text);
    let mut differ = false;
    for r in 0..=n {
        let text = started_later(&job.text, r);
        let there = check_search(tables, &job.pattern, &text);
        assert_eq!(there.occurrences, turned_back(&done.occurrences, n, r));
        assert_eq!(
            convert::frames(&job.pattern, job.hold, &text),
            started_later(&frames, r)
        );
        assert_eq!(convert::ones(&text), convert::ones(&job.text));
        differ |= there.comparisons.len() != done.comparisons.len();
    }
    differ
}

#[test]
fn rings_started_at_every_byte() {
    let mut tables = LastTables::default();
    let mut different = 0;
    let all = searches::all_short()
        .chain(searches::short())
        .chain(rings::short().step_by(3));
    for (round, (pattern, text)) in all.enumerate() {
        let job = Job {
            hold: round % pattern.len(),
            pattern,
            text,
        };
        different += usize::from(check_started_later(tables.of(&job.pattern), &job));
    }
    assert!(
        different > 10_000,
        "only {different} rings had other counts"
    );
}

/// Frames over three bytes and the hold are put back just where some text over these bytes converts
/// to them, and then to that text. The pattern is over two of the bytes.
fn check_restored(pattern: &[u8], hold: usize, n: usize) {
    let mut texts = BTreeMap::new();
    for number in 0..3_usize.pow(n as u32) {
        let text = word(number, 3, n);
        texts.insert(convert::frames(pattern, hold, &text), text);
    }
    for number in 0..4_usize.pow(n as u32) {
        let frames: Vec<u16> = word(number, 4, n)
            .into_iter()
            .map(|letter| match letter {
                3 => convert::HOLD,
                byte => byte.into(),
            })
            .collect();
        let expected = texts.get(&frames).cloned().ok_or(Refusal::NoConversion);
        assert_eq!(restored(pattern, hold, &frames), expected);
    }
}

#[test]
fn all_short_frames_restored() {
    for m in 1..=4 {
        for pattern_number in 0..1 << m {
            for hold in 0..m {
                for n in 0..=6 {
                    check_restored(&word(pattern_number, 2, m), hold, n);
                }
            }
        }
    }
}

/// A text that is converted and put back is what it was.
#[test]
fn conversions_restored() {
    let mut random = Random::seeded(10);
    for round in 0..1_200 {
        let (most_m, most_n) = if round % 4 == 0 { (128, 600) } else { (9, 40) };
        let (m, n) = (random.between(1, most_m), random.between(0, most_n));
        let job = SHAPES[round % SHAPES.len()].job(&mut random, m, n);
        let frames = convert::frames(&job.pattern, job.hold, &job.text);
        assert_eq!(restored(&job.pattern, job.hold, &frames), Ok(job.text));
    }
    let all = rings::short().chain(rings::longer());
    for (round, (pattern, text)) in all.enumerate() {
        let hold = round % pattern.len();
        let frames = convert::frames(&pattern, hold, &text);
        assert_eq!(restored(&pattern, hold, &frames), Ok(text));
    }
}

/// Before the rebate a job costs what its bytes cost without holds, and 40 for each occurrence, with
/// any hold offset.
fn check_total(pattern: &[u8], text: &[u8]) {
    let moves: Vec<u16> = text.iter().map(|&byte| byte.into()).collect();
    let holds = convert::occurrences(pattern, text).len() as u32;
    let expected = total(text, &moves) + 40 * holds;
    for hold in 0..pattern.len() {
        let frames = convert::frames(pattern, hold, text);
        assert_eq!(total(text, &frames), expected, "{pattern:?}, {text:?}");
    }
}

#[test]
fn totals_by_occurrences() {
    for m in 1..=4 {
        for pattern_number in 0..1 << m {
            for n in 0..=8 {
                for text_number in 0..1 << n {
                    check_total(&word(pattern_number, 2, m), &word(text_number, 2, n));
                }
            }
        }
    }
    let mut random = Random::seeded(11);
    for round in 0..600 {
        let (most_m, most_n) = if round % 8 == 0 { (128, 600) } else { (9, 40) };
        let (m, n) = (random.between(1, most_m), random.between(0, most_n));
        let (pattern, text) = SHAPES[round % SHAPES.len()].pattern_and_text(&mut random, m, n);
        check_total(&pattern, &text);
    }
    let (pattern, text) = Shape::Planted.pattern_and_text(&mut random, 5, 16_384);
    check_total(&pattern, &text);
    for (pattern, text) in rings::short() {
        check_total(&pattern, &text);
    }
}

/// The rebate is the most whole pence that are no more than 5 in 100, for every total that there can
/// be.
#[test]
fn rebates() {
    for total in 0..=55 * 16_384 {
        for n in [0, 1, 4_095, 4_096] {
            assert_eq!(rebate(n, total), 0);
        }
        for n in [4_097, 16_384] {
            let rebate = rebate(n, total);
            assert!(100 * rebate <= 5 * total && 5 * total < 100 * (rebate + 1));
        }
    }
}

/// Of the job's total the rebate comes off, and only that.
#[test]
fn costs_with_and_without_a_rebate() {
    let mut random = Random::seeded(12);
    for shape in SHAPES {
        for n in [0, 1, 4_095, 4_096, 4_097, 16_384] {
            let job = shape.job(&mut random, 3, n);
            let frames = convert::frames(&job.pattern, job.hold, &job.text);
            let total = total(&job.text, &frames);
            let expected = if n <= 4_096 {
                total
            } else {
                total - total / 20
            };
            assert_eq!(cost(&job.text, &frames), expected);
            let lengths = TableLengths::needed(3);
            let priced = calls::price(job.hold as u32, &job.pattern, &job.text, lengths, n);
            assert_eq!(priced.answer.pence, expected);
        }
    }
}

/// The model's explanation of every position of some texts, held to what it means.
fn check_explanations(pairs: impl Iterator<Item = Pair>) -> Seen {
    let mut seen = Seen::default();
    let mut tables = LastTables::default();
    for (pattern, text) in pairs {
        let done = search_with(tables.of(&pattern), &pattern, &text);
        let compared = Compared::of(&pattern, &text, &done.comparisons);
        for b in 0..compared.positions() {
            let told = explanation(&done, &pattern, &text, b);
            seen.add(compared.check(b, told));
        }
    }
    seen
}

/// Every pattern of up to 6 bytes with every text of up to 11 over two, and of up to 4 with up to 7 over
/// three.
#[test]
fn explanations_of_all_short_texts() {
    fn all(
        bytes: &'static [u8],
        most_m: usize,
        most_n: usize,
    ) -> impl Iterator<Item = Pair> + 'static {
        words(bytes, 1..most_m + 1).flat_map(move |pattern| {
            words(bytes, 0..most_n + 1).map(move |text| (pattern.clone(), text))
        })
    }
    check_explanations(all(&[0, 1], 6, 11));
    check_explanations(all(&[0, 1, 2], 4, 7));
}

#[test]
fn explanations_of_generated_texts() {
    let texts = searches::short()
        .chain(searches::longer())
        .chain(searches::structured())
        .chain(searches::about_as_long());
    check_explanations(texts).expect_every_case(10);
    let mut random = Random::seeded(15);
    let over = |random: &mut Random, bytes: usize, length: usize| -> Vec<u8> {
        (0..length).map(|_| random.below(bytes) as u8).collect()
    };
    let short = (0..20_000).map(|round| {
        let bytes = [1, 2, 3, 4, 256][round % 5];
        let (m, n) = (random.between(1, 10), random.between(0, 50));
        (over(&mut random, bytes, m), over(&mut random, bytes, n))
    });
    check_explanations(short);
}

/// Rings of every length up to three times the pattern's, shorter ones, and nets.
#[test]
fn explanations_of_rings() {
    check_explanations(rings::short()).expect_every_case(30);
    check_explanations(rings::longer());
    check_explanations(rings::largest().step_by(3));
}

/// Runs of a period broken at every position, with any end, and mixed.
#[test]
fn explanations_of_long_repeats() {
    check_explanations(repeats::short_broken()).expect_every_case(30);
    check_explanations(repeats::mixed()).expect_every_case(30);
    let with_ends = repeats::all_short().flat_map(|pattern| {
        let texts: Vec<Pair> = repeats::with_any_end(&pattern)
            .step_by(5)
            .map(|text| (pattern.clone(), text))
            .collect();
        texts
    });
    check_explanations(with_ends);
}

#[test]
fn explanations_of_largest_texts() {
    let mut random = Random::seeded(16);
    let texts = [
        (random.bytes(128), random.bytes(16_384)),
        (random.picked(&[6, 24], 16), random.picked(&[6, 24], 16_384)),
        repeats::run_with_breaks(&mut random, 5, 128),
        (vec![7; 128], vec![7; 16_384]),
    ];
    check_explanations(texts.into_iter());
}

/// What the call answers has the numbers of the explanation beside zeros, and it leaves the tables of
/// preparing.
#[test]
fn explanations_in_answers() {
    for (pattern, text) in searches::short().step_by(8) {
        let lengths = TableLengths::needed(pattern.len());
        let prepared = calls::prepare(&pattern, lengths);
        let done = search_with(&Tables::of(&pattern), &pattern, &text);
        for b in 0..=text.len() {
            let outcome = calls::explain(b as u32, &pattern, &text, lengths);
            if b == text.len() {
                assert_eq!(outcome.answer, Refusal::Position.into());
                assert_eq!(outcome.left, Refusal::Position.into());
                continue;
            }
            let told = explanation(&done, &pattern, &text, b);
            assert_eq!(Explanation::try_from(outcome.answer), Ok(told));
            assert_eq!(outcome.left.answer, Answer::default());
            assert_eq!(outcome.left.order, prepared.order);
            assert_eq!(outcome.left.delta1, prepared.delta1);
            assert_eq!(outcome.left.delta2, prepared.delta2);
            assert_eq!(outcome.left.delta3, prepared.delta3);
        }
    }
}

/// Listed, and the others with every kind and with positions up to 3.
fn some_explanations() -> Vec<Explanation> {
    let mut explanations = vec![Explanation::Listed];
    for place in 0..4 {
        explanations.push(Explanation::Tried { place });
        for from in 0..4 {
            for kind in SHIFT_KINDS {
                explanations.push(Explanation::PassedOver { from, place, kind });
            }
        }
    }
    explanations
}

/// Answers that have any numbers as their explanation, right or not.
fn any_answers() -> impl Iterator<Item = ExplainAnswer> {
    words(&[0, 1, 2, 3, 4, 5, 7, u32::MAX], 4..5).map(|numbers| ExplainAnswer {
        answer: Answer::default(),
        outcome: numbers[0],
        place: numbers[1],
        from: numbers[2],
        kind: numbers[3],
    })
}

#[test]
fn numbers_of_kinds() {
    let numbers = SHIFT_KINDS.map(|kind| (kind, kind.number()));
    assert_eq!(
        numbers,
        [
            (ShiftKind::LastByte, 1),
            (ShiftKind::Order, 2),
            (ShiftKind::AfterOccurrence, 3),
            (ShiftKind::LongRepeat, 4),
        ]
    );
}

/// Each explanation has numbers of its own, and no other numbers are those of an explanation.
#[test]
fn numbers_of_explanations() {
    let mut answers = Vec::new();
    for told in some_explanations() {
        let answer = ExplainAnswer::from(told);
        assert_eq!(answer.answer, Answer::default());
        assert_eq!(Explanation::try_from(answer), Ok(told));
        answers.push(answer);
    }
    for answer in any_answers() {
        match Explanation::try_from(answer) {
            Ok(told) => assert_eq!(ExplainAnswer::from(told), answer),
            Err(unexplained) => {
                assert_eq!(unexplained, Unexplained::NoExplanation);
                assert!(!answers.contains(&answer));
            }
        }
    }
}

/// Refused, whatever stands beside the status; and with a number where none is told.
#[test]
fn answers_without_an_explanation() {
    for answer in any_answers() {
        for status in [1, 4, 6, 7, 10, u32::MAX] {
            let mut refused = answer;
            refused.answer.status = status;
            let unexplained = Err(Unexplained::Refused(status));
            assert_eq!(Explanation::try_from(refused), unexplained);
        }
        let mut counted = answer;
        counted.answer.comparisons = 1;
        let unexplained = Err(Unexplained::NoExplanation);
        assert_eq!(Explanation::try_from(counted), unexplained);
    }
}
