//! Everything that is asked of restoring a text with a table of rules, for any implementation of the
//! call. Each call is held to the model: its whole answer, every entry of the buffer, and the table. Both
//! round trips with converting are asked of the implementation's own calls.

use std::collections::{BTreeMap, BTreeSet};

use ruffarmoire_model::answers::Answer;
use ruffarmoire_model::calls::RestoreOutcome;
use ruffarmoire_model::gen::Random;
use ruffarmoire_model::rule_calls;
use ruffarmoire_model::rules::{Rule, TableBytes};

use super::harness::{expect_front, reserved, shown, Buffer};
use super::repeats::FOREIGN;
use super::restore_suite::RestoreCalls;
use super::rule_tables::{self, are_apart, claims, rule, table_of, Job};
use super::rules_suite::{converted, RulesCalls};
use super::searches;
use super::words::words;

const A: u8 = 0x06;
const B: u8 = 0x01;
const C: u8 = 0x18;

/// A test program's tests: all of this module on one implementation, which also restores with one pattern.
macro_rules! restore_rules_suite {
    ($calls:ty) => {
        tests_of!(restore_rules_suite, $calls:
            worked_examples,
            conversions_of_generated_texts,
            largest_conversions,
            every_number_as_a_frame,
            all_short_frames,
            done_just_where_some_text_converts,
            claimed_twice_is_no_conversion,
            conversions_with_one_frame_changed,
            buffers_around_the_needed_length,
            refusals_at_their_edges,
            order_of_refusals,
            buffer_left_by_another_call,
            lengths_beyond_32_bits,
            converted_and_restored,
            restored_and_converted,
            one_rule_beside_one_pattern,
        );
    };
}

/// Makes a call with a buffer of this length and holds what comes of it to the model.
fn check<T: RulesCalls>(table: &TableBytes, frames: &[u16], length: usize) -> RestoreOutcome {
    let expected = rule_calls::restore_rules(table, frames, length);
    let context = || {
        let rules = &table[..130 * usize::from(table[0].min(4)) + 1];
        let front = &frames[..frames.len().min(100)];
        format!("{rules:X?}, frames {front:X?}, a buffer of {length}")
    };
    let before = *table;
    // Two fillings of the buffer: an entry that is left by chance as it should be is seen in one.
    for seed in [frames.len(), frames.len() + 101] {
        let filled = Buffer::junk(length, seed);
        let mut text = filled.clone();
        let answer = T::restore_rules(table, frames, text.lent());
        assert_eq!(answer, expected.answer, "{}", context());
        assert!(*table == before, "the table: {}", context());
        text.expect(&filled.after(&expected.text), "text", &context);
    }
    expected
}

/// The status of a call with the buffer that it needs.
fn status<T: RulesCalls>(rules: &[Rule], frames: &[u16]) -> u32 {
    let table = table_of(rules, frames.len() as u64);
    check::<T>(&table, frames, frames.len()).answer.status
}

/// The text that a call gives for frames within the limits, or its refusal.
fn restored<T: RulesCalls>(rules: &[Rule], frames: &[u16]) -> Result<Vec<u8>, Answer> {
    let mut text = vec![0; frames.len()];
    match T::restore_rules(&table_of(rules, 1), frames, &mut text) {
        answer if answer == Answer::default() => Ok(text),
        answer => Err(answer),
    }
}

/// The answer for frames that are no conversion.
fn no_conversion() -> Answer {
    Answer {
        status: 9,
        ..Answer::default()
    }
}

/// The frames of a text in which no byte is claimed twice.
fn frames_of(Job { rules, text }: &Job) -> Vec<u16> {
    let mut frames: Vec<u16> = text.iter().map(|&byte| byte.into()).collect();
    for (own, number) in rules.iter().zip(1..) {
        for position in claims(own, text) {
            frames[position] = 256 * number;
        }
    }
    frames
}

/// Jobs of all kinds in which no byte is claimed twice.
fn taken() -> impl Iterator<Item = Job> {
    let by_hand = rule_tables::by_hand().into_iter().map(|(job, _)| job);
    let all = rule_tables::short()
        .chain(by_hand)
        .chain(rule_tables::longer());
    all.filter(|job| are_apart(&job.rules, &job.text))
        .chain([rule_tables::net(16, 1_024, 9)])
}

pub fn worked_examples<T: RulesCalls>() {
    let rules = [rule(&[A, A, C, A, A], 2), rule(&[A, A, A], 1)];
    let listing = [A, A, C, A, A, A, C, A, A];
    let frames = [512, 6, 256, 6, 512, 6, 256, 6, 512];
    assert_eq!(restored::<T>(&rules, &frames), Ok(listing.to_vec()));
    // A hold of the wrong rule, of no rule, a hold too many, an occurrence without its hold, and a
    // number that is no frame.
    for (position, frame) in [
        (2, 512),
        (0, 256),
        (2, 768),
        (2, 4_096),
        (1, 256),
        (1, 512),
        (2, 0x18),
        (0, 6),
        (2, 257),
        (0, 513),
        (0, u16::MAX),
    ] {
        let mut other = frames;
        other[position] = frame;
        assert_eq!(restored::<T>(&rules, &other), Err(no_conversion()));
        assert_eq!(status::<T>(&rules, &other), 9);
    }
    // One rule takes 256 alone, two rules 512 too.
    assert_eq!(
        restored::<T>(&[rule(&[A], 0)], &[512]),
        Err(no_conversion())
    );
    let two = [rule(&[A], 0), rule(&[C], 0)];
    assert_eq!(restored::<T>(&two, &[512, 256, 1]), Ok(vec![C, A, B]));
    assert_eq!(restored::<T>(&two, &[768]), Err(no_conversion()));
    // Both would claim the byte.
    let equal = [rule(&[A], 0), rule(&[A, A], 0)];
    for frame in [6, 256, 512] {
        assert_eq!(restored::<T>(&equal, &[frame]), Err(no_conversion()));
    }
    assert_eq!(restored::<T>(&equal, &[0x18]), Ok(vec![C]));
    assert_eq!(restored::<T>(&equal, &[256, 0x18]), Ok(vec![A, C]));
    assert_eq!(restored::<T>(&equal, &[]), Ok(vec![]));
}

/// Exact, longer and too short buffers.
pub fn conversions_of_generated_texts<T: RulesCalls>() {
    for job in taken() {
        let (frames, n) = (frames_of(&job), job.text.len());
        let table = table_of(&job.rules, 2);
        for length in [n, n + 1, 2 * n + 20] {
            let outcome = check::<T>(&table, &frames, length);
            assert_eq!(outcome.answer, Answer::default());
            assert_eq!(outcome.text, job.text);
        }
        for length in [n.saturating_sub(1), n / 2, 0] {
            if length < n {
                assert_eq!(check::<T>(&table, &frames, length).answer.status, 7);
            }
        }
    }
}

pub fn largest_conversions<T: RulesCalls>() {
    let mut random = Random::seeded(171);
    for (job, status_of_converting) in rule_tables::largest() {
        let mut frames = frames_of(&job);
        let expected = if status_of_converting == 0 { 0 } else { 9 };
        assert_eq!(status::<T>(&job.rules, &frames), expected);
        let held: Vec<usize> = (0..frames.len()).filter(|&x| frames[x] >= 256).collect();
        for position in [0, 16_383, random.pick(&held), random.below(16_384)] {
            let frame = frames[position];
            for other in [256, 512, 4_096, 4_352, u16::from(job.text[position])] {
                frames[position] = other;
                status::<T>(&job.rules, &frames);
            }
            frames[position] = frame;
        }
    }
}

/// Where a hold is due, only that of its rule or another byte is taken; where none is, any byte that lets
/// no rule occur. Nothing else above 255 is taken.
pub fn every_number_as_a_frame<T: RulesCalls>() {
    let three = [rule(&[A, C], 0), rule(&[C, C], 1), rule(&[B, B, B], 1)];
    for frame in 0..=u16::MAX {
        let expect = |frames: &[u16], taken: bool| {
            let outcome = restored::<T>(&three, frames);
            assert_eq!(outcome.is_ok(), taken, "{frames:?}");
            assert!(taken || outcome == Err(no_conversion()));
        };
        let is_move = frame < 256;
        let is = |byte: u8| frame == u16::from(byte);
        expect(
            &[frame, 0x18, 0xE7],
            is_move && !is(A) && !is(C) || frame == 256,
        );
        expect(&[0x18, frame, 0xE7], is_move && !is(C) || frame == 512);
        expect(
            &[frame],
            is_move && !is(C) && !is(B) || frame == 512 || frame == 768,
        );
        expect(&[0xE7, frame, 0xE7], is_move);
    }
    // With 16 rules each multiple of 256 up to 4,096 names one.
    let many: Vec<Rule> = (0..16).map(|byte| rule(&[byte], 0)).collect();
    for frame in 0..=u16::MAX {
        let expected = match frame {
            16..256 => Ok(vec![frame as u8]),
            256..=4_096 if frame % 256 == 0 => Ok(vec![(frame / 256 - 1) as u8]),
            _ => Err(no_conversion()),
        };
        assert_eq!(restored::<T>(&many, &[frame]), expected, "frame {frame}");
    }
}

/// Every two short rules over two bytes, and frames over some numbers.
pub fn all_short_frames<T: RulesCalls>() {
    let numbers = [6, 0x18, 256, 512, 768, 257];
    let mut seen = BTreeSet::new();
    let all: Vec<Rule> = words(&[A, C], 1..3)
        .flat_map(|pattern| (0..pattern.len()).map(move |hold| rule(&pattern, hold)))
        .collect();
    for first in &all {
        for second in &all {
            let rules = [first.clone(), second.clone()];
            for frames in words(&numbers, 0..5) {
                seen.insert(status::<T>(&rules, &frames));
            }
        }
    }
    assert!(seen.iter().eq(&[0, 9]), "{seen:?}");
}

/// Done, with the text that converts to the frames, where there is one in which no byte is claimed twice;
/// refused by 9 where there is none. All texts over three bytes are converted, of which the patterns have
/// two. A text with another byte converts to frames with another move.
pub fn done_just_where_some_text_converts<T: RulesCalls>() {
    let all: Vec<Rule> = words(&[A, C], 1..4)
        .flat_map(|pattern| (0..pattern.len()).map(move |hold| rule(&pattern, hold)))
        .collect();
    for (round, first) in all.iter().enumerate() {
        for second in all.iter().skip(round % 3).step_by(3) {
            let rules = vec![first.clone(), second.clone()];
            for n in 0..5 {
                let mut texts = BTreeMap::new();
                for text in words(&[A, B, C], n..n + 1) {
                    let rules = rules.clone();
                    let job = Job { rules, text };
                    if are_apart(&job.rules, &job.text) {
                        let other = texts.insert(frames_of(&job), job.text);
                        assert_eq!(other, None, "no two texts have the same frames");
                    }
                }
                for frames in words(&[6, 1, 0x18, 256, 512], n..n + 1) {
                    let expected = texts.get(&frames).cloned().ok_or(no_conversion());
                    let outcome = restored::<T>(&rules, &frames);
                    assert_eq!(outcome, expected, "{rules:?}, {frames:?}");
                }
            }
        }
    }
}

/// Frames of a text in which a byte is claimed twice are refused, whichever rule they name there.
pub fn claimed_twice_is_no_conversion<T: RulesCalls>() {
    let mut times = 0;
    let by_hand = rule_tables::by_hand().into_iter().map(|(job, _)| job);
    let all = rule_tables::short()
        .chain(by_hand)
        .chain(rule_tables::longer());
    for job in all.filter(|job| !are_apart(&job.rules, &job.text)) {
        let frames = frames_of(&job);
        assert_eq!(status::<T>(&job.rules, &frames), 9);
        // The other rules first.
        let mut reversed = frames.clone();
        for (index, own) in job.rules.iter().enumerate().rev() {
            for position in claims(own, &job.text) {
                reversed[position] = 256 * (index as u16 + 1);
            }
        }
        assert_eq!(status::<T>(&job.rules, &reversed), 9);
        let moves: Vec<u16> = job.text.iter().map(|&byte| byte.into()).collect();
        assert_eq!(status::<T>(&job.rules, &moves), 9);
        times += 1;
    }
    assert!(times > 100, "only {times} texts");
}

/// A conversion with each frame in turn, or with some, made another.
pub fn conversions_with_one_frame_changed<T: RulesCalls>() {
    let mut random = Random::seeded(172);
    let mut times = [0; 2];
    for job in taken() {
        let mut frames = frames_of(&job);
        let n = frames.len();
        for position in (0..n).step_by(n / 8 + 1) {
            let frame = frames[position];
            let count = job.rules.len() as u16;
            let own = &job.rules[random.below(job.rules.len())];
            let others = [
                256,
                256 * count,
                256 * (count + 1),
                256 * (1 + random.below(16) as u16),
                frame ^ 1,
                u16::from(job.text[position]),
                own.pattern[own.hold].into(),
                FOREIGN.into(),
                0x8000 | frame,
            ];
            for other in others {
                frames[position] = other;
                times[usize::from(status::<T>(&job.rules, &frames) == 9)] += 1;
            }
            frames[position] = frame;
        }
    }
    assert!(times.iter().all(|&times| times > 2_000), "{times:?}");
}

pub fn buffers_around_the_needed_length<T: RulesCalls>() {
    for job in rule_tables::short().step_by(9) {
        let n = job.text.len();
        let table = table_of(&job.rules, 4);
        let frames = frames_of(&job);
        let mut spoiled = frames.clone();
        if let Some(last) = spoiled.last_mut() {
            *last = 257;
        }
        let done = if are_apart(&job.rules, &job.text) {
            0
        } else {
            9
        };
        for length in 0..n + 3 {
            let status = |frames: &[u16]| check::<T>(&table, frames, length).answer.status;
            assert_eq!(status(&frames), if length < n { 7 } else { done });
            if n > 0 {
                assert_eq!(status(&spoiled), if length < n { 7 } else { 9 });
            }
        }
    }
}

/// The count at 0, 1, 16, 17 and beyond, a rule's length and hold offset at their edges, n at 16,384,
/// 16,385 and beyond; with frames that are a conversion and with such as are none.
pub fn refusals_at_their_edges<T: RulesCalls>() {
    let rules: Vec<Rule> = (0..16).map(|index| rule(&[index, A], 0)).collect();
    let (good, bad) = ([1, 0x18], [1, 0x1800]);
    let expect = |table: &TableBytes, refusal: u32| {
        let status = |frames: &[u16]| check::<T>(table, frames, 2).answer.status;
        assert_eq!(status(&good), refusal);
        assert_eq!(status(&bad), if refusal == 0 { 9 } else { refusal });
    };
    for count in 0..=255 {
        let mut table = table_of(&rules, 5);
        table[0] = count;
        expect(&table, if (1..=16).contains(&count) { 0 } else { 11 });
    }
    for number in [1, 2, 16] {
        for m in [0, 1, 2, 128, 129, 255] {
            for hold in [0, m.max(1) - 1, m, 127, 128, 255] {
                let mut table = table_of(&rules, 6);
                let slot = &mut table[130 * (number - 1) + 1..][..130];
                slot.fill(FOREIGN);
                (slot[0], slot[1]) = (m, hold);
                let refusal = match (m, hold) {
                    (0 | 129.., _) => 4,
                    _ if hold >= m => 5,
                    _ => 0,
                };
                expect(&table, refusal);
            }
        }
    }
    let table = table_of(&rules, 7);
    let moves = vec![0xE7; 81_920];
    for n in [0, 1, 16_384, 16_385, 32_768, 65_536, 65_537, 81_920] {
        let expected = if n > 16_384 { 6 } else { 0 };
        assert_eq!(check::<T>(&table, &moves[..n], n).answer.status, expected);
    }
}

/// The faults of a call, in the order in which they are refused.
const ORDER: [u32; 6] = [11, 4, 5, 6, 7, 9];

/// No fault, each alone, each pair and all other choices of them.
pub fn order_of_refusals<T: RulesCalls>() {
    let rules = [rule(&[A, A], 1), rule(&[C, C], 1), rule(&[B], 0)];
    for choice in 0..1 << ORDER.len() {
        let has = |status: u32| {
            let place = ORDER.iter().position(|&other| other == status);
            place.is_some_and(|place| choice >> place & 1 == 1)
        };
        let first = ORDER.into_iter().find(|&status| has(status)).unwrap_or(0);
        let counts: &[u8] = if has(11) { &[0, 17, 255] } else { &[3] };
        for &count in counts {
            for n in if has(6) {
                [16_385, 32_768]
            } else {
                [2, 16_384]
            } {
                // A rule that has 4 comes before one that has 5, or both are one rule.
                for (long, held) in [(3, 3), (2, 3), (1, 2)] {
                    let mut table = table_of(&rules, 8);
                    table[0] = count;
                    if has(4) {
                        table[130 * (long - 1) + 1] = 129;
                    }
                    if has(5) {
                        table[130 * (held - 1) + 2] = 200;
                    }
                    let mut frames = vec![0xE7; n];
                    if has(9) {
                        frames[n - 1] = 768 + 256;
                    }
                    let lengths = if has(7) { [n - 1, 0] } else { [n, n + 3] };
                    for length in lengths {
                        assert_eq!(check::<T>(&table, &frames, length).answer.status, first);
                    }
                }
            }
        }
    }
}

/// The buffer goes from call to call with what the call before left in it.
pub fn buffer_left_by_another_call<T: RulesCalls>() {
    let length = 36;
    let mut text = Buffer::junk(length, 0);
    let mut expected = text.clone();
    let mut seen = BTreeSet::new();
    for (round, job) in rule_tables::short().enumerate() {
        let mut table = table_of(&job.rules, round as u64);
        if round % 13 == 0 {
            table[0] = 17;
        }
        let frames = frames_of(&job);
        let outcome = rule_calls::restore_rules(&table, &frames, length);
        let context = || format!("{job:?} after others");
        let answer = T::restore_rules(&table, &frames, text.lent());
        assert_eq!(answer, outcome.answer, "{}", context());
        expected = expected.after(&outcome.text);
        text.expect(&expected, "text", &context);
        seen.insert(answer.status);
    }
    assert!(seen.iter().eq(&[0, 7, 9, 11]), "{seen:?}");
}

/// Lengths of more than 32 bits: none may be taken for what is left of it in 32.
pub fn lengths_beyond_32_bits<T: RulesCalls>() {
    const BEYOND: usize = 1 << 32;
    let table = table_of(&[rule(&[A, A], 1), rule(&[C, A], 0)], 9);
    let own = [6, 256, 256, 512];
    let frames = reserved(BEYOND + own.len());
    frames[..4].copy_from_slice(&own);
    assert_eq!(check::<T>(&table, frames, 4).answer.status, 6);

    // A buffer of which nothing would be left in 32 bits is longer than needed, and that is fine.
    let text = reserved(BEYOND);
    assert_eq!(T::restore_rules(&table, &own, text), Answer::default());
    expect_front(text, &[A, A, A, C]);
}

/// Converted and then restored, a text is what it was.
pub fn converted_and_restored<T: RulesCalls>() {
    let nets = [rule_tables::net(128, 16_384, 5)];
    for Job { rules, text } in taken().chain(nets) {
        let left = converted::<T>(&rules, &text).expect("apart");
        assert_eq!(restored::<T>(&rules, &left.frames), Ok(text));
    }
}

/// What is restored converts to the frames that were handed in; any other frames are refused by 9.
pub fn restored_and_converted<T: RulesCalls>() {
    let mut random = Random::seeded(173);
    let mut times = [0; 2];
    for round in 0..20_000 {
        let count = random.between(1, 3);
        let rules: Vec<Rule> = (0..count)
            .map(|_| {
                let m = random.between(1, 4);
                rule(&random.picked(&[A, C], m), random.below(m))
            })
            .collect();
        let numbers = [6, 0x18, 6, 0x18, 1, 256, 512, 768];
        let length = random.between(0, 6 + round % 4);
        let frames: Vec<u16> = (0..length).map(|_| random.pick(&numbers)).collect();
        match restored::<T>(&rules, &frames) {
            Ok(text) => {
                let left = converted::<T>(&rules, &text);
                assert_eq!(left.map(|left| left.frames), Ok(frames), "{rules:?}");
                times[0] += 1;
            }
            Err(answer) => {
                assert_eq!(answer, no_conversion());
                times[1] += 1;
            }
        }
    }
    assert!(times.iter().all(|&times| times > 500), "{times:?}");
}

/// A table of one rule gives and leaves what restoring with its pattern does.
pub fn one_rule_beside_one_pattern<T: RulesCalls + RestoreCalls>() {
    let mut random = Random::seeded(174);
    let mut seen = BTreeSet::new();
    for (round, job) in searches::jobs().enumerate() {
        let own = rule(&job.pattern, job.hold);
        let table = table_of(std::slice::from_ref(&own), round as u64);
        let n = job.text.len();
        let mut frames = frames_of(&Job {
            rules: vec![own],
            text: job.text.clone(),
        });
        if n > 0 && round % 3 == 0 {
            frames[random.below(n)] = random.pick(&[256, 512, 257, job.pattern[0].into()]);
        }
        let filled = Buffer::junk(n + round % 5, round);
        let (mut one, mut other) = (filled.clone(), filled);
        let by_pattern = T::restore(job.hold as u32, &job.pattern, &frames, one.lent());
        let by_table = T::restore_rules(&table, &frames, other.lent());
        assert_eq!(by_table, by_pattern);
        one.expect(&other, "text", &|| shown(&job.text));
        seen.insert(by_table.status);
    }
    assert!(seen.iter().eq(&[0, 9]), "{seen:?}");
}
