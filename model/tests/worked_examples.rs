//! The model on document 01's worked examples ("Marked swatches"), on SEEK's listing, and on
//! examples of document 02.

mod common;

use std::mem::offset_of;

use common::bounds;
use common::lengths::BufferLengths;
use ruffarmoire_model::answers::{
    Answer, ExplainAnswer, PriceAnswer, ReadAnswer, ReportAnswer, TurnAnswer, WriteAnswer,
};
use ruffarmoire_model::calls::{self, TableLengths};
use ruffarmoire_model::explain::{Explained, Explanation, ShiftKind, Unexplained};
use ruffarmoire_model::job::{self, Job};
use ruffarmoire_model::steps::{bound, search};
use ruffarmoire_model::tables::{delta1, delta3, period, Tables};
use ruffarmoire_model::{convert, price, seek};

const A: u8 = 0x06;
const B: u8 = 0x01;
const C: u8 = 0x18;

/// The job of SEEK's listing.
const LISTING: &[u8] = b"0105020009\n06\n06\n18\n06\n06\n06\n06\n18\n06\n06\n06\n18\n06\n06\n";

/// The occurrences and the number of comparisons, once by the steps; the occurrences also by their
/// meaning.
fn check_search(pattern: &[u8], text: &[u8], occurrences: &[usize], comparisons: usize) {
    let done = search(pattern, text);
    assert_eq!(done.occurrences, occurrences);
    assert_eq!(done.comparisons.len(), comparisons);
    assert_eq!(convert::occurrences(pattern, text), occurrences);
}

#[test]
fn example_1_tables() {
    let tables = Tables::of(&[A, A, C, A, A]);
    assert_eq!(tables.period, 3);
    assert_eq!(tables.order, [4, 3, 0, 1, 2, -1]);
    assert_eq!(tables.delta2, [0, 1, 3, 3, 3, 3]);
}

/// With Δ2(3) as document 02, "The longest honest step", has it.
#[test]
fn example_2_tables() {
    let tables = Tables::of(&[C, B, A, A, A]);
    assert_eq!(tables.period, 5);
    assert_eq!(tables.order, [4, 2, 3, 0, 1, -1]);
    assert_eq!(tables.delta2, [0, 1, 5, 5, 5, 5]);
}

/// By rising k_min, not by rising h: k_min(4) is 1, the least of 1 and 4, and k_min(3) is 3, as h may
/// be k.
#[test]
fn order_by_least_shifts() {
    let tables = Tables::of(&[A, C, C, B, C, C]);
    assert_eq!(tables.order, [5, 4, 3, 0, 1, 2, -1]);
}

#[test]
fn example_3_shift_after_the_last_byte() {
    let pattern = [A, A, C, A, A];
    assert_eq!(delta1(&pattern, C, 1), 2);
    assert_eq!(delta1(&pattern, C, 2), 5);
    assert_eq!(delta1(&pattern, C, 5), 2);
    let tables = Tables::of(&pattern);
    assert_eq!(tables.delta1(C, 1), 2);
    assert_eq!(tables.delta1(C, 2), 5);
    assert_eq!(tables.delta1(C, 5), 2);
    assert_eq!(tables.delta1[0x18 * 5 + 1], 5);
}

#[test]
fn example_4_two_occurrences() {
    let pattern = [A, A, C, A, A];
    let text = [A, A, C, A, A, A, C, A, A];
    check_search(&pattern, &text, &[0, 4], 13);
    assert_eq!(bound(&Tables::of(&pattern), text.len(), 2), 21);
}

#[test]
fn example_5_empty_text() {
    check_search(&[A, A, C, A, A], &[], &[], 0);
}

#[test]
fn example_6_one_byte() {
    check_search(&[A], &[A], &[0], 1);
}

#[test]
fn example_7_overlapping_occurrences() {
    check_search(&[A; 4], &[A; 6], &[0, 1, 2, 3, 4, 5], 9);
}

#[test]
fn example_8_one_byte_twice() {
    check_search(&[A], &[A, C, A], &[0, 2], 3);
}

#[test]
fn example_9_text_shorter_than_the_pattern() {
    check_search(&[A, A], &[A], &[0], 2);
}

#[test]
fn example_10_ones() {
    assert_eq!(convert::ones(&[0xFF, 0x00]), 8);
    assert_eq!(calls::count_ones(&[0xFF, 0x00]).ones, 8);
}

/// More ones than 16 bits hold, in counting and in converting.
#[test]
fn ones_above_16_bits() {
    let text = [0xFF; 8_192];
    assert_eq!(convert::ones(&text), 65_536);
    assert_eq!(calls::count_ones(&text).ones, 65_536);
    let lengths = TableLengths::needed(1);
    let converted = calls::convert(0, &[A], &text, lengths, 8_192, 8_192);
    assert_eq!(converted.answer.ones, 65_536);
}

/// Demand 3: rings that differ only at position 0, where no comparison is made, and one that differs
/// where one is.
#[test]
fn rings_alike_where_compared() {
    let made = |text: &[u8]| -> Vec<(usize, usize)> {
        let made = search(&[A, C], text).comparisons.into_iter();
        made.map(|made| (made.pattern_position, made.text_position))
            .collect()
    };
    for text in [[A, A, C], [B, A, C]] {
        assert_eq!(made(&text), [(1, 1), (1, 2), (0, 1)]);
        check_search(&[A, C], &text, &[1], 3);
        let frames = [text[0].into(), 6, 256];
        assert_eq!(convert::frames(&[A, C], 1, &text), frames);
    }
    assert_eq!(made(&[A, A, A]), [(1, 1), (1, 2), (1, 3)]);
    check_search(&[A, C], &[A, A, A], &[], 3);
}

/// A way above 3, also one whose last byte is a way; and q as m, in every way.
#[test]
fn refusals_of_turning() {
    let status = |way: u32, hold: u32| {
        let turned = calls::turn(way, hold, &[A], &[A], 1, 1);
        turned.answer.answer.status
    };
    for way in 0..4 {
        assert_eq!(status(way, 0), 0);
        assert_eq!(status(way, 1), 5);
    }
    for way in [4, 256, u32::MAX] {
        assert_eq!(status(way, 1), 8);
    }
}

/// The searches whose period and bound are written out, by each call that works one out, and in
/// what SEEK prints.
#[test]
fn periods_and_bounds() {
    for search in bounds::written_out() {
        let (pattern, text) = (&search.pattern, &search.text);
        let n = text.len();
        let lengths = TableLengths::needed(pattern.len());
        let prepared = calls::prepare(pattern, lengths).answer;
        assert_eq!((prepared.period, prepared.bound), (search.period, 0));
        let searched = calls::search(pattern, text, lengths, n).answer;
        assert_eq!(
            (searched.period, searched.bound),
            (search.period, search.bound)
        );
        let converted = calls::convert(0, pattern, text, lengths, n, n).answer;
        let ones = convert::ones(text);
        assert_eq!(converted, Answer { ones, ..searched });
        search.expect_printed(&seek::seek(&job::write(&search.job())));
    }
}

/// What each call answers for the listing. What a call does not work out is 0.
#[test]
fn answers_of_the_calls() {
    let pattern = [A, A, C, A, A];
    let text = [A, A, C, A, A, A, C, A, A];
    let frames = [6, 6, 256, 6, 6, 6, 256, 6, 6];
    let lengths = TableLengths::needed(5);
    let expect = |answer: Answer, [occurrences, comparisons, ones, period, bound]: [u32; 5]| {
        let expected = Answer {
            status: 0,
            occurrences,
            comparisons,
            ones,
            period,
            bound,
        };
        assert_eq!(answer, expected);
    };
    let prepared = calls::prepare(&pattern, lengths);
    expect(prepared.answer, [0, 0, 0, 3, 0]);
    let searched = calls::search(&pattern, &text, lengths, 9);
    expect(searched.answer, [2, 13, 0, 3, 21]);
    let converted = calls::convert(2, &pattern, &text, lengths, 9, 9);
    expect(converted.answer, [2, 13, 18, 3, 21]);
    expect(calls::count_ones(&text), [0, 0, 18, 0, 0]);
    expect(calls::read_job(LISTING, 5, 9).answer.answer, [0; 5]);
    let written = calls::write_job(2, &pattern, &text, LISTING.len());
    expect(written.answer.answer, [0; 5]);
    expect(calls::seek_report(LISTING, 200).answer.answer, [0; 5]);
    let turned = calls::turn(3, 2, &pattern, &text, 5, 9);
    expect(turned.answer.answer, [0; 5]);
    expect(calls::restore(2, &pattern, &frames, 9).answer, [0; 5]);
    let priced = calls::price(2, &pattern, &text, lengths, 9);
    expect(priced.answer.answer, [0; 5]);
    expect(priced.left.answer, [0; 5]);
    let explained = calls::explain(3, &pattern, &text, lengths);
    expect(explained.answer.answer, [0; 5]);
    expect(explained.left.answer, [0; 5]);
}

/// A refused answer has its number, and zeros also in what the call works out when it is done.
#[test]
fn refused_answers() {
    let (pattern, text, long) = ([A; 4], [A; 6], [A; 16_385]);
    let enough = TableLengths::needed(4);
    let short = enough.changed(|length| length - 1);
    for (answer, status) in [
        (calls::read_job(b"", 4, 6).answer.answer, 1),
        (calls::read_job(LISTING, 4, 9).answer.answer, 7),
        (calls::write_job(4, &pattern, &text, 41).answer.answer, 5),
        (calls::write_job(3, &pattern, &text, 40).answer.answer, 7),
        (calls::prepare(&[], enough).answer, 4),
        (calls::prepare(&pattern, short).answer, 7),
        (calls::search(&[], &text, enough, 6).answer, 4),
        (calls::search(&pattern, &long, enough, 16_385).answer, 6),
        (calls::search(&pattern, &text, short, 6).answer, 7),
        (calls::search(&pattern, &text, enough, 5).answer, 7),
        (calls::convert(0, &[], &text, enough, 6, 6).answer, 4),
        (calls::convert(4, &pattern, &text, enough, 6, 6).answer, 5),
        (calls::convert(0, &pattern, &long, enough, 0, 0).answer, 6),
        (calls::convert(0, &pattern, &text, short, 6, 6).answer, 7),
        (calls::convert(0, &pattern, &text, enough, 5, 6).answer, 7),
        (calls::convert(0, &pattern, &text, enough, 6, 5).answer, 7),
        (calls::count_ones(&long), 6),
        (calls::seek_report(LISTING, 20).answer.answer, 7),
        (calls::turn(4, 0, &pattern, &text, 4, 6).answer.answer, 8),
        (calls::restore(0, &pattern, &[257], 1).answer, 9),
        (calls::price(4, &pattern, &text, enough, 6).answer.answer, 5),
        (calls::price(0, &pattern, &text, enough, 5).answer.answer, 7),
        (calls::explain(0, &[], &text, enough).answer.answer, 4),
        (calls::explain(0, &pattern, &long, enough).answer.answer, 6),
        (calls::explain(0, &pattern, &text, short).answer.answer, 7),
        (calls::explain(6, &pattern, &text, enough).answer.answer, 10),
    ] {
        let expected = Answer {
            status,
            occurrences: 0,
            comparisons: 0,
            ones: 0,
            period: 0,
            bound: 0,
        };
        assert_eq!(answer, expected);
    }
}

/// As C sees it, an answer is six numbers of 32 bits, and what a call answers more stands behind
/// them.
#[test]
fn layout_of_answers() {
    let offsets = [
        offset_of!(Answer, status),
        offset_of!(Answer, occurrences),
        offset_of!(Answer, comparisons),
        offset_of!(Answer, ones),
        offset_of!(Answer, period),
        offset_of!(Answer, bound),
    ];
    assert_eq!(offsets, [0, 4, 8, 12, 16, 20]);
    assert_eq!(size_of::<Answer>(), 24);
    let behind = [
        offset_of!(WriteAnswer, bytes),
        offset_of!(ReportAnswer, bytes),
        offset_of!(TurnAnswer, q),
        offset_of!(PriceAnswer, pence),
    ];
    assert_eq!(behind, [24; 4]);
    let explain = [
        offset_of!(ExplainAnswer, outcome),
        offset_of!(ExplainAnswer, place),
        offset_of!(ExplainAnswer, from),
        offset_of!(ExplainAnswer, kind),
    ];
    assert_eq!(explain, [24, 28, 32, 36]);
    assert_eq!(size_of::<ExplainAnswer>(), 40);
    let read = [
        offset_of!(ReadAnswer, m),
        offset_of!(ReadAnswer, q),
        offset_of!(ReadAnswer, n),
    ];
    assert_eq!(read, [24, 28, 32]);
}

#[test]
fn seek_listing() {
    let printed = "0002\n0000000D\n00000012\n0003\n00000015\n0000\n0004\n\
                   0006\n0006\n0100\n0006\n0006\n0006\n0100\n0006\n0006\n";
    assert_eq!(seek::seek(LISTING), printed);
    let job = Job {
        pattern: vec![A, A, C, A, A],
        hold: 2,
        text: vec![A, A, C, A, A, A, C, A, A],
    };
    assert_eq!(job::read(LISTING), Ok(job.clone()));
    assert_eq!(job::write(&job), LISTING);
}

#[test]
fn seek_refused() {
    assert_eq!(seek::seek(b""), "FF01\n");
    assert_eq!(seek::seek(b"01050G0000\n"), "FF02\n");
    assert_eq!(seek::seek(b"0201000000\n"), "FF03\n");
    assert_eq!(seek::seek(b"0100000000\n"), "FF04\n");
    assert_eq!(seek::seek(b"0105050000\n"), "FF05\n");
    assert_eq!(seek::seek(b"0101004001\n"), "FF06\n");
    assert_eq!(seek::seek(b"0101000000\n"), "FF01\n");
    assert_eq!(seek::seek(b"0101000000\n0a\n"), "FF02\n");
    assert_eq!(
        seek::seek(b"0101000000\n0A\n"),
        "0000\n00000000\n00000000\n0001\n00000000\n"
    );
}

/// The edges that document 01 lists under refusals, and its order of refusals.
#[test]
fn refusals_of_the_calls() {
    let enough = TableLengths::needed(128);
    let convert = |hold: u32, m: usize, n: usize, lengths, occurrences, frames| {
        let (pattern, text) = (vec![A; m], vec![C; n]);
        calls::convert(hold, &pattern, &text, lengths, occurrences, frames)
            .answer
            .status
    };
    assert_eq!(convert(0, 0, 1, enough, 1, 1), 4);
    assert_eq!(convert(127, 128, 1, enough, 1, 1), 0);
    assert_eq!(convert(0, 129, 1, enough, 1, 1), 4);
    assert_eq!(convert(3, 4, 1, enough, 1, 1), 0);
    assert_eq!(convert(4, 4, 1, enough, 1, 1), 5);
    assert_eq!(convert(0, 1, 16_384, enough, 16_384, 16_384), 0);
    assert_eq!(convert(0, 1, 16_385, enough, 16_385, 16_385), 6);
    assert_eq!(convert(0, 1, 2, enough, 1, 2), 7);
    assert_eq!(convert(0, 1, 2, enough, 2, 1), 7);
    for m in [1, 5, 128] {
        let exact = TableLengths::needed(m);
        assert_eq!(convert(0, m, 0, exact, 0, 0), 0);
        for short in exact.one_too_short(exact) {
            assert_eq!(convert(0, m, 0, short, 0, 0), 7);
        }
    }
    let none = enough.changed(|_| 0);
    assert_eq!(convert(0, 0, 16_385, none, 0, 0), 4);
    assert_eq!(convert(1, 1, 16_385, none, 0, 0), 5);
    assert_eq!(convert(0, 1, 16_385, none, 0, 0), 6);
    assert_eq!(convert(0, 1, 16_384, none, 0, 0), 7);
    assert_eq!(calls::count_ones(&[0xFF; 16_384]).ones, 131_072);
    assert_eq!(calls::count_ones(&[0xFF; 16_385]).status, 6);
    assert_eq!(calls::seek_report(b"", 5).report, b"FF01\n");
    assert_eq!(calls::seek_report(b"", 5).answer.answer.status, 0);
    assert_eq!(calls::seek_report(b"", 5).answer.bytes, 5);
    assert_eq!(calls::seek_report(b"", 4).report, b"");
    assert_eq!(calls::seek_report(b"", 4).answer.answer.status, 7);
    assert_eq!(calls::seek_report(b"", 4).answer.bytes, 0);
}

/// The three slips that document 01 warns of give something else on the worked examples.
#[test]
fn slips_are_seen() {
    // Moving on by m after an occurrence would leave only the first of three.
    assert_ne!(period(&[A; 4]), 4);
    // Without the last shift the answer would be that for s = m.
    let pattern = [A, A, C, A, A];
    assert_ne!(delta1(&pattern, C, 2), delta1(&pattern, C, 5));
    // A text whose holds were marked in it would have lost its second occurrence.
    let text = [A, A, A, C];
    let mut marked = text;
    marked[1] = 0;
    assert_eq!(convert::occurrences(&[A, A], &text), [0, 1]);
    assert_eq!(convert::frames(&[A, A], 1, &text), [6, 256, 256, 0x18]);
    assert_eq!(convert::occurrences(&[A, A], &marked), []);
}

/// Document 02, "The longest honest step": Δ2 by its sets, and what it saves.
#[test]
fn longest_steps() {
    let delta2 = |pattern: &[u8]| Tables::of(pattern).delta2;

    // Of a a c a a, in the order 4, 3, 0, 1, 2, the sets Neg without 0 are {2}, {1}, {}, {},
    // {1, 2}, and Pos from i = 2 are {2, 3}, {}, {1}, {}. So 1 is left by Neg at 4 and by Pos at 3,
    // and from i = 3 on 3 is the least that the first two Neg leave; no other set but Pos at 3 has
    // it.
    assert_eq!(delta2(&[A, A, C, A, A]), [0, 1, 3, 3, 3, 3]);

    // Of c b a a a, in the order 4, 2, 3, 0, 1, the sets Neg without 0 are {3, 4}, {1, 2}, {2, 3},
    // {}, {1}, and Pos from i = 2 are {}, {1}, {}, {}. So 1 is left by Neg at 4 and by Pos at 2;
    // from i = 3 on the first two Neg leave nothing below 5.
    assert_eq!(delta2(&[C, B, A, A, A]), [0, 1, 5, 5, 5, 5]);

    // Of c c a a a a, in the order 5, 2, 3, 4, 0, 1, the first three Neg without 0 are {4, 5},
    // {1, 2}, {2, 3}, and Pos at 2 is {}, at 3 it is {1}. So Δ2(2) is 1, Δ2(3) is 3, which the
    // first two Neg leave and which brings c to 3; from i = 4 on the first three Neg leave nothing
    // below 6.
    assert_eq!(delta2(&[C, C, A, A, A, A]), [0, 1, 3, 6, 6, 6, 6]);

    // One byte throughout has no Neg but {}, and Pos at h has 1 to h.
    assert_eq!(delta2(&[A; 4]), [0, 1, 2, 3, 1]);
    assert_eq!(delta2(&[A]), [0, 1]);

    // At 0, positions 4 and 2 agree and 3 differs: 3 comparisons. Five on is the occurrence: 5. At
    // 2 nothing is compared, where position 0 would lie on an a that was seen.
    let text = [C, C, A, C, A, C, B, A, A, A];
    check_search(&[C, B, A, A, A], &text, &[5], 8);
    assert_eq!(bound(&Tables::of(&[C, B, A, A, A]), text.len(), 1), 23);
}

/// Document 02, "Long repeats": the shifts, and two occurrences that share a byte.
#[test]
fn long_repeats() {
    let pattern = [A, A, C, A, A, C, A, A, C, A, A];
    assert_eq!(period(&pattern), 3);
    assert_eq!(delta3(&pattern, 9), 7);
    let tables = Tables::of(&pattern);
    assert_eq!(tables.delta3(9), 7);
    assert_eq!(tables.delta3, [0, 0, 0, 0, 0, 0, 0, 0, 9, 7, 0]);
    assert_eq!(tables.delta2, [0, 1, 3, 3, 3, 6, 6, 6, 9, 9, 9, 3]);
    // The first occurrence has 11 comparisons. Three on, position 10 agrees and 9 differs: 2. Seven
    // on is the second occurrence: 11. Three on, position 10 lies on byte 2 over the seam, a c: 1. The
    // shift is 8, to the end.
    let text = [&pattern[..], &pattern[1..]].concat();
    assert_eq!(text.len(), 21);
    check_search(&pattern, &text, &[0, 10], 25);
    assert_eq!(bound(&tables, 21, 2), 51);
    // A further period has its 3 bytes compared; where its last byte differs, one comparison is
    // made, as three on, where position 10 lies on byte 2 over the seam.
    let text = [&pattern[..], &[C, A, A]].concat();
    check_search(&pattern, &text, &[0, 3], 11 + 3 + 1);
    // Eight on from there, positions 10 and 9 lie on bytes 7 and 6 over the seam, and 0 differs.
    let text = [&pattern[..], &[C, A, C]].concat();
    check_search(&pattern, &text, &[0], 11 + 1 + 3);
    // Five periods that go round: each has its 3 bytes compared.
    let text = [A, A, C].repeat(5);
    check_search(&pattern, &text, &[0, 3, 6, 9, 12], 11 + 4 * 3);
}

/// Document 02, "Chains are laced into a ring".
#[test]
fn rings() {
    // At 0 position 2 agrees and 0 differs, and the shift is 2. There the pattern lies on bytes 2, 0
    // and 1.
    let frames = |pattern: &[u8], hold: usize, text: &[u8]| convert::frames(pattern, hold, text);
    check_search(&[A, C, A], &[C, A, A], &[2], 5);
    assert_eq!(frames(&[A, C, A], 0, &[C, A, A]), [0x18, 6, 256]);
    assert_eq!(frames(&[A, C, A], 1, &[C, A, A]), [256, 6, 6]);
    assert_eq!(frames(&[A, C, A], 2, &[C, A, A]), [0x18, 256, 6]);
    // In the order of the occurrences the holds go round.
    assert_eq!(convert::holds(&[A; 4], 3, &[A; 6]), [3, 4, 5, 0, 1, 2]);
    // A pattern that goes round twice and a half.
    check_search(&[A, C, A, C, A], &[A, C], &[0], 5);
    check_search(&[A, C, A, C, A], &[C, A], &[1], 6);
    assert_eq!(frames(&[A, C, A, C, A], 3, &[C, A]), [256, 6]);
    // One that does not go round with its ring, which is compared all the same.
    check_search(&[A, C, A], &[A], &[], 3);
    assert_eq!(bound(&Tables::of(&[A, C, A]), 1, 0), 3);
    assert_eq!(bound(&Tables::of(&[A, C, A, C, A]), 2, 1), 8);
    assert_eq!(bound(&Tables::of(&[A, C, A]), 0, 0), 0);
}

/// Δ3 is stored for the positions m - p to m - 2 of a pattern of at least three periods, and 0
/// elsewhere.
#[test]
fn long_repeats_begin_at_three_periods() {
    let delta3 = |pattern: &[u8]| {
        let prepared = calls::prepare(pattern, TableLengths::needed(pattern.len()));
        prepared.delta3
    };
    assert_eq!(delta3(&[A]), [0]);
    assert_eq!(delta3(&[A; 3]), [0; 3]);
    assert_eq!(delta3(&[A; 4]), [0; 4]);
    assert_eq!(delta3(&[A, C, A, C, A]), [0; 5]);
    assert_eq!(delta3(&[A, C, A, C, A, C]), [0, 0, 0, 0, 6, 0]);
    assert_eq!(delta3(&[A, A, C, A, A]), [0; 5]);
    assert_eq!(delta3(&[A, A, C, A, A, C, A, A]), [0; 8]);
    assert_eq!(
        delta3(&[A, A, C, A, A, C, A, A, C]),
        [0, 0, 0, 0, 0, 0, 9, 9, 0]
    );
    // Below three periods every occurrence is compared whole, and adds to the bound.
    let search = |pattern: &[u8], text: &[u8]| {
        let lengths = TableLengths::needed(pattern.len());
        let answer = calls::search(pattern, text, lengths, text.len()).answer;
        (answer.occurrences, answer.comparisons, answer.bound)
    };
    assert_eq!(
        search(&[A, C, A, C, A], &[A, C, A, C, A, C, A]),
        (2, 11, 19)
    );
    assert_eq!(search(&[A, A], &[A; 6]), (6, 12, 12));
    assert_eq!(search(&[A, A, A], &[A; 6]), (6, 8, 13));
    assert_eq!(search(&[A; 4], &[A; 6]), (6, 9, 14));
}

/// Document 02, "Back to cards": the listing's frames are put back to its text.
#[test]
fn frames_restored() {
    let pattern = [A, A, C, A, A];
    let restore = |hold: u32, pattern: &[u8], frames: &[u16]| {
        let restored = calls::restore(hold, pattern, frames, frames.len());
        (restored.answer.status, restored.text)
    };
    let listing = [6, 6, 256, 6, 6, 6, 256, 6, 6];
    let text = vec![A, A, C, A, A, A, C, A, A];
    assert_eq!(convert::frames(&pattern, 2, &text), listing);
    assert_eq!(restore(2, &pattern, &listing), (0, text));
    assert_eq!(restore(2, &pattern, &[]), (0, vec![]));
    assert_eq!(restore(0, &[A], &[256]), (0, vec![A]));
    assert_eq!(restore(3, &[A; 4], &[256; 6]), (0, vec![A; 6]));
    assert_eq!(restore(0, &[A], &[256, 0x18, 256]), (0, vec![A, C, A]));
    assert_eq!(restore(0, &[A, A], &[256]), (0, vec![A]));
    assert_eq!(restore(1, &[A, C], &[256, 6, 6]), (0, vec![C, A, A]));
    assert_eq!(restore(2, &[A, C, A], &[6]), (0, vec![A]));

    let refused = (9, vec![]);
    // An occurrence without its hold.
    assert_eq!(restore(2, &pattern, &[6, 6, 0x18, 6, 6]), refused);
    assert_eq!(restore(3, &[A; 4], &[256, 256, 256, 256, 6, 256]), refused);
    assert_eq!(restore(3, &[A; 4], &[6, 6, 6, 256, 256, 256]), refused);
    assert_eq!(restore(1, &[A, C], &[0x18, 6, 6]), refused);
    assert_eq!(restore(0, &[A, A], &[6]), refused);
    // A hold without its occurrence, or another offset's.
    assert_eq!(restore(0, &[A, C], &[256]), refused);
    assert_eq!(restore(1, &pattern, &listing), refused);
    assert_eq!(restore(0, &[A, C], &[256, 6, 6]), refused);
    assert_eq!(restore(1, &[A, C], &[256, 6, 256]), refused);
    // Numbers that are no frames.
    assert_eq!(restore(0, &[A], &[257]), refused);
    assert_eq!(restore(0, &[A], &[0x100 + 0x18]), refused);
    assert_eq!(restore(0, &[A], &[0xFFFF]), refused);
}

/// 4 to 7 come before 9.
#[test]
fn refusals_of_restoring() {
    let status = |hold: u32, m: usize, frame: u16, n: usize, text_length: usize| {
        let restored = calls::restore(hold, &vec![A; m], &vec![frame; n], text_length);
        restored.answer.status
    };
    assert_eq!(status(127, 128, 0x18, 16_384, 16_384), 0);
    assert_eq!(status(127, 128, 257, 16_384, 16_384), 9);
    assert_eq!(status(0, 1, 257, 16_384, 16_383), 7);
    assert_eq!(status(0, 1, 0x18, 16_384, 16_383), 7);
    assert_eq!(status(0, 1, 257, 16_385, 0), 6);
    assert_eq!(status(1, 1, 257, 16_385, 0), 5);
    assert_eq!(status(0, 0, 257, 16_385, 0), 4);
    assert_eq!(status(0, 129, 0x18, 1, 1), 4);
    assert_eq!(status(0, 1, 6, 1, 1), 9);
    assert_eq!(status(0, 1, 256, 1, 1), 0);
    let longer = calls::restore(0, &[A], &[256], 3);
    assert_eq!(longer.text, [A]);
}

/// The price of a job within the limits, which stands beside zeros.
fn priced(hold: u32, pattern: &[u8], text: &[u8]) -> u32 {
    let lengths = TableLengths::needed(pattern.len());
    let priced = calls::price(hold, pattern, text, lengths, text.len());
    assert_eq!(priced.answer.answer, Answer::default());
    assert_eq!(priced.left.answer, Answer::default());
    priced.answer.pence
}

/// Document 02, "The card cutter's tariff": what the listing costs, and the other worked examples.
#[test]
fn prices() {
    let pattern = [A, A, C, A, A];
    let text = [A, A, C, A, A, A, C, A, A];
    assert_eq!(priced(2, &pattern, &text), 134);
    assert_eq!(price::cost(&text, &[6, 6, 256, 6, 6, 6, 256, 6, 6]), 134);
    assert_eq!(price::cost(&text, &[6, 6, 0x18, 6, 6, 6, 0x18, 6, 6]), 54);
    assert_eq!(priced(2, &pattern, &[]), 0);
    assert_eq!(priced(0, &[A], &[A]), 46);
    assert_eq!(priced(3, &[A; 4], &[A; 6]), 276);
    assert_eq!(priced(0, &[A], &[A, C, A]), 98);
    assert_eq!(priced(1, &[A, A], &[A]), 46);
    assert_eq!(priced(1, &[A, C], &[C, A, A]), 58);
    assert_eq!(priced(0, &[A], &[0xFF, 0x00]), 18);
}

/// The prices of 0 to 8 ones, without a hold and with one.
#[test]
fn prices_by_ones() {
    let bytes = [0x00, 0x01, 0x03, 0x07, 0x0F, 0x1F, 0x3F, 0x7F, 0xFF];
    let moved = bytes.map(|byte| priced(0, &[!byte], &[byte]));
    assert_eq!(moved, [3, 5, 6, 8, 9, 11, 12, 14, 15]);
    let held = bytes.map(|byte| priced(0, &[byte], &[byte]));
    assert_eq!(held, [43, 45, 46, 48, 49, 51, 52, 54, 55]);
}

/// The rebate: above 4,096 bytes, of the whole total, rounded down.
#[test]
fn prices_with_a_rebate() {
    assert_eq!(priced(0, &[C], &[A; 4_096]), 24_576);
    assert_eq!(priced(0, &[C], &[A; 4_097]), 24_582 - 1_229);
    assert_eq!(priced(0, &[A], &[A; 4_096]), 188_416);
    assert_eq!(priced(0, &[A], &[A; 4_097]), 188_462 - 9_423);
    // 5 in 100 of 104,454 are 5,222 and 70 hundredths.
    let text: Vec<u8> = [A, B].into_iter().cycle().take(4_097).collect();
    assert_eq!(priced(1, &[A, B], &text), 104_454 - 5_222);
    // The dearest job that is taken.
    assert_eq!(priced(0, &[0xFF], &[0xFF; 16_384]), 901_120 - 45_056);
}

/// 4 to 7 in their order. A refused call gives no price and leaves no table.
#[test]
fn refusals_of_pricing() {
    let enough = TableLengths::needed(128);
    let status = |hold: u32, m: usize, n: usize, lengths, occurrences| {
        let priced = calls::price(hold, &vec![A; m], &vec![C; n], lengths, occurrences);
        let status = priced.answer.answer.status;
        assert_eq!(priced.left.answer, priced.answer.answer);
        assert_eq!(priced.left.order.is_empty(), status != 0);
        assert_eq!(priced.answer.pence == 0, status != 0);
        status
    };
    assert_eq!(status(0, 0, 1, enough, 1), 4);
    assert_eq!(status(127, 128, 1, enough, 1), 0);
    assert_eq!(status(0, 129, 1, enough, 1), 4);
    assert_eq!(status(3, 4, 1, enough, 1), 0);
    assert_eq!(status(4, 4, 1, enough, 1), 5);
    assert_eq!(status(0, 1, 16_384, enough, 16_384), 0);
    assert_eq!(status(0, 1, 16_385, enough, 16_385), 6);
    assert_eq!(status(0, 1, 2, enough, 1), 7);
    for m in [1, 5, 128] {
        let exact = TableLengths::needed(m);
        for short in exact.one_too_short(exact) {
            assert_eq!(status(0, m, 1, short, 1), 7);
        }
    }
    let none = enough.changed(|_| 0);
    assert_eq!(status(0, 0, 16_385, none, 0), 4);
    assert_eq!(status(1, 1, 16_385, none, 0), 5);
    assert_eq!(status(0, 1, 16_385, none, 0), 6);
    assert_eq!(status(0, 1, 16_384, none, 0), 7);
}

/// The explanation of every position of a text, as numbers: outcome, place, from, kind.
fn check_explanations(pattern: &[u8], text: &[u8], expected: &[[u32; 4]]) {
    let lengths = TableLengths::needed(pattern.len());
    let told: Vec<[u32; 4]> = (0..text.len())
        .map(|b| {
            let told = calls::explain(b as u32, pattern, text, lengths).answer;
            assert_eq!(told.answer, Answer::default());
            [told.outcome, told.place, told.from, told.kind]
        })
        .collect();
    assert_eq!(told, expected);
    for beyond in [text.len() as u32, text.len() as u32 + 1, u32::MAX] {
        let refused = calls::explain(beyond, pattern, text, lengths);
        assert_eq!(refused.answer.answer.status, 10);
    }
}

const LISTED: [u32; 4] = [1, 0, 0, 0];

/// Document 02, "Why this scallop has no hold": the listing, and each kind of shift.
#[test]
fn explanations() {
    // At 0 the comparisons are at 4, 3, 0, 1, 2. Of position 1 the one at 3 shows an a where c is
    // due, of position 2 the one at 4. At 3 position 4 agrees and 3 differs. At 4 all is as at 0, but
    // the c at 6 was compared before the occurrence. At 7 the last byte lies on text position 11, byte
    // 2 over the seam.
    check_explanations(
        &[A, A, C, A, A],
        &[A, A, C, A, A, A, C, A, A],
        &[
            LISTED,
            [3, 2, 0, 3],
            [3, 2, 0, 3],
            [2, 3, 0, 0],
            LISTED,
            [3, 2, 4, 3],
            [3, 0, 4, 3],
            [2, 4, 0, 0],
            [3, 3, 7, 1],
        ],
    );
    check_explanations(&[A], &[A], &[LISTED]);
    check_explanations(&[A; 4], &[A; 6], &[LISTED; 6]);
    check_explanations(&[A], &[A, C, A], &[LISTED, [2, 0, 0, 0], LISTED]);
    check_explanations(&[A, A], &[A], &[LISTED]);

    // The last byte differs, and b is not in the pattern: the shift is 2.
    check_explanations(
        &[A, C],
        &[A, B, A, C],
        &[[2, 1, 0, 0], [3, 0, 0, 1], LISTED, [3, 0, 2, 3]],
    );

    // Positions 4 and 2 agree and 3 differs: the shift is Δ2(3) = 5. The a at text position 4
    // spoils what lays b or c there, but the a at 2 was compared after it and is the earliest that
    // spoils 1 and 2. The occurrence at 5 does the same for the positions after it.
    check_explanations(
        &[C, B, A, A, A],
        &[C, C, A, B, A, C, B, A, A, A],
        &[
            [2, 3, 0, 0],
            [3, 1, 0, 2],
            [3, 0, 0, 2],
            [3, 1, 0, 2],
            [3, 0, 0, 2],
            LISTED,
            [3, 1, 5, 3],
            [3, 0, 5, 3],
            [3, 1, 5, 3],
            [3, 0, 5, 3],
        ],
    );

    // The last byte of a repeat differs: a long repeat all the same.
    check_explanations(
        &[A; 4],
        &[A, A, A, A, C, A, A, A, A],
        &[
            LISTED,
            [2, 3, 0, 0],
            [3, 2, 1, 4],
            [3, 1, 1, 4],
            [3, 0, 1, 4],
            LISTED,
            LISTED,
            LISTED,
            LISTED,
        ],
    );

    // Here it shows c, which the pattern has next to its end: Δ1(c, 6) is 1, but after a shift of 2
    // it is 5. The comparisons at 0 are at 5 and then from 0 on. Text position 5 spoils 3 and 5, 7
    // the others.
    let pattern = [C, A, C, A, C, A];
    assert_eq!((delta1(&pattern, C, 6), delta1(&pattern, C, 2)), (1, 5));
    check_explanations(
        &pattern,
        &[C, A, C, A, C, A, C, C, A, C, A, C, A],
        &[
            LISTED,
            [3, 4, 0, 3],
            [2, 5, 0, 0],
            [3, 2, 2, 4],
            [3, 3, 2, 4],
            [3, 0, 2, 4],
            [3, 1, 2, 4],
            LISTED,
            [3, 4, 7, 3],
            LISTED,
            [3, 2, 9, 3],
            LISTED,
            [3, 0, 11, 3],
        ],
    );
}

/// Text positions that show the same byte of the ring are not the same: of position 2 the comparison at
/// 0 does not count, though it saw the byte that lies at 3 too.
#[test]
fn explanations_over_the_seam() {
    check_explanations(
        &[A, A],
        &[B, A, B],
        &[[2, 0, 0, 0], [2, 1, 0, 0], [3, 0, 1, 1]],
    );
    // The pattern goes round twice. At 0 text positions 3 and 2 agree, and 0 differs.
    check_explanations(&[A, A, C, C], &[C, C], &[[2, 0, 0, 0], [3, 1, 0, 2]]);
}

/// Two copies of a long repeat that share a byte. The first occurrence is compared at 10, 9 and
/// then from 0 on. The repeat at 3 has position 10 agree and 9 differ, at text position 12, and its
/// shift is Δ3(9) = 7. Of what it passes over only 6 and 9 are not spoilt by the occurrence before. The
/// repeat at 13 differs in its last byte, at text position 23.
#[test]
fn explanations_of_a_long_repeat() {
    let pattern = [A, A, C, A, A, C, A, A, C, A, A];
    assert_eq!(Tables::of(&pattern).order[..4], [10, 9, 0, 1]);
    let text = [&pattern[..], &pattern[1..]].concat();
    check_explanations(
        &pattern,
        &text,
        &[
            LISTED,
            [3, 8, 0, 3],
            [3, 8, 0, 3],
            [2, 9, 0, 0],
            [3, 5, 3, 4],
            [3, 5, 3, 4],
            [3, 6, 3, 4],
            [3, 2, 3, 4],
            [3, 2, 3, 4],
            [3, 3, 3, 4],
            LISTED,
            [3, 2, 10, 3],
            [3, 0, 10, 3],
            [2, 10, 0, 0],
            [3, 5, 13, 4],
            [3, 5, 13, 4],
            [3, 7, 13, 4],
            [3, 2, 13, 4],
            [3, 2, 13, 4],
            [3, 4, 13, 4],
            [3, 3, 13, 4],
        ],
    );
}

/// The earliest comparison of the whole search, which may be of an alignment before the one that
/// was shifted from.
#[test]
fn explanations_by_an_earlier_alignment() {
    // At 0 text position 2 shows an a, which spoils 2. At 1 the last byte differs, at text position
    // 3: that spoils 2 as well.
    check_explanations(
        &[C, A, A],
        &[A, C, A, C, A],
        &[
            [2, 1, 0, 0],
            [2, 2, 0, 0],
            [3, 0, 1, 1],
            LISTED,
            [3, 0, 3, 3],
        ],
    );
    // The same text position spoils 2 where a later comparison of the order differs at 1, and where
    // all agree there.
    check_explanations(
        &[A, C, A],
        &[A, C, C, A, A],
        &[
            [2, 2, 0, 0],
            [2, 0, 0, 0],
            [3, 0, 1, 2],
            [2, 1, 0, 0],
            [3, 1, 3, 2],
        ],
    );
    check_explanations(
        &[C, A, A],
        &[A, C, A, A, A],
        &[
            [2, 1, 0, 0],
            LISTED,
            [3, 0, 1, 3],
            [3, 0, 1, 3],
            [2, 2, 0, 0],
        ],
    );
    // The first comparison of the occurrence at 0 is at text position 5, and spoils both 1 and 3:
    // where the repeat at 2 differs, and where all of it agrees.
    check_explanations(
        &[C, A, C, A, C, A],
        &[C, A, C, A, C, A, A, A, A],
        &[
            LISTED,
            [3, 4, 0, 3],
            [2, 4, 0, 0],
            [3, 2, 2, 4],
            [3, 2, 2, 4],
            [3, 0, 2, 4],
            [3, 0, 2, 4],
            [3, 0, 2, 4],
            [2, 5, 0, 0],
        ],
    );
    check_explanations(
        &[C, A, C, A, C, A],
        &[C, A, C, A, C, A, C, A, C],
        &[
            LISTED,
            [3, 4, 0, 3],
            LISTED,
            [3, 2, 2, 3],
            [2, 5, 0, 0],
            [3, 0, 4, 4],
            [3, 3, 4, 4],
            [3, 0, 4, 4],
            [3, 1, 4, 4],
        ],
    );
}

/// 4, 6, 7, 10 in their order. A refused call explains nothing and leaves no table.
#[test]
fn refusals_of_explaining() {
    let enough = TableLengths::needed(128);
    let status = |position: u32, m: usize, n: usize, lengths| {
        let explained = calls::explain(position, &vec![A; m], &vec![C; n], lengths);
        let status = explained.answer.answer.status;
        assert_eq!(explained.left.answer, explained.answer.answer);
        assert_eq!(explained.left.order.is_empty(), status != 0);
        assert_eq!(explained.answer.outcome == 0, status != 0);
        status
    };
    assert_eq!(status(0, 0, 1, enough), 4);
    assert_eq!(status(0, 128, 128, enough), 0);
    assert_eq!(status(127, 128, 128, enough), 0);
    assert_eq!(status(128, 128, 128, enough), 10);
    assert_eq!(status(0, 129, 200, enough), 4);
    assert_eq!(status(16_383, 1, 16_384, enough), 0);
    assert_eq!(status(16_384, 1, 16_384, enough), 10);
    assert_eq!(status(0, 1, 16_385, enough), 6);
    assert_eq!(status(u32::MAX, 1, 16_384, enough), 10);
    assert_eq!(status(u32::MAX - 3, 4, 16_384, enough), 10);
    assert_eq!(status(0, 2, 1, enough), 0);
    assert_eq!(status(1, 2, 1, enough), 10);
    assert_eq!(status(0, 1, 0, enough), 10);
    for m in [1, 5, 128] {
        let exact = TableLengths::needed(m);
        for short in exact.one_too_short(exact) {
            assert_eq!(status(0, m, m, short), 7);
            assert_eq!(status(m as u32, m, m, short), 7);
        }
    }
    let none = enough.changed(|_| 0);
    assert_eq!(status(u32::MAX, 0, 16_385, none), 4);
    assert_eq!(status(u32::MAX, 1, 16_385, none), 6);
    assert_eq!(status(u32::MAX, 1, 16_384, none), 7);
    assert_eq!(status(u32::MAX, 1, 16_384, enough), 10);
}

/// What a minder reads.
#[test]
fn sentences() {
    let said_of = |text_length, position, explanation| {
        let explained = Explained {
            position,
            text_length,
            explanation,
        };
        explained.to_string()
    };
    let said = |position, explanation| said_of(10, position, explanation);
    let passed_over = |kind| {
        said(
            5,
            Explanation::PassedOver {
                from: 3,
                place: 4,
                kind,
            },
        )
    };
    assert_eq!(
        said(5, Explanation::Listed),
        "Listed: the motif is found at chain place 5."
    );
    assert_eq!(
        said(5, Explanation::Tried { place: 2 }),
        "Tried: the motif was laid at chain place 5, and the look at motif place 2 differed: chain \
         place 7 has another card."
    );
    assert_eq!(
        passed_over(ShiftKind::LastByte),
        "Passed over (last card): at chain place 3 the motif differed in its last card, and from \
         there it was shifted past chain place 5. The earliest look that rules place 5 out was at \
         chain place 9: its card is not that of motif place 4."
    );
    assert_eq!(
        passed_over(ShiftKind::Order),
        "Passed over (order): at chain place 3 the motif agreed in its last card and differed in \
         another, and from there it was shifted past chain place 5. The earliest look that rules \
         place 5 out was at chain place 9: its card is not that of motif place 4."
    );
    assert_eq!(
        passed_over(ShiftKind::AfterOccurrence),
        "Passed over (after a find): at chain place 3 the motif was found, and from there it was \
         shifted past chain place 5. The earliest look that rules place 5 out was at chain place \
         9: its card is not that of motif place 4."
    );
    assert_eq!(
        passed_over(ShiftKind::LongRepeat),
        "Passed over (long repeat): at chain place 3 the motif differed in the repeat after a \
         find, and from there it was shifted past chain place 5. The earliest look that rules \
         place 5 out was at chain place 9: its card is not that of motif place 4."
    );
    // Positions over the seam have the number of their byte beside them, however often they go round.
    assert_eq!(
        said_of(7, 5, Explanation::Tried { place: 2 }),
        "Tried: the motif was laid at chain place 5, and the look at motif place 2 differed: chain \
         place 7 (card number 0, over the seam) has another card."
    );
    let over_the_seam = Explanation::PassedOver {
        from: 3,
        place: 20,
        kind: ShiftKind::Order,
    };
    assert_eq!(
        said_of(9, 5, over_the_seam),
        "Passed over (order): at chain place 3 the motif agreed in its last card and differed in \
         another, and from there it was shifted past chain place 5. The earliest look that rules \
         place 5 out was at chain place 25 (card number 7, over the seam): its card is not that of \
         motif place 20."
    );
    assert_eq!(Unexplained::Refused(10).to_string(), "Turned away by 10.");
    assert_eq!(
        Unexplained::NoExplanation.to_string(),
        "The answer is no explanation."
    );
}

/// An answer at its position, and answers that are no explanation.
#[test]
fn explained_answers() {
    let told = |outcome, place, from, kind| ExplainAnswer {
        answer: Answer::default(),
        outcome,
        place,
        from,
        kind,
    };
    let explained = |position, text_length, explanation| {
        Ok(Explained {
            position,
            text_length,
            explanation,
        })
    };
    assert_eq!(
        Explained::told(7, 8, told(1, 0, 0, 0)),
        explained(7, 8, Explanation::Listed)
    );
    assert_eq!(
        Explained::told(7, 9, told(2, 0, 0, 0)),
        explained(7, 9, Explanation::Tried { place: 0 })
    );
    let passed_over = Explanation::PassedOver {
        from: 0,
        place: 2,
        kind: ShiftKind::LongRepeat,
    };
    assert_eq!(
        Explained::told(6, 7, told(3, 2, 0, 4)),
        explained(6, 7, passed_over)
    );
    for answer in [
        told(0, 0, 0, 0),
        told(4, 0, 0, 0),
        told(7, 1, 1, 1),
        told(1, 1, 0, 0),
        told(1, 0, 0, 3),
        told(2, 1, 1, 0),
        told(3, 1, 1, 0),
        told(3, 1, 1, 5),
    ] {
        let unexplained = Err(Unexplained::NoExplanation);
        assert_eq!(Explained::told(0, 1, answer), unexplained);
    }
    let refused = calls::explain(5, &[A], &[A], TableLengths::needed(1)).answer;
    assert_eq!(
        Explained::told(5, 1, refused),
        Err(Unexplained::Refused(10))
    );
}
