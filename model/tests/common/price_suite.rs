//! Everything that is asked of pricing a job, for any implementation of the call. Its frames and what
//! searching leaves are asked of the implementation's own calls.

use std::collections::BTreeSet;
use std::marker::PhantomData;

use ruffarmoire_model::answers::{Answer, PriceAnswer};
use ruffarmoire_model::calls::{self, Outcome, TableLengths};
use ruffarmoire_model::gen::{Random, Shape, SHAPES};
use ruffarmoire_model::job::Job;
use ruffarmoire_model::price::cost;

use super::converter_suite::{converted, ConverterCalls};
use super::harness::{shown, Buffer};
use super::matcher_suite::MatcherCalls;
use super::searches;
use super::searching::{check_exact, check_examples, Input, Lengths, Lent, SearchingCall};
use super::table_buffers::{longer, LentTables, TableBuffers};

const A: u8 = 0x06;
const B: u8 = 0x01;
const C: u8 = 0x18;

/// An implementation of pricing.
pub trait PriceCalls {
    fn price(
        hold: u32,
        pattern: &[u8],
        text: &[u8],
        tables: LentTables,
        found: &mut [u16],
    ) -> PriceAnswer;
}

/// A test program's tests: all of this module on one implementation, which also searches and
/// converts.
macro_rules! price_suite {
    ($calls:ty) => {
        searching_tests!(crate::common::price_suite::Price<$calls>);
        tests_of!(searching, crate::common::price_suite::Price<$calls>: every_hold_offset,);
        tests_of!(price_suite, $calls:
            worked_examples,
            price_of_every_byte,
            price_at_every_position,
            holds_around_the_seam,
            rebate_at_its_edge,
            rebate_at_every_remainder,
            dearest_and_cheapest_jobs,
            texts_around_the_rebate,
            texts_of_any_length,
            same_price_for_every_hold_offset,
            price_by_the_frames,
            buffers_as_searching_leaves_them,
        );
    };
}

/// Pricing as a call that searches.
pub struct Price<T>(PhantomData<T>);

impl<T: PriceCalls> SearchingCall for Price<T> {
    type Answer = PriceAnswer;

    const TAKES_HOLD: bool = true;
    const TAKES_FRAMES: bool = false;

    fn call(input: Input, lent: Lent) -> PriceAnswer {
        T::price(
            input.hold,
            input.pattern,
            input.text,
            lent.tables,
            lent.found,
        )
    }

    /// The answer in the outcome is the one without the pence.
    fn model(input: Input, lengths: Lengths) -> (PriceAnswer, Outcome) {
        let outcome = calls::price(
            input.hold,
            input.pattern,
            input.text,
            lengths.tables,
            lengths.found,
        );
        (outcome.answer, outcome.left)
    }
}

/// The price of a job within the limits, which stands beside zeros.
fn pence<T: PriceCalls>(hold: u32, pattern: &[u8], text: &[u8]) -> u32 {
    let m = pattern.len();
    let [mut tables, _] = TableBuffers::fillings(m, TableLengths::needed(m));
    let mut found = vec![0; text.len()];
    let priced = T::price(hold, pattern, text, tables.lent(), &mut found);
    assert_eq!(priced.answer, Answer::default());
    priced.pence
}

pub fn worked_examples<T: PriceCalls>() {
    check_examples::<Price<T>>();
    let pattern = [A, A, C, A, A];
    let listing = [A, A, C, A, A, A, C, A, A];
    assert_eq!(pence::<T>(2, &pattern, &listing), 134);
    assert_eq!(pence::<T>(2, &pattern, &[]), 0);
    assert_eq!(pence::<T>(0, &[A], &[A]), 46);
    assert_eq!(pence::<T>(3, &[A; 4], &[A; 6]), 276);
    assert_eq!(pence::<T>(0, &[A], &[A, C, A]), 98);
    assert_eq!(pence::<T>(1, &[A, A], &[A]), 46);
    assert_eq!(pence::<T>(0, &[A], &[0xFF, 0x00]), 18);
}

/// What a byte of 0 to 8 ones costs, without a hold and with one.
const PRICES: [(u32, u32); 9] = [
    (3, 43),
    (5, 45),
    (6, 46),
    (8, 48),
    (9, 49),
    (11, 51),
    (12, 52),
    (14, 54),
    (15, 55),
];

pub fn price_of_every_byte<T: PriceCalls>() {
    for byte in 0..=255_u8 {
        let (price, held) = PRICES[byte.count_ones() as usize];
        assert_eq!(pence::<T>(0, &[!byte], &[byte]), price, "{byte:02X}");
        assert_eq!(pence::<T>(0, &[byte], &[byte]), held, "{byte:02X}");
        // Longer texts, none of them long enough for a rebate.
        for n in [100, 511, 512, 513, 4_096] {
            let text = vec![byte; n as usize];
            assert_eq!(pence::<T>(0, &[!byte], &text), n * price, "{byte:02X}");
        }
        // Two bytes, of which either has the hold.
        let (other, _) = PRICES[8 - byte.count_ones() as usize];
        for hold in [0, 1] {
            let priced = pence::<T>(hold, &[byte, !byte], &[byte, !byte]);
            assert_eq!(priced, price + other + 40, "{byte:02X}");
        }
    }
}

/// One byte of 8 ones among such as have none, and one that has none among such as have 8.
pub fn price_at_every_position<T: PriceCalls>() {
    for n in 1..70 {
        for (byte, price, other, other_price) in [(0xFF, 15, 0x00, 3), (0x00, 3, 0xFF, 15)] {
            let mut text = vec![other; n];
            let others = (n as u32 - 1) * other_price;
            for position in 0..n {
                text[position] = byte;
                assert_eq!(pence::<T>(0, &[A], &text), others + price);
                assert_eq!(pence::<T>(0, &[byte], &text), others + price + 40);
                text[position] = other;
            }
        }
    }
}

/// One hold, wherever its occurrence is laid, whichever byte of it has the hold, and also where the
/// pattern goes round its ring more than once.
pub fn holds_around_the_seam<T: PriceCalls>() {
    for m in 1..6 {
        let mut pattern = vec![A; m];
        pattern[m - 1] = C;
        for n in m..=2 * m + 1 {
            for b in 0..n {
                let mut text = vec![0xFF; n];
                for (j, &byte) in pattern.iter().enumerate() {
                    text[(b + j) % n] = byte;
                }
                let expected = (6 * m + 15 * (n - m) + 40) as u32;
                for hold in 0..m as u32 {
                    assert_eq!(pence::<T>(hold, &pattern, &text), expected, "{text:?}");
                }
            }
        }
    }
    for n in 1..6 {
        let mut text = vec![A; n];
        text[0] = C;
        for m in n + 1..4 * n + 2 {
            let pattern: Vec<u8> = text.iter().copied().cycle().take(m).collect();
            for hold in 0..m as u32 {
                let expected = 6 * n as u32 + 40;
                assert_eq!(pence::<T>(hold, &pattern, &text), expected, "{pattern:?}");
            }
        }
    }
    // A hold on each byte, as often as the pattern goes round.
    for (m, n) in [
        (2, 1),
        (128, 1),
        (128, 3),
        (128, 127),
        (128, 128),
        (128, 129),
    ] {
        for hold in [0, m as u32 / 2, m as u32 - 1] {
            assert_eq!(pence::<T>(hold, &vec![A; m], &vec![A; n]), 46 * n as u32);
        }
    }
}

/// A rebate comes off above 4,096 bytes, and off all that is to be paid: with a hold for each byte,
/// with none, and with one for every other byte.
pub fn rebate_at_its_edge<T: PriceCalls>() {
    for (n, all, none, every_other) in [
        (4_095, 188_370, 24_570, 104_403),
        (4_096, 188_416, 24_576, 104_448),
        (4_097, 179_039, 23_353, 99_232),
        (16_384, 715_981, 93_389, 396_903),
    ] {
        let text = vec![A; n];
        assert_eq!(pence::<T>(0, &[A], &text), all, "n {n}");
        assert_eq!(pence::<T>(0, &[C], &text), none, "n {n}");
        let text: Vec<u8> = [A, B].into_iter().cycle().take(n).collect();
        for hold in [0, 1] {
            assert_eq!(pence::<T>(hold, &[A, B], &text), every_other, "n {n}");
        }
    }
}

/// The prices of 4,097 bytes of which 0 to 19 are 03 and the others 00, without a hold: 12,291 and 3
/// more for each 03, less a twentieth of it rounded down.
const ROUNDED: [u32; 20] = [
    11_677, 11_680, 11_683, 11_685, 11_688, 11_691, 11_694, 11_697, 11_700, 11_703, 11_705, 11_708,
    11_711, 11_714, 11_717, 11_720, 11_723, 11_725, 11_728, 11_731,
];

/// Totals with each remainder by 20.
pub fn rebate_at_every_remainder<T: PriceCalls>() {
    let mut remainders = BTreeSet::new();
    for (count, price) in ROUNDED.into_iter().enumerate() {
        let mut text = vec![0x00; 4_097];
        text[..count].fill(0x03);
        assert_eq!(pence::<T>(0, &[0xFF], &text), price);
        // Of a hold's 40 the rebate takes 2, whatever the rest costs.
        for (byte, holds) in [(0x03, count), (0x00, 4_097 - count)] {
            let expected = price + 38 * holds as u32;
            assert_eq!(pence::<T>(0, &[byte], &text), expected);
        }
        // With a byte less, no rebate.
        let total = pence::<T>(0, &[0xFF], &text[..4_096]) + 3;
        assert_eq!(total, 12_291 + 3 * count as u32);
        remainders.insert(total % 20);
    }
    assert_eq!(remainders.len(), 20);
}

pub fn dearest_and_cheapest_jobs<T: PriceCalls>() {
    let dearest = [0xFF; 16_384];
    assert_eq!(pence::<T>(0, &[0xFF], &dearest), 856_064);
    for hold in [0, 64, 127] {
        assert_eq!(pence::<T>(hold, &[0xFF; 128], &dearest), 856_064);
    }
    let cheapest = [0x00; 16_384];
    assert_eq!(pence::<T>(0, &[0x00], &cheapest), 669_287);
    assert_eq!(pence::<T>(0, &[0xFF], &cheapest), 46_695);
    assert_eq!(pence::<T>(0, &[0xFF], &[]), 0);
}

/// Every shape of text, just below the length from which on there is a rebate and just above.
pub fn texts_around_the_rebate<T: PriceCalls>() {
    let mut random = Random::seeded(141);
    for shape in SHAPES {
        for m in [1, 2, 7, 30] {
            let job = shape.job(&mut random, m, 4_098);
            for n in 4_094..4_099 {
                let input = Input::new(job.hold as u32, &job.pattern, &job.text[..n]);
                check_exact::<Price<T>>(input);
            }
        }
    }
}

pub fn texts_of_any_length<T: PriceCalls>() {
    let mut random = Random::seeded(142);
    for round in 0..120 {
        let (m, n) = (random.between(1, 12), random.between(0, 16_384));
        let job = SHAPES[round % SHAPES.len()].job(&mut random, m, n);
        // Begun at any position of a word.
        let text = &job.text[(round % 8).min(n)..];
        check_exact::<Price<T>>(Input::new(job.hold as u32, &job.pattern, text));
    }
}

/// Whichever byte of each occurrence has the hold, the holds are as many.
pub fn same_price_for_every_hold_offset<T: PriceCalls>() {
    let mut random = Random::seeded(143);
    let generated = searches::jobs().filter(|job| job.text.len() <= 2_000);
    let above_the_edge = SHAPES.map(|shape| shape.job(&mut random, 9, 5_000));
    for Job { pattern, text, .. } in generated.chain(above_the_edge) {
        let price = pence::<T>(0, &pattern, &text);
        for hold in 1..pattern.len() as u32 {
            assert_eq!(
                pence::<T>(hold, &pattern, &text),
                price,
                "pattern {}, q {hold}, text {}",
                shown(&pattern),
                shown(&text)
            );
        }
    }
}

/// A job costs what the model reckons over the frames that converting gives.
pub fn price_by_the_frames<T: PriceCalls + ConverterCalls>() {
    let mut random = Random::seeded(144);
    let longer = (0..40).map(|round| {
        let (m, n) = (random.between(1, 128), random.between(3_500, 16_384));
        SHAPES[round % SHAPES.len()].job(&mut random, m, n)
    });
    for job in searches::jobs().chain(longer) {
        let (_, frames) = converted::<T>(&job);
        let priced = pence::<T>(job.hold as u32, &job.pattern, &job.text);
        assert_eq!(
            priced,
            cost(&job.text, &frames),
            "pattern {}, q {}, text {}",
            shown(&job.pattern),
            job.hold,
            shown(&job.text)
        );
    }
}

/// The tables and the occurrences are left as searching leaves them, in buffers that are longer than
/// needed and held the same before.
pub fn buffers_as_searching_leaves_them<T: PriceCalls + MatcherCalls>() {
    let most_found = Shape::OneByte.job(&mut Random::seeded(145), 1, 16_384);
    for job in searches::jobs().chain([most_found]) {
        let (m, n) = (job.pattern.len(), job.text.len());
        let context = || format!("pattern {}, text {}", shown(&job.pattern), shown(&job.text));
        for (seed, tables) in TableBuffers::fillings(m, longer(m)).into_iter().enumerate() {
            let found = Buffer::junk(n + 9, seed);
            let (mut priced_tables, mut priced_found) = (tables.clone(), found.clone());
            let priced = T::price(
                job.hold as u32,
                &job.pattern,
                &job.text,
                priced_tables.lent(),
                priced_found.lent(),
            );
            let (mut searched_tables, mut searched_found) = (tables, found);
            let searched = T::search(
                &job.pattern,
                &job.text,
                searched_tables.lent(),
                searched_found.lent(),
            );
            assert_eq!((priced.answer.status, searched.status), (0, 0));
            priced_found.expect(&searched_found, "found", &context);
            priced_tables.expect(&searched_tables, &context);
        }
    }
}
