//! Everything that is asked of searching, for any implementation of the call.

use std::marker::PhantomData;

use ruffarmoire_model::answers::Answer;
use ruffarmoire_model::calls::{self, Outcome};
use ruffarmoire_model::ring::started_later;

use super::searching::{check_exact, check_examples, Input, Lengths, Lent, SearchingCall};
use super::table_buffers::LentTables;

/// An implementation of searching.
pub trait MatcherCalls {
    fn search(pattern: &[u8], text: &[u8], tables: LentTables, found: &mut [u16]) -> Answer;
}

/// A test program's tests: all of this module on one implementation.
macro_rules! matcher_suite {
    ($calls:ty) => {
        searching_tests!(crate::common::matcher_suite::Search<$calls>);
        bound_tests!(crate::common::matcher_suite::Search<$calls>);
        tests_of!(matcher_suite, $calls: worked_examples,);
    };
}

/// Searching as a call that searches.
pub struct Search<T>(PhantomData<T>);

impl<T: MatcherCalls> SearchingCall for Search<T> {
    type Answer = Answer;

    const TAKES_HOLD: bool = false;
    const TAKES_FRAMES: bool = false;

    fn call(input: Input, lent: Lent) -> Answer {
        T::search(input.pattern, input.text, lent.tables, lent.found)
    }

    fn model(input: Input, lengths: Lengths) -> (Answer, Outcome) {
        let outcome = calls::search(input.pattern, input.text, lengths.tables, lengths.found);
        (outcome.answer, outcome)
    }
}

pub fn worked_examples<T: MatcherCalls>() {
    check_examples::<Search<T>>();
    const A: u8 = 0x06;
    const B: u8 = 0x01;
    const C: u8 = 0x18;
    let expect = |pattern: &[u8], text: &[u8], occurrences: &[usize], comparisons: u32| {
        let outcome = check_exact::<Search<T>>(Input::new(0, pattern, text));
        assert_eq!(outcome.occurrences, occurrences);
        assert_eq!(outcome.answer.comparisons, comparisons);
    };
    let listing = [A, A, C, A, A, A, C, A, A];
    expect(&[A, A, C, A, A], &listing, &[0, 4], 13);
    expect(&[A, A, C, A, A], &[], &[], 0);
    expect(&[A], &[A], &[0], 1);
    expect(&[A; 4], &[A; 6], &[0, 1, 2, 3, 4, 5], 9);
    expect(&[A], &[A, C, A], &[0, 2], 3);
    expect(&[A, A], &[A], &[0], 2);
    // The listing started one, two and five bytes later.
    for (r, occurrences, comparisons) in [(1, [3, 8], 15), (2, [2, 7], 12), (5, [4, 8], 18)] {
        let text = started_later(&listing, r);
        expect(&[A, A, C, A, A], &text, &occurrences, comparisons);
    }
    // Two copies that share a byte, of a pattern of more than three periods.
    let pattern = [A, A, C, A, A, C, A, A, C, A, A];
    let sharing = [&pattern[..], &pattern[1..]].concat();
    expect(&pattern, &sharing, &[0, 10], 25);
    // Five periods that go round.
    let net = [A, A, C].repeat(5);
    expect(&pattern, &net, &[0, 3, 6, 9, 12], 23);
    // Over the seam, and round more than once.
    expect(&[A, C, A], &[C, A, A], &[2], 5);
    expect(&[A, C, A, C, A], &[C, A], &[1], 6);
    expect(&[A, C, A], &[A], &[], 3);
    // Positions 4 and 2 agree and 3 differs; the next alignment is five on.
    let text = [C, C, A, C, A, C, B, A, A, A];
    expect(&[C, B, A, A, A], &text, &[5], 8);
    // Rings that differ only where no comparison is made, and one that differs where one is.
    expect(&[A, C], &[A, A, C], &[1], 3);
    expect(&[A, C], &[B, A, C], &[1], 3);
    expect(&[A, C], &[A, A, A], &[], 3);
}
