//! The bound by its parts, and searches whose period and bound are written out.

use ruffarmoire_model::job::Job;

use super::words::period;

/// A search, and what it answers beside its occurrences.
pub struct Bounded {
    pub pattern: Vec<u8>,
    pub text: Vec<u8>,
    pub period: u32,
    pub bound: u32,
}

impl Bounded {
    /// The job of the search, with the last hold offset.
    pub fn job(&self) -> Job {
        Job {
            pattern: self.pattern.clone(),
            hold: self.pattern.len() - 1,
            text: self.text.clone(),
        }
    }

    /// Sees that what is printed has the period and the bound on the lines due for them.
    pub fn expect_printed(&self, printed: &str) {
        let lines: Vec<&str> = printed.lines().take(5).collect();
        let expected = [
            format!("{:04X}", self.period),
            format!("{:08X}", self.bound),
        ];
        assert_eq!(lines[3..5], expected);
    }
}

/// The bound of a search with h occurrences by its parts: two comparisons for each position before the
/// last of the ring, a whole pattern there, and where the pattern has no three whole periods, for each
/// occurrence its bytes past the first two.
pub fn bound_by_parts(pattern: &[u8], n: usize, h: usize) -> usize {
    match n.checked_sub(1) {
        Some(last) => {
            let (m, p) = (pattern.len(), period(pattern) as usize);
            let past = if m / p == 2 { m % p } else { 0 };
            2 * last + m + h * past
        }
        None => 0,
    }
}

/// Of all searches for a pattern of m bytes in texts of up to 11, over two bytes, how many have
/// comparisons and meet their bound: for m from 1 to 6.
pub const MET: [usize; 6] = [4, 24, 6, 6, 8, 8];

/// Those among them whose pattern has at least three periods: one byte throughout, of which there are
/// two, each in the ring of that one byte, where all that is compared is the pattern once.
pub const MET_BY_LONG_REPEATS: [usize; 6] = [0, 0, 2, 2, 2, 2];

/// Pattern and text by the letters of document 01's examples, and then p and the bound.
type Short = (&'static str, &'static str, u32, u32);

/// The bound is 0 for an empty text, and else 2 (n + m - 1) - m and what each occurrence adds, where m
/// is above 2 p and below 3 p.
const SHORT: &[Short] = &[
    // m is 1.
    ("a", "", 1, 0),
    ("a", "a", 1, 1),
    ("a", "c", 1, 1),
    ("a", "aca", 1, 5),
    ("a", "cccc", 1, 7),
    // p is m.
    ("ab", "", 2, 0),
    ("ab", "a", 2, 2),
    ("ab", "ab", 2, 4),
    ("ab", "bb", 2, 4),
    ("ab", "aaab", 2, 8),
    ("abc", "ab", 3, 5),
    ("abc", "abc", 3, 7),
    ("abc", "abcabc", 3, 13),
    ("cbaaa", "cbaa", 5, 11),
    ("cbaaa", "cbaaa", 5, 13),
    ("cbaaa", "cccbaaa", 5, 17),
    // p is below m, and m below 2 p.
    ("aba", "", 2, 0),
    ("aba", "ab", 2, 5),
    ("aba", "aba", 2, 7),
    ("aba", "ababa", 2, 11),
    ("aaca", "aacaaaca", 3, 18),
    ("aacaa", "", 3, 0),
    ("aacaa", "aac", 3, 9),
    ("aacaa", "aaca", 3, 11),
    ("aacaa", "aacaa", 3, 13),
    ("aacaa", "ccccc", 3, 13),
    ("aacaa", "aacaaacaa", 3, 21),
    // m is 2 p.
    ("aa", "", 1, 0),
    ("aa", "a", 1, 2),
    ("aa", "aa", 1, 4),
    ("aa", "aaaa", 1, 8),
    ("abab", "aba", 2, 8),
    ("abab", "abab", 2, 10),
    ("abab", "bbbb", 2, 10),
    ("abab", "ababab", 2, 14),
    ("aacaac", "aacaacaac", 3, 22),
    // m is above 2 p and below 3 p: each occurrence adds m - 2 p. Texts have none, one and more.
    ("ababa", "a", 2, 5),
    ("ababa", "ab", 2, 8),
    ("ababa", "abab", 2, 13),
    ("ababa", "babab", 2, 13),
    ("ababa", "ababa", 2, 14),
    ("ababa", "ababaaa", 2, 18),
    ("ababa", "abababa", 2, 19),
    ("ababa", "ababababaaa", 2, 28),
    ("aacaaca", "aacaacaaca", 3, 27),
    ("aacaacaa", "aac", 3, 14),
    ("aacaacaa", "aacaaca", 3, 22),
    ("aacaacaa", "aacaacaaaaa", 3, 30),
    ("aacaacaa", "aacaacaacaa", 3, 32),
    // m is 3 p: occurrences add nothing.
    ("aaa", "", 1, 0),
    ("aaa", "a", 1, 3),
    ("aaa", "aa", 1, 5),
    ("aaa", "aca", 1, 7),
    ("aaa", "aaa", 1, 7),
    ("aaa", "aacaaa", 1, 13),
    ("aaa", "aaaaaa", 1, 13),
    ("ababab", "ababa", 2, 14),
    ("ababab", "ababaa", 2, 16),
    ("ababab", "ababab", 2, 16),
    ("ababab", "ababababab", 2, 24),
    ("aacaacaac", "aacaacaa", 3, 23),
    ("aacaacaac", "aacaacaacaacaac", 3, 37),
    // m is above 3 p.
    ("aaaa", "aaa", 1, 8),
    ("aaaa", "aaaaaa", 1, 14),
    ("abababa", "abababa", 2, 19),
    ("abababa", "ababababa", 2, 23),
    ("aacaacaacaa", "aacaacaacaaacaacaacaa", 3, 51),
];

/// The letters that a pattern has again and again and its length; the same of a text, and how it ends;
/// and then p and the bound.
type Long = (
    (&'static str, usize),
    (&'static str, usize, &'static str),
    u32,
    u32,
);

/// Roots of 42 and 43 letters, with one letter that they have once.
const ROOT_OF_42: &str = "aaaaaaaaaaaaaaaaaaaaaaaaaaaaaaaaaaaaaaaaac";
const ROOT_OF_43: &str = "aaaaaaaaaaaaaaaaaaaaaaaaaaaaaaaaaaaaaaaaaac";

/// Texts as long as can be, or about as long as the longest pattern.
const LONG: &[Long] = &[
    (("a", 128), ("a", 0, ""), 1, 0),
    (("a", 128), ("a", 1, ""), 1, 128),
    (("a", 128), ("a", 127, ""), 1, 380),
    (("a", 128), ("a", 128, ""), 1, 382),
    (("a", 1), ("a", 16_384, ""), 1, 32_767),
    (("a", 2), ("a", 16_384, ""), 1, 32_768),
    (("a", 3), ("a", 16_384, ""), 1, 32_769),
    (("a", 128), ("c", 16_384, ""), 1, 32_894),
    (("a", 128), ("a", 16_384, ""), 1, 32_894),
    (("ca", 5), ("ca", 16_384, ""), 2, 40_963),
    (("ca", 127), ("ca", 16_384, ""), 2, 32_893),
    (("ca", 128), ("ca", 16_384, "aa"), 2, 32_894),
    (("aac", 8), ("aac", 16_384, ""), 3, 43_694),
    (("aac", 128), ("aac", 16_384, ""), 3, 32_894),
    ((ROOT_OF_42, 125), (ROOT_OF_42, 16_384, ""), 42, 48_840),
    ((ROOT_OF_42, 126), (ROOT_OF_42, 16_384, ""), 42, 32_892),
    ((ROOT_OF_42, 128), (ROOT_OF_42, 16_384, ""), 42, 32_894),
    ((ROOT_OF_43, 128), (ROOT_OF_43, 16_384, ""), 43, 48_854),
];

/// All searches that are written out.
pub fn written_out() -> impl Iterator<Item = Bounded> {
    let short = SHORT.iter().map(|&(pattern, text, period, bound)| Bounded {
        pattern: bytes(pattern),
        text: bytes(text),
        period,
        bound,
    });
    let long = LONG.iter().map(|&(pattern, text, period, bound)| {
        let ((root, m), (text_root, n, end)) = (pattern, text);
        let mut text = repeated(text_root, n - end.len());
        text.extend(bytes(end));
        Bounded {
            pattern: repeated(root, m),
            text,
            period,
            bound,
        }
    });
    short.chain(long)
}

/// The bytes of some letters.
fn bytes(letters: &str) -> Vec<u8> {
    let byte = |letter| match letter {
        'a' => 0x06,
        'b' => 0x01,
        'c' => 0x18,
        other => panic!("{other} is no letter of the examples"),
    };
    letters.chars().map(byte).collect()
}

/// The bytes of some letters again and again.
fn repeated(letters: &str, length: usize) -> Vec<u8> {
    bytes(letters).into_iter().cycle().take(length).collect()
}
