//! The text as a ring: its last byte is followed by its first.

/// The byte at position x of a text that is not empty: its byte number x modulo n.
pub fn byte_at(text: &[u8], x: usize) -> u8 {
    let n = text.len();
    // Below n it is x itself, and the division would only take time.
    text[if x < n { x } else { x % n }]
}

/// How many positions a pattern of m bytes comes to lie on in a text of n: n + m - 1, since the last
/// alignment begins at n - 1. An empty text has none.
pub fn span(m: usize, n: usize) -> usize {
    if n == 0 {
        0
    } else {
        n + m - 1
    }
}

/// A ring started r entries later: those from r on, then those before.
pub fn started_later<T: Copy>(ring: &[T], r: usize) -> Vec<T> {
    [&ring[r..], &ring[..r]].concat()
}

/// Positions of a ring of n bytes turned back by r around it: where they are in the ring started r bytes
/// later, ascending again.
pub fn turned_back(positions: &[usize], n: usize, r: usize) -> Vec<usize> {
    let mut turned: Vec<usize> = positions.iter().map(|b| (b + n - r) % n).collect();
    turned.sort_unstable();
    turned
}
