//! The caller's buffers for the tables of a pattern. What lists the tables one by one is here.

use ruffarmoire_model::calls::{Outcome, TableLengths};
use ruffarmoire_model::MAX_PATTERN;

use super::harness::{expect_front, reserved, Buffer, Entry};
use super::lengths::BufferLengths;

/// The model's numbers as entries of a buffer.
pub fn entries(numbers: &[usize]) -> Vec<u16> {
    numbers
        .iter()
        .map(|&number| u16::try_from(number).expect("an entry has 16 bits"))
        .collect()
}

impl BufferLengths for TableLengths {
    fn each(&mut self) -> Vec<&mut usize> {
        vec![
            &mut self.order,
            &mut self.delta2,
            &mut self.delta1,
            &mut self.delta3,
        ]
    }
}

/// Lengths that are longer than a pattern of m bytes needs.
pub fn longer(m: usize) -> TableLengths {
    TableLengths {
        order: m + 2,
        delta2: m + 40,
        delta1: 256 * m + 300,
        delta3: m + 5,
    }
}

/// The buffers as a call is lent them.
pub struct LentTables<'a> {
    pub order: &'a mut [i16],
    pub delta2: &'a mut [u16],
    pub delta1: &'a mut [u16],
    pub delta3: &'a mut [u16],
}

impl LentTables<'_> {
    /// Buffers of this length that are all zeros and take memory only where they are touched.
    pub fn reserved(length: usize) -> LentTables<'static> {
        LentTables {
            order: reserved(length),
            delta2: reserved(length),
            delta1: reserved(length),
            delta3: reserved(length),
        }
    }

    /// The same buffers, lent on.
    pub fn lent(&mut self) -> LentTables<'_> {
        LentTables {
            order: self.order,
            delta2: self.delta2,
            delta1: self.delta1,
            delta3: self.delta3,
        }
    }

    /// Sees that buffers of zeros have a call's entries in front, and zeros behind them.
    pub fn expect_front(&self, outcome: &Outcome) {
        expect_front(self.order, &outcome.order);
        expect_front(self.delta2, &entries(&outcome.delta2));
        expect_front(self.delta1, &entries(&outcome.delta1));
        expect_front(self.delta3, &entries(&outcome.delta3));
    }
}

#[derive(Clone)]
pub struct TableBuffers {
    order: Buffer<i16>,
    delta2: Buffer<u16>,
    delta1: Buffer<u16>,
    delta3: Buffer<u16>,
}

impl TableBuffers {
    /// Two fillings for a pattern of m bytes: junk, and tables that look right and are wrong, with
    /// the positions from the last down and every shift m. An entry that is left by chance as it
    /// should be is seen in one of them.
    pub fn fillings(m: usize, lengths: TableLengths) -> [TableBuffers; 2] {
        // A pattern that is too long has no tables; then some of the longest that there are.
        let m = m.min(MAX_PATTERN);
        let shift = m as u16;
        let order: Vec<i16> = (-1..m as i16).rev().collect();
        let mut delta2 = vec![shift; m + 1];
        delta2[0] = 0;
        [
            TableBuffers {
                order: Buffer::junk(lengths.order, m),
                delta2: Buffer::junk(lengths.delta2, m + 7),
                delta1: Buffer::junk(lengths.delta1, m + 14),
                delta3: Buffer::junk(lengths.delta3, m + 21),
            },
            TableBuffers {
                order: looking_like(&order, lengths.order, m + 101),
                delta2: looking_like(&delta2, lengths.delta2, m + 108),
                delta1: looking_like(&vec![shift; 256 * m], lengths.delta1, m + 115),
                delta3: looking_like(&vec![shift; m], lengths.delta3, m + 122),
            },
        ]
    }

    pub fn lent(&mut self) -> LentTables<'_> {
        LentTables {
            order: self.order.lent(),
            delta2: self.delta2.lent(),
            delta1: self.delta1.lent(),
            delta3: self.delta3.lent(),
        }
    }

    /// The buffers after a call with this outcome.
    pub fn after(self, outcome: &Outcome) -> TableBuffers {
        TableBuffers {
            order: self.order.after(&outcome.order),
            delta2: self.delta2.after(&entries(&outcome.delta2)),
            delta1: self.delta1.after(&entries(&outcome.delta1)),
            delta3: self.delta3.after(&entries(&outcome.delta3)),
        }
    }

    pub fn expect(&self, expected: &TableBuffers, context: &dyn Fn() -> String) {
        self.order.expect(&expected.order, "order", context);
        self.delta2.expect(&expected.delta2, "delta2", context);
        self.delta1.expect(&expected.delta1, "delta1", context);
        self.delta3.expect(&expected.delta3, "delta3", context);
    }
}

/// A buffer with these entries in front as far as they fit, and junk past them.
fn looking_like<T: Entry>(front: &[T], length: usize, seed: usize) -> Buffer<T> {
    Buffer::junk(length, seed).after(&front[..front.len().min(length)])
}
