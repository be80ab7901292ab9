//! What the suites share: how a suite becomes tests, and the buffers that a call is lent.

use std::fmt::Debug;

/// The tests of one suite on one implementation of its calls.
macro_rules! tests_of {
    ($suite:ident, $calls:ty: $($test:ident,)*) => {
        $(
            #[test]
            fn $test() {
                crate::common::$suite::$test::<$calls>();
            }
        )*
    };
}

/// An entry of a buffer.
pub trait Entry: Copy + PartialEq + Debug {
    /// The lowest bits of a number.
    fn of(number: usize) -> Self;
}

macro_rules! entries {
    ($($entry:ty)*) => {
        $(
            impl Entry for $entry {
                fn of(number: usize) -> $entry {
                    number as $entry
                }
            }
        )*
    };
}

entries!(u8 u16 i16);

/// Entries on either side of a buffer that no call may touch.
pub const MARGIN: usize = 16;

/// A buffer with a margin on either side. What it holds at first differs from entry to entry.
#[derive(Clone, PartialEq)]
pub struct Buffer<T> {
    entries: Vec<T>,
}

impl<T: Entry> Buffer<T> {
    /// Two seeds that differ by less than 256 give entries that differ everywhere.
    pub fn junk(length: usize, seed: usize) -> Buffer<T> {
        let entries = (0..length + 2 * MARGIN)
            .map(|index| T::of(index * 40_503 + index / 256 * 59 + seed))
            .collect();
        Buffer { entries }
    }

    pub fn lent(&mut self) -> &mut [T] {
        let end = self.entries.len() - MARGIN;
        &mut self.entries[MARGIN..end]
    }

    /// The buffer after a call that puts these entries at its front. Past them it is as it was.
    pub fn after(mut self, front: &[T]) -> Buffer<T> {
        self.lent()[..front.len()].copy_from_slice(front);
        self
    }

    /// Tells the first entry in which two buffers differ, counted from the lent buffer's start.
    pub fn expect(&self, expected: &Buffer<T>, name: &str, context: &dyn Fn() -> String) {
        if self != expected {
            let index = (0..self.entries.len())
                .find(|&index| self.entries[index] != expected.entries[index])
                .expect("they differ");
            panic!(
                "{name}: entry {} is {:02X?} and not {:02X?}; {}",
                index as isize - MARGIN as isize,
                self.entries[index],
                expected.entries[index],
                context()
            );
        }
    }
}

/// Sees that a buffer of zeros has a call's entries in front, and zeros behind them.
pub fn expect_front<T: Entry>(buffer: &[T], front: &[T]) {
    assert_eq!(buffer[..front.len() + 8], [front, &[T::of(0); 8]].concat());
}

/// The front of some bytes, for a message.
pub fn shown(bytes: &[u8]) -> String {
    let front = bytes[..bytes.len().min(200)].escape_ascii();
    format!("{} bytes \"{front}\"", bytes.len())
}

/// Address space that is all zeros and takes memory only where it is touched.
pub fn reserved<T: Entry>(length: usize) -> &'static mut [T] {
    use std::ffi::{c_int, c_void};
    extern "C" {
        fn mmap(
            address: *mut c_void,
            length: usize,
            protection: c_int,
            flags: c_int,
            file: c_int,
            offset: i64,
        ) -> *mut c_void;
    }
    const READ_AND_WRITE: c_int = 1 | 2;
    const PRIVATE_ANONYMOUS_WITHOUT_RESERVE: c_int = 0x02 | 0x20 | 0x4000;
    // SAFETY: a fresh mapping at an address that the system chooses; it is kept until the process
    // ends, and nothing else refers to it. Zeros are entries of each kind.
    unsafe {
        let address = mmap(
            std::ptr::null_mut(),
            length * size_of::<T>(),
            READ_AND_WRITE,
            PRIVATE_ANONYMOUS_WITHOUT_RESERVE,
            -1,
            0,
        );
        assert_ne!(address as isize, -1, "no address space of {length} entries");
        std::slice::from_raw_parts_mut(address.cast(), length)
    }
}
