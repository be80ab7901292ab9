//! The lengths of the buffers that a call is lent: enough of them, too few, and every choice.

/// The lengths of all buffers that a call takes.
pub trait BufferLengths: Copy {
    fn each(&mut self) -> Vec<&mut usize>;

    /// These lengths, but for one buffer.
    fn with(mut self, which: usize, length: usize) -> Self {
        *self.each()[which] = length;
        self
    }

    /// Each length changed.
    fn changed(mut self, change: impl Fn(usize) -> usize) -> Self {
        for length in self.each() {
            *length = change(*length);
        }
        self
    }

    /// These lengths, but for one buffer in turn, which is an entry shorter than needed. A buffer
    /// that needs no entry has no turn.
    fn one_too_short(self, mut needed: Self) -> Vec<Self> {
        let mut all = Vec::new();
        for (which, length) in needed.each().into_iter().enumerate() {
            if *length > 0 {
                all.push(self.with(which, *length - 1));
            }
        }
        all
    }

    /// Every choice of lengths, of those that are given for the length of each buffer here.
    fn choices(mut self, given: impl Fn(usize) -> Vec<usize>) -> Vec<Self> {
        let mut all = vec![self];
        for (which, length) in self.each().into_iter().enumerate() {
            let given = given(*length);
            let with_each =
                |chosen: Self| given.iter().map(move |&length| chosen.with(which, length));
            all = all.into_iter().flat_map(with_each).collect();
        }
        all
    }

    /// Whether no buffer is shorter than needed.
    fn are_enough(mut self, mut needed: Self) -> bool {
        let mut both = self.each().into_iter().zip(needed.each());
        both.all(|(length, needed)| length >= needed)
    }
}
