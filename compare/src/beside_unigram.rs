// Read out beside `Lattice`: its private look-up and, after `segment` has run on this thread, its slots and its path.
// (Plain comments: this text is included at the end of a copy of unigram.rs.)

impl Lattice {
    pub(crate) fn exact_of(&self, text: &[u8]) -> Option<u32> {
        self.exact(text)
    }
}

/// For each position up to the text's length, the slot that this call filled: start, id, score.
pub(crate) fn slots_of_last(n: usize) -> Vec<Option<(u32, u32, f64)>> {
    let stamp = SEG_GEN.with(|cell| cell.get());
    SEG_ENDS.with(|ends| {
        ends.borrow()[..=n].iter().map(|s| (s.stamp == stamp).then_some((s.start, s.id, s.score))).collect()
    })
}

/// The ends of the pieces before merging, in order.
pub(crate) fn path_of_last() -> Vec<u32> {
    SEG_PATH.with(|path| path.borrow().iter().map(|p| p.1 as u32).collect())
}
