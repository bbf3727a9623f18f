/// The nodes that are to be visited: a bit for each.
pub struct Due(Vec<u64>);

impl Due {
    /// None of so many nodes.
    pub fn none(nodes: usize) -> Due {
        Due(vec![0; nodes.div_ceil(64)])
    }

    pub fn add(&mut self, node: usize) {
        self.0[node / 64] |= 1 << (node % 64);
    }

    /// Takes out the first one from a place on, if there is one. The place itself is looked at first: mostly it is the one, and a processor
    /// that guesses so goes on before the word is known.
    #[inline]
    pub fn take(&mut self, from: usize) -> Option<usize> {
        let word = *self.0.get(from / 64)?;
        if word >> (from % 64) & 1 == 1 {
            self.0[from / 64] = word & !(1 << (from % 64));
            return Some(from);
        }
        let ahead = word & u64::MAX << (from % 64);
        if ahead != 0 {
            return Some(self.take_of(from / 64, ahead));
        }
        let at = (from / 64 + 1..self.0.len()).find(|&at| self.0[at] != 0)?;
        Some(self.take_of(at, self.0[at]))
    }

    /// Takes the first one out of a word, of which these bits count.
    fn take_of(&mut self, at: usize, bits: u64) -> usize {
        let bit = bits.trailing_zeros() as usize;
        self.0[at] &= !(1 << bit);
        64 * at + bit
    }
}
