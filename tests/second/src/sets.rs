//! Sets of labels and of label pairs, one yes or no for each possible member.

use crate::LABELS;

#[derive(Clone, PartialEq, Eq)]
pub struct Labels([bool; LABELS]);

#[derive(Clone, PartialEq, Eq)]
pub struct Pairs([bool; LABELS * LABELS]);

impl Labels {
    pub fn empty() -> Self {
        Labels([false; LABELS])
    }

    pub fn has(&self, l: usize) -> bool {
        self.0[l]
    }

    /// Puts `l` in and says if it was missing.
    pub fn put(&mut self, l: usize) -> bool {
        !std::mem::replace(&mut self.0[l], true)
    }

    pub fn join(&mut self, other: &Labels) {
        for (mine, theirs) in self.0.iter_mut().zip(&other.0) {
            *mine |= *theirs;
        }
    }

    pub fn members(&self) -> impl Iterator<Item = usize> + '_ {
        (0..LABELS).filter(|&l| self.0[l])
    }
}

impl Pairs {
    pub fn empty() -> Self {
        Pairs([false; LABELS * LABELS])
    }

    pub fn has(&self, a: usize, b: usize) -> bool {
        self.0[a * LABELS + b]
    }

    /// Puts (a, b) in, this way round only, and says if it was missing.
    pub fn put(&mut self, a: usize, b: usize) -> bool {
        !std::mem::replace(&mut self.0[a * LABELS + b], true)
    }

    pub fn join(&mut self, other: &Pairs) {
        for (mine, theirs) in self.0.iter_mut().zip(&other.0) {
            *mine |= *theirs;
        }
    }

    /// Every pair of one of `left` and one of `right`, both ways round.
    pub fn cross(&mut self, left: &Labels, right: &Labels) {
        for a in left.members() {
            for b in right.members() {
                self.put(a, b);
                self.put(b, a);
            }
        }
    }

    /// The matrix: bit j of word i stands for (i, j).
    pub fn words(&self) -> [u64; LABELS] {
        let mut words = [0u64; LABELS];
        for (i, word) in words.iter_mut().enumerate() {
            for j in 0..LABELS {
                if self.has(i, j) {
                    *word += 1u64 << j;
                }
            }
        }
        words
    }

    /// The pairs (i, j) with i not above j, ascending.
    pub fn listed(&self) -> Vec<(usize, usize)> {
        let mut all = Vec::new();
        for i in 0..LABELS {
            for j in i..LABELS {
                if self.has(i, j) {
                    all.push((i, j));
                }
            }
        }
        all
    }
}

/// The three sets of a statement or of a procedure.
#[derive(Clone, PartialEq, Eq)]
pub struct Summary {
    pub m: Pairs,
    pub o: Labels,
    pub l: Labels,
}

impl Summary {
    pub fn empty() -> Self {
        Summary {
            m: Pairs::empty(),
            o: Labels::empty(),
            l: Labels::empty(),
        }
    }
}
