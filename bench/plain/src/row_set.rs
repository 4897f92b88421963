//! Sets of rows, a bit for each.

use crate::limit::ROWS;

const WORDS: usize = ROWS / 64;

#[derive(Clone, Copy, PartialEq, Eq)]
pub struct RowSet {
    pub words: [u64; WORDS],
    pub n: u16,
}

/// What a form is asked of a set: at which columns its row has a 1.
pub trait Ones {
    fn has(&self, column: u16) -> bool;
    fn ones(&self) -> impl Iterator<Item = u16>;
}

impl Ones for RowSet {
    fn has(&self, row: u16) -> bool {
        RowSet::has(self, row)
    }

    fn ones(&self) -> impl Iterator<Item = u16> {
        self.rows()
    }
}

/// How many rows are left of a set, as far as it matters: none, so few that an answer would tell of one, or more.
#[derive(Clone, Copy, PartialEq, Eq)]
pub enum Left {
    None,
    Few,
    More,
}

impl RowSet {
    pub fn new(n: u16) -> RowSet {
        RowSet {
            words: [0; WORDS],
            n,
        }
    }

    pub fn full(n: u16) -> RowSet {
        let mut set = RowSet::new(n);
        set.flip();
        set
    }

    pub fn has(&self, row: u16) -> bool {
        self.words[usize::from(row >> 6)] >> (row & 63) & 1 == 1
    }

    pub fn add(&mut self, row: u16) {
        self.words[usize::from(row >> 6)] |= 1 << (row & 63);
    }

    pub fn len(&self) -> u32 {
        self.words.iter().map(|word| word.count_ones()).sum()
    }

    pub fn is_empty(&self) -> bool {
        self.words == [0; WORDS]
    }

    pub fn is_single(&self) -> bool {
        let mut words = self.words.iter().filter(|word| **word != 0);
        let is_power = |word: &u64| word & (word - 1) == 0;
        words.next().is_some_and(is_power) && words.next().is_none()
    }

    pub fn and_with(&mut self, other: &RowSet) {
        for (word, with) in self.words.iter_mut().zip(&other.words) {
            *word &= with;
        }
    }

    pub fn or_with(&mut self, other: &RowSet) {
        for (word, with) in self.words.iter_mut().zip(&other.words) {
            *word |= with;
        }
    }

    pub fn minus_with(&mut self, other: &RowSet) {
        for (word, with) in self.words.iter_mut().zip(&other.words) {
            *word &= !with;
        }
    }

    pub fn flip(&mut self) {
        let n = usize::from(self.n);
        for (k, word) in self.words.iter_mut().enumerate() {
            let rows = n.saturating_sub(64 * k);
            let mask = if rows < 64 { (1 << rows) - 1 } else { u64::MAX };
            *word = !*word & mask;
        }
    }

    /// The rows of both.
    pub fn shared(&self, other: &RowSet) -> RowSet {
        let mut both = *self;
        both.and_with(other);
        both
    }

    pub fn is_within(&self, other: &RowSet) -> bool {
        let mut pairs = self.words.iter().zip(&other.words);
        pairs.all(|(word, with)| word & !with == 0)
    }

    /// Whether no row is outside of the other set, one alone, or more.
    #[inline]
    pub fn left_without(&self, other: &RowSet) -> Left {
        let mut left = Left::None;
        for (word, with) in self.words.iter().zip(&other.words) {
            let rest = word & !with;
            if rest != 0 {
                if left == Left::Few || rest & (rest - 1) != 0 {
                    return Left::More;
                }
                left = Left::Few;
            }
        }
        left
    }

    pub fn rows(&self) -> Rows {
        Rows {
            words: self.words,
            place: 0,
        }
    }
}

/// A walk over the rows in ascending order.
pub struct Rows {
    words: [u64; WORDS],
    place: usize,
}

impl Iterator for Rows {
    type Item = u16;

    fn next(&mut self) -> Option<u16> {
        while self.place < WORDS && self.words[self.place] == 0 {
            self.place += 1;
        }
        let word = self.words.get_mut(self.place)?;
        let row = 64 * self.place as u16 + word.trailing_zeros() as u16;
        *word &= *word - 1;
        Some(row)
    }
}
