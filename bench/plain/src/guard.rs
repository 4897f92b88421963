//! What is guarded of rows. A row stands for so many people, one if there is no column of counts. Fewer than so many people are few, two if the
//! schema says nothing: what few have together is guarded against everybody. If the askers are in the table one of them may be among those
//! behind the rows, so that one more is few; and from an asker who knows her own row, which is one of one person, the number of each
//! other row of few people is guarded.

use crate::row_set::{Left, RowSet};

#[derive(Clone)]
pub struct Guard {
    /// How many people stand for each row.
    people: Vec<i64>,
    /// So many people, and fewer, are few against one who knows no number.
    most: i64,
    /// The rows of one person.
    pub single: RowSet,
    /// The rows whose number nobody may work out who knows none.
    pub against_all: RowSet,
    /// The rows whose number nobody may work out who knows one.
    pub against_askers: RowSet,
    /// Whether the askers are in the table, each of whom may know one row.
    pub inside: bool,
    /// Whether each row is of one person, two are told of together, and nobody knows any.
    is_plain: bool,
}

impl Guard {
    /// Of rows that stand for so many people each, or for one each, of whom fewer than this are guarded.
    pub fn new(n: u16, people: Option<&[i64]>, fewest: i64, inside: bool) -> Guard {
        let people = people.map_or(vec![1; usize::from(n)], <[i64]>::to_vec);
        let up_to = |most: i64| {
            let mut rows = RowSet::new(n);
            let of_so_many = (0..n).filter(|row| people[usize::from(*row)] <= most);
            of_so_many.for_each(|row| rows.add(row));
            rows
        };
        let single = up_to(1);
        let most = fewest - 1 + i64::from(inside);
        Guard {
            most,
            single,
            against_all: up_to(most),
            against_askers: up_to(fewest - 1),
            inside,
            is_plain: most == 1 && single == RowSet::full(n),
            people,
        }
    }

    /// Whether so few people are behind these rows that they may not be the only ones who can have an answer.
    pub fn is_few(&self, rows: &RowSet) -> bool {
        if self.is_plain {
            return rows.is_single();
        }
        let mut left = self.most;
        for row in rows.rows() {
            left -= self.people[usize::from(row)];
            if left < 0 {
                return false;
            }
        }
        !rows.is_empty()
    }

    /// Whether a set loses all its rows to the other one, all but a few, or not so many.
    #[inline]
    pub fn left_without(&self, rows: &RowSet, other: &RowSet) -> Left {
        if self.is_plain {
            return rows.left_without(other);
        }
        let mut left = *rows;
        left.minus_with(other);
        if left.is_empty() {
            Left::None
        } else if self.is_few(&left) {
            Left::Few
        } else {
            Left::More
        }
    }
}
