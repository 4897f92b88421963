//! What one asker works out who knows the number of her own row: in a form that leaves each number open to whoever knows none, a row that is tied
//! to hers, or the total of a protected group.
//!
//! What a form leaves of a row is the row itself at a column without a pivot, and the entries of the pivot's row else. Two rows are
//! tied if what is left of them is the same but for a factor, and so is a group's total to a row.

use crate::divide::gcd128;
use crate::guard::Guard;
use crate::reach::left_of;
use crate::row_set::RowSet;
use crate::rows::Row;
use std::collections::HashMap;

/// Numbers at columns without a common divisor, of which the first is positive.
type Line = Vec<(u16, i128)>;

fn line(mut numbers: Line) -> Line {
    let sizes = numbers.iter().map(|(_, number)| number.unsigned_abs());
    let content = sizes.fold(0, gcd128) as i128;
    if let Some((_, first)) = numbers.first() {
        let by = content * first.signum();
        numbers.iter_mut().for_each(|(_, number)| *number /= by);
    }
    numbers
}

/// What the form leaves of a single row.
fn left_of_row(row: u16, form: &[Row]) -> Line {
    match form.iter().find(|of| of.pivot == row) {
        None => vec![(row, 1)],
        Some(of) => {
            let entries = of.entries.iter().map(|entry| (entry.place, entry.value));
            line(entries.collect())
        }
    }
}

/// Rows that are tied to one another: those that an asker may know, and those that she may not work out, each time the least first.
#[derive(Default)]
struct Tied {
    known: Vec<u16>,
    guarded: Vec<u16>,
}

impl Tied {
    /// The least guarded row that is tied to a known one, with the least of these.
    fn first(&self) -> Option<(u16, u16)> {
        let mut guarded = self.guarded.iter();
        guarded.find_map(|row| {
            let own = self.known.iter().find(|own| *own != row);
            own.map(|own| (*row, *own))
        })
    }
}

/// The rows by what the form leaves of them.
pub struct Ties {
    tied: HashMap<Line, Tied>,
}

impl Ties {
    pub fn new(guard: &Guard, form: &[Row]) -> Ties {
        let mut tied: HashMap<Line, Tied> = HashMap::new();
        for row in guard.against_askers.rows() {
            let rows = tied.entry(left_of_row(row, form)).or_default();
            rows.guarded.push(row);
            if guard.single.has(row) {
                rows.known.push(row);
            }
        }
        Ties { tied }
    }

    /// The least row that is tied to another one, whose asker may not know it, with the least of these.
    pub fn first(&self) -> Option<(u16, u16)> {
        self.tied.values().filter_map(Tied::first).min()
    }

    /// The least row whose asker works out the total of the group, in which somebody else is too.
    pub fn teller(&self, group: &RowSet, form: &[Row], columns: usize) -> Option<u16> {
        let rows = self.tied.get(&line(left_of(group, form, columns)))?;
        let is_other = |row: &&u16| group.len() > 1 || !group.has(**row);
        rows.known.iter().find(is_other).copied()
    }
}
