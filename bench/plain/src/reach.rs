//! The reach: how many rows a change needs that alters no answer.
//!
//! A form has a change for each column without a pivot: it alters the number there, and those at the pivots of the rows that have an
//! entry there, and no other. A row, or a group's total, is altered by the changes of the columns at which the form leaves it an entry.

use crate::divide::{lcm, WIDEST};
use crate::row_set::RowSet;
use crate::rows::{wide, Row};

/// Whether each of these rows and each group that some such change alters is altered by one over at most so many rows.
pub fn is_within<'a>(
    most: u32,
    form: &[Row],
    columns: usize,
    guarded: &RowSet,
    groups: impl Iterator<Item = &'a RowSet>,
) -> bool {
    let sizes = sizes(form, columns);
    let is_near = |places: &mut dyn Iterator<Item = usize>| {
        let least = places.map(|place| sizes[place]).min();
        least.is_none_or(|size| size <= most)
    };
    // Of a pivot the size is 0.
    let mut free = guarded.rows().map(|row| sizes[usize::from(row)]);
    let mut pivots = form.iter().filter(|row| guarded.has(row.pivot));
    let mut of_groups = groups.map(|group| left_of(group, form, columns));
    free.all(|size| size <= most)
        && pivots.all(|row| is_near(&mut places_of(row)))
        && of_groups.all(|left| is_near(&mut left.iter().map(|(place, _)| usize::from(*place))))
}

/// For each column over how many rows its change goes; 0 for a pivot, which has none.
fn sizes(form: &[Row], columns: usize) -> Vec<u32> {
    let mut sizes = vec![1; columns];
    for place in form.iter().flat_map(places_of) {
        sizes[place] += 1;
    }
    for row in form {
        sizes[usize::from(row.pivot)] = 0;
    }
    sizes
}

fn places_of(row: &Row) -> impl Iterator<Item = usize> + '_ {
    row.entries.iter().map(|entry| usize::from(entry.place))
}

/// What the form leaves of a set of rows, times the common multiple of its heads: the columns where that isn't 0, with the numbers there.
pub fn left_of(set: &RowSet, form: &[Row], columns: usize) -> Vec<(u16, i128)> {
    let multiple = |common, row: &Row| lcm(common, row.head, WIDEST).expect("a narrow form");
    let common = form.iter().fold(1, multiple);
    let mut left = vec![0; columns];
    for row in set.rows() {
        left[usize::from(row)] = wide(common);
    }
    for row in form.iter().filter(|row| set.has(row.pivot)) {
        left[usize::from(row.pivot)] = 0;
        for entry in &row.entries {
            left[usize::from(entry.place)] -= wide(common / row.head) * entry.value;
        }
    }
    let left = (0..).zip(left);
    left.filter(|(_, number)| *number != 0).collect()
}
