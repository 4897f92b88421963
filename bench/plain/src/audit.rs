//! The report: for each guarded number of a column of sums a change that alters no answer, and for a column of maxima or minima
//! a number for each row.

use crate::divide::{gcd128, gcd64};
use crate::faults::RunFault;
use crate::guard::Guard;
use crate::journal::Record;
use crate::lone::Lone;
use crate::row_set::RowSet;
use crate::rows::{wide, Row};
use crate::serve::{stream, Auditor, Part};
use crate::table::{Column, Role};
use std::io::Write;

/// The change of the least free column that alters row `i`, a number for each row: it raises row `i`, and has no common divisor.
fn change(form: &[Row], rows: usize, i: u16) -> Vec<i128> {
    let own = form.iter().find(|row| row.pivot == i);
    let free = own.map_or(i, |row| row.entries[0].place);
    let at_free = |row: &Row| {
        let entry = row.entries.iter().find(|entry| entry.place == free);
        entry.map(|entry| (row.pivot, row.head, entry.value))
    };
    let hit: Vec<(u16, i64, i128)> = form.iter().filter_map(at_free).collect();
    let least = |(_, head, value): &(u16, i64, i128)| {
        head / gcd64(*head as u64, value.unsigned_abs() as u64) as i64
    };
    let times = hit.iter().map(least).fold(1, |common: i128, part| {
        common / gcd128(common as u128, part as u128) as i128 * wide(part)
    });
    let mut change = vec![0; rows];
    change[usize::from(free)] = times;
    for (pivot, head, value) in hit {
        change[usize::from(pivot)] = -value * times / wide(head);
    }
    upright(change, usize::from(i))
}

/// The change over its content, or its negation, so that it raises a row.
fn upright(mut change: Vec<i128>, row: usize) -> Vec<i128> {
    let content = change
        .iter()
        .fold(0, |content, number| gcd128(content, number.unsigned_abs()));
    let by = change[row].signum() * content as i128;
    change.iter_mut().for_each(|number| *number /= by);
    change
}

/// The rows that have a line: those whose number is guarded, or, if the askers are in the table, all that may change, so that each two of them
/// can be compared.
fn told_of(form: &[Row], guard: &Guard, rows: u16) -> Vec<u16> {
    let may_change = |row: &u16| {
        let own = form.iter().find(|of| of.pivot == *row);
        own.is_none_or(|of| !of.entries.is_empty())
    };
    if guard.inside {
        (0..rows).filter(may_change).collect()
    } else {
        guard.against_all.rows().collect()
    }
}

fn sum_lines(name: &str, form: &[Row], guard: &Guard, rows: u16) -> String {
    let line = |row: u16| {
        let change = change(form, usize::from(rows), row);
        let pairs = change
            .iter()
            .enumerate()
            .filter(|(_, number)| **number != 0);
        let pairs: Vec<String> = pairs
            .map(|(place, number)| format!("[{place},{number}]"))
            .collect();
        let pairs = pairs.join(",");
        format!("{{\"column\":\"{name}\",\"row\":{row},\"direction\":[{pairs}]}}\n")
    };
    let told_of = told_of(form, guard, rows).into_iter();
    told_of.map(line).collect()
}

/// The line of a column of maxima, or of minima, which are maxima of the negated numbers.
fn bounds_line(column: &Column, records: &[Record], place: u8, guard: &Guard, rows: u16) -> String {
    let (word, sign) = match column.role {
        Role::Min => ("low", -1),
        _ => ("high", 1),
    };
    let own = (0..)
        .zip(records)
        .filter(|(_, record)| record.column == place);
    let answers: Vec<(u32, i64, &RowSet)> = own
        .map(|(place, record)| (place, record.answer, &record.rows))
        .collect();
    let bounds: Vec<String> = Lone::new(rows, guard.clone(), &answers)
        .highest()
        .map(|high| (sign * high).to_string())
        .collect();
    let (name, bounds) = (&column.name, bounds.join(","));
    format!("{{\"column\":\"{name}\",\"{word}\":[{bounds}]}}\n")
}

/// Prints the report of the journal's history, which stays.
pub fn audit() -> Result<(), RunFault> {
    let (auditor, records) = Auditor::open()?;
    let settings = &auditor.settings;
    let (schema, rows, guard) = (&settings.schema, settings.table.rows, &settings.guard);
    let names = schema
        .columns
        .iter()
        .filter(|column| column.role.is_secret());
    let mut output = stream(1);
    for ((place, part), column) in (0..).zip(&auditor.parts).zip(names) {
        let lines = match part {
            Part::Sums(sums) => sum_lines(&column.name, sums.form().rows(), guard, rows),
            Part::Maxima(_) => bounds_line(column, &records, place, guard, rows),
        };
        output.write_all(lines.as_bytes()).unwrap();
    }
    let (count, columns) = (records.len(), auditor.parts.len());
    let people = settings.everybody();
    let people = people.map_or(String::new(), |people| format!(",\"people\":{people}"));
    let totals = format!("{{\"audited\":{count},\"columns\":{columns},\"rows\":{rows}{people}}}\n");
    output.write_all(totals.as_bytes()).unwrap();
    Ok(())
}
