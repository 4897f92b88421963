//! A journal that isn't trusted: its history, or the first fault that it has, by the rules that docs/FORMATS.md states.

use crate::journal::{header, read_record, set_size, Record, HEADER};
use crate::limit::ROWS;
use crate::serve::{Part, MOST_RECORDS};
use crate::table::{Role, Secret};
use std::fmt;

const MOST_ROWS: u16 = ROWS as u16;
const MOST_IN_GROUP: u8 = 64;

/// Why a journal isn't one of this table's histories.
pub enum Fault {
    NotMade,
    Damaged(usize),
    OtherTable { kept: u16, now: u16 },
    Untrue { place: usize, kept: i128, now: i128 },
    Illegal(usize),
}

impl Fault {
    pub fn code(&self) -> i32 {
        match self {
            Fault::NotMade => 7,
            Fault::Damaged(_) => 9,
            Fault::OtherTable { .. } => 10,
            Fault::Untrue { .. } => 11,
            Fault::Illegal(_) => 12,
        }
    }
}

impl fmt::Display for Fault {
    fn fmt(&self, f: &mut fmt::Formatter) -> fmt::Result {
        match self {
            Fault::NotMade => write!(f, "no journal"),
            Fault::Damaged(at) => write!(f, "journal damaged at byte {at}"),
            Fault::OtherTable { kept, now } => {
                write!(f, "journal is of another table: rows {kept}, now {now}")
            }
            Fault::Untrue { place, kept, now } => {
                write!(f, "record {place} holds {kept}, table gives {now}")
            }
            Fault::Illegal(place) => write!(f, "record {place} should not have been released"),
        }
    }
}

/// Whether a journal was made in a file with these bytes.
pub fn is_made(bytes: &[u8]) -> bool {
    bytes.len() > HEADER && bytes[0] == 1
}

pub struct History {
    pub records: Vec<Record>,
    /// Where the gate stands that isn't open.
    pub gate: usize,
}

/// Reads the journal of a table of so many rows, with these secret columns.
pub fn read(bytes: &[u8], rows: u16, roles: &[Role]) -> Result<History, Fault> {
    if !is_made(bytes) {
        return Err(Fault::NotMade);
    }
    let mut reader = Reader::new(bytes).map_err(Fault::Damaged)?;
    reader.read_groups().map_err(Fault::Damaged)?;
    let Reader { n, at, .. } = reader;
    let mut records = reader.records;
    if n != rows || bytes[11..HEADER] != header(rows, roles)[11..] {
        return Err(Fault::OtherTable { kept: n, now: rows });
    }
    records.iter_mut().for_each(|record| record.rows.n = rows);
    Ok(History { records, gate: at })
}

/// Whether the answers are those of the table.
pub fn test(records: &[Record], roles: &[Role], secrets: &[Secret]) -> Result<(), Fault> {
    for (place, record) in records.iter().enumerate() {
        let column = usize::from(record.column);
        let now = secrets[column].truth(&record.rows);
        if now != record.answer {
            let sign = match roles[column] {
                Role::Min => -1,
                _ => 1,
            };
            let (kept, now) = (sign * i128::from(record.answer), sign * i128::from(now));
            return Err(Fault::Untrue { place, kept, now });
        }
    }
    Ok(())
}

/// Decides each record after those before it.
pub fn decide_again(parts: &mut [Part], records: &[Record]) -> Result<(), Fault> {
    for (place, record) in records.iter().enumerate() {
        let part = &mut parts[usize::from(record.column)];
        let released = part.ask(&record.rows, || record.answer);
        released.map_err(|_| Fault::Illegal(place))?;
    }
    Ok(())
}

/// What was read of a file up to a place; each fault is the place of the first byte that can't stand there.
struct Reader<'a> {
    bytes: &'a [u8],
    at: usize,
    /// The rows in force.
    n: u16,
    columns: u8,
    records: Vec<Record>,
}

impl Reader<'_> {
    fn new(bytes: &[u8]) -> Result<Reader<'_>, usize> {
        let wanted = header(1, &[]);
        if let Some(at) = (1..9).find(|at| bytes[*at] != wanted[*at]) {
            return Err(at);
        }
        let n = u16::from_be_bytes([bytes[9], bytes[10]]);
        let columns = bytes[11];
        let is_kind = |at: usize| match at < 12 + usize::from(columns) {
            true => matches!(bytes[at], 1..=3),
            false => bytes[at] == 0,
        };
        if bytes[9] > MOST_ROWS.to_be_bytes()[0] {
            return Err(9);
        }
        if n == 0 || n > MOST_ROWS {
            return Err(10);
        }
        if columns > 8 {
            return Err(11);
        }
        if let Some(at) = (12..HEADER).find(|at| !is_kind(*at)) {
            return Err(at);
        }
        let (at, records) = (HEADER, Vec::new());
        Ok(Reader {
            bytes,
            at,
            n,
            columns,
            records,
        })
    }

    fn byte(&self, at: usize) -> Result<u8, usize> {
        self.bytes.get(at).copied().ok_or(self.bytes.len())
    }

    /// Reads up to the first gate that isn't open.
    fn read_groups(&mut self) -> Result<(), usize> {
        while self.byte(self.at)? == 1 {
            match self.byte(self.at + 1)? {
                0 => self.read_growth()?,
                count => self.read_group(count)?,
            }
        }
        Ok(())
    }

    fn read_growth(&mut self) -> Result<(), usize> {
        let least = self.n + 1;
        if least > MOST_ROWS {
            return Err(self.at + 1);
        }
        let high = self.byte(self.at + 2)?;
        if high < least.to_be_bytes()[0] || high > MOST_ROWS.to_be_bytes()[0] {
            return Err(self.at + 2);
        }
        let n = u16::from_be_bytes([high, self.byte(self.at + 3)?]);
        if n < least || n > MOST_ROWS {
            return Err(self.at + 3);
        }
        self.n = n;
        self.at += 4;
        Ok(())
    }

    fn read_group(&mut self, count: u8) -> Result<(), usize> {
        let all = self.records.len() + usize::from(count);
        if count > MOST_IN_GROUP || all > MOST_RECORDS {
            return Err(self.at + 1);
        }
        self.at += 2;
        for _ in 0..count {
            self.read_record()?;
        }
        Ok(())
    }

    fn read_record(&mut self) -> Result<(), usize> {
        if self.byte(self.at)? >= self.columns {
            return Err(self.at);
        }
        let size = set_size(self.n);
        let end = self.at + 9 + size;
        let padding = |bit: usize| bit >= usize::from(self.n);
        for at in self.at + 9..end {
            let byte = self.byte(at)?;
            let from = 8 * (at - self.at - 9);
            if (0..8).any(|bit| padding(from + bit) && byte >> bit & 1 == 1) {
                return Err(at);
            }
        }
        let record = read_record(&self.bytes[self.at..end], self.n, size);
        if record.rows.is_empty() {
            return Err(end - 1);
        }
        self.records.push(record);
        self.at = end;
        Ok(())
    }
}
