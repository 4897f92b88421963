//! The journal's file: a header, and groups of records after a byte that says that they count.

use crate::limit::ROWS;
use crate::row_set::RowSet;
use crate::table::Role;
use std::fs::{File, OpenOptions};
use std::io::{self, Read};
use std::os::unix::fs::FileExt;

pub const HEADER: usize = 20;
const NAME: &[u8] = b"\x01SQAJRNL\x01";

#[derive(PartialEq, Eq)]
pub struct Record {
    pub column: u8,
    pub rows: RowSet,
    pub answer: i64,
}

/// Records that are to be written together: their count and bytes, which stand after a gate.
pub struct Group {
    n: u16,
    bytes: Vec<u8>,
}

impl Group {
    pub fn new(n: u16) -> Group {
        let bytes = Vec::new();
        Group { n, bytes }
    }

    /// Adds a record.
    pub fn put(&mut self, record: &Record) {
        if self.bytes.is_empty() {
            self.bytes.push(0);
        }
        self.bytes[0] += 1;
        self.bytes.push(record.column);
        self.bytes.extend(record.answer.to_be_bytes());
        let mut set = [0; ROWS / 8];
        for (part, word) in set.chunks_exact_mut(8).zip(&record.rows.words) {
            part.copy_from_slice(&word.to_le_bytes());
        }
        self.bytes.extend(&set[..set_size(self.n)]);
    }

    pub fn is_empty(&self) -> bool {
        self.bytes.is_empty()
    }

    pub fn bytes(&self) -> &[u8] {
        &self.bytes
    }

    pub fn clear(&mut self) {
        self.bytes.clear();
    }
}

pub struct Journal {
    file: File,
    /// Where the next group's gate stands.
    gate: u64,
}

pub fn set_size(n: u16) -> usize {
    usize::from(n).div_ceil(8)
}

/// The bytes of a header, behind an open gate.
pub fn header(n: u16, secrets: &[Role]) -> Vec<u8> {
    let mut header = NAME.to_vec();
    header.extend(n.to_be_bytes());
    header.push(secrets.len() as u8);
    let kind = |role: &Role| match role {
        Role::Sum => 1,
        Role::Min => 3,
        _ => 2,
    };
    header.extend(secrets.iter().map(kind));
    header.resize(HEADER, 0);
    header
}

impl Journal {
    pub fn make(path: &str, n: u16, secrets: &[Role]) -> io::Result<()> {
        let mut fresh = header(n, secrets);
        fresh.push(0);
        std::fs::write(path, fresh)
    }

    /// A journal in this file, whose last gate stands there.
    pub fn at(file: File, gate: usize) -> Journal {
        let gate = gate as u64;
        Journal { file, gate }
    }

    /// Opens a journal, with the records that count.
    pub fn open(path: &str, n: u16) -> io::Result<(Journal, Vec<Record>)> {
        let mut file = OpenOptions::new().read(true).write(true).open(path)?;
        let mut bytes = Vec::new();
        file.read_to_end(&mut bytes)?;
        let (records, gate) = read_groups(&bytes, n);
        Ok((Journal::at(file, gate), records))
    }

    /// Writes a group and a closed gate, and then opens the gate before it.
    pub fn append(&mut self, group: &Group) -> io::Result<()> {
        let mut bytes = group.bytes.clone();
        bytes.push(0);
        self.file.write_all_at(&bytes, self.gate + 1)?;
        self.file.sync_all()?;
        self.file.write_all_at(&[1], self.gate)?;
        self.file.sync_all()?;
        self.gate += bytes.len() as u64;
        Ok(())
    }
}

fn read_groups(bytes: &[u8], n: u16) -> (Vec<Record>, usize) {
    let mut records = Vec::new();
    let number = |at: usize| u16::from_be_bytes([bytes[at], bytes[at + 1]]);
    let mut size = set_size(number(9));
    let mut at = HEADER;
    while bytes[at] == 1 {
        let count = bytes[at + 1];
        at += 2;
        // A group of no records is a growth: so many rows are in force from here on.
        if count == 0 {
            size = set_size(number(at));
            at += 2;
        }
        for _ in 0..count {
            records.push(read_record(&bytes[at..], n, size));
            at += 9 + size;
        }
    }
    (records, at)
}

/// The record at the start of these bytes, whose set has so many bytes, over so many rows.
pub fn read_record(bytes: &[u8], n: u16, size: usize) -> Record {
    let mut set = [0; ROWS / 8];
    set[..size].copy_from_slice(&bytes[9..9 + size]);
    let mut rows = RowSet::new(n);
    for (word, part) in rows.words.iter_mut().zip(set.chunks_exact(8)) {
        *word = u64::from_le_bytes(part.try_into().unwrap());
    }
    Record {
        column: bytes[0],
        rows,
        answer: i64::from_be_bytes(bytes[1..9].try_into().unwrap()),
    }
}
