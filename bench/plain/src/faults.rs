//! Why a run ends, with its status and its text.

use crate::history::Fault;
use crate::twins::TwinFault;
use std::fmt;

/// What is wrong with the schema or the table, by the numbers of docs/FORMATS.md.
pub enum FileFault {
    Schema(u8),
    Group(usize),
    Table(u8),
    Line {
        fault: u8,
        line: usize,
    },
    Cell {
        fault: u8,
        line: usize,
        column: usize,
    },
}

impl FileFault {
    fn code(&self) -> i32 {
        match self {
            FileFault::Schema(_) => 3,
            FileFault::Group(_) => 16,
            _ => 4,
        }
    }
}

impl fmt::Display for FileFault {
    fn fmt(&self, f: &mut fmt::Formatter) -> fmt::Result {
        match self {
            FileFault::Schema(fault) => write!(f, "schema: fault {fault}"),
            FileFault::Group(place) => write!(f, "schema: group {place} is bad"),
            FileFault::Table(fault) => write!(f, "table: fault {fault}"),
            FileFault::Line { fault, line } => write!(f, "table: fault {fault} at line {line}"),
            FileFault::Cell {
                fault,
                line,
                column,
            } => write!(f, "table: fault {fault} at line {line} column {column}"),
        }
    }
}

pub enum RunFault {
    File(FileFault),
    Journal(Fault),
    Twins(TwinFault),
    /// A reply that was shown isn't the one that the verdict on its question calls for.
    Disagrees {
        line: u64,
        due: &'static str,
    },
}

impl RunFault {
    pub fn code(&self) -> i32 {
        match self {
            RunFault::File(fault) => fault.code(),
            RunFault::Journal(fault) => fault.code(),
            RunFault::Twins(fault) => fault.code(),
            RunFault::Disagrees { .. } => 14,
        }
    }
}

impl fmt::Display for RunFault {
    fn fmt(&self, f: &mut fmt::Formatter) -> fmt::Result {
        match self {
            RunFault::File(fault) => write!(f, "{fault}"),
            RunFault::Journal(fault) => write!(f, "{fault}"),
            RunFault::Twins(fault) => write!(f, "{fault}"),
            RunFault::Disagrees { line, due } => write!(f, "line {line} disagrees, due {due}"),
        }
    }
}

impl From<FileFault> for RunFault {
    fn from(fault: FileFault) -> RunFault {
        RunFault::File(fault)
    }
}

impl From<Fault> for RunFault {
    fn from(fault: Fault) -> RunFault {
        RunFault::Journal(fault)
    }
}

impl From<TwinFault> for RunFault {
    fn from(fault: TwinFault) -> RunFault {
        RunFault::Twins(fault)
    }
}
