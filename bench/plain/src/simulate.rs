//! The verdicts on a transcript, over the public part of a table: questions, and the replies that were shown to them, in turn.

use crate::divide::gcd64;
use crate::faults::RunFault;
use crate::history::{self, History};
use crate::limit::ROWS;
use crate::reply::Reply;
use crate::request::{Ask, Request};
use crate::row_set::RowSet;
use crate::serve::{stream, Lines, Part, Settings, JOURNAL};
use crate::sums::Verdict;
use crate::table::MOST_NUMBER;
use std::io::{ErrorKind, Write};

/// The greatest size of a sum.
const MOST_SUM: u64 = ROWS as u64 * MOST_NUMBER as u64;

/// What the reply to a question has to be.
enum Expected {
    Only(Reply),
    Answer {
        request: Request,
        rows: RowSet,
        is_new: bool,
    },
}

impl Expected {
    fn due(&self) -> &'static str {
        match self {
            Expected::Answer { .. } => "released",
            Expected::Only(Reply::Count(_)) => "count",
            Expected::Only(Reply::Unsafe) => "unsafe",
            Expected::Only(Reply::Wide) => "wide",
            Expected::Only(_) => "refused",
        }
    }

    fn line(&self) -> String {
        let due = self.due();
        let old = match self {
            Expected::Answer { is_new: false, .. } => ",\"new\":false",
            _ => "",
        };
        format!("{{\"verdict\":\"{due}\"{old}}}\n")
    }
}

/// Whether a line is what is written for the reply.
fn is_line(line: &[u8], reply: Reply) -> bool {
    let mut written = Vec::new();
    reply.put(&mut written);
    written.strip_suffix(b"\n") == Some(line)
}

/// The whole numbers of a line, in order, and 0 for those that don't fit.
fn numbers(line: &[u8]) -> Vec<i64> {
    let text = String::from_utf8_lossy(line);
    let pieces = text.split(|letter: char| letter != '-' && !letter.is_ascii_digit());
    let pieces = pieces.filter(|piece| !piece.is_empty());
    pieces.map(|piece| piece.parse().unwrap_or(0)).collect()
}

/// The answer that a line tells over rows of so many people, as a record keeps it, if it is a reply in range to such a question.
fn answer_told(ask: Ask, people: i64, line: &[u8]) -> Option<i64> {
    let numbers = numbers(line);
    let first = *numbers.first()?;
    let most = match ask {
        Ask::Sum | Ask::Avg => MOST_SUM,
        _ => MOST_NUMBER as u64,
    };
    if first.unsigned_abs() > most {
        return None;
    }
    match ask {
        Ask::Sum => is_line(line, Reply::Sum(first)).then_some(first),
        Ask::Max => is_line(line, Reply::Max(first)).then_some(first),
        Ask::Min => is_line(line, Reply::Min(first)).then_some(-first),
        Ask::Avg => {
            let (num, den) = (first, *numbers.get(1)?);
            let is_lowest = den > 0 && gcd64(num.unsigned_abs(), den as u64) == 1;
            let is_whole = is_lowest && people % den == 0;
            let is_read = is_whole && is_line(line, Reply::Avg { num, den });
            let sum = is_read.then(|| num.checked_mul(people / den)).flatten();
            sum.filter(|sum| sum.unsigned_abs() <= MOST_SUM)
        }
        Ask::Count => None,
    }
}

/// The answers so far.
struct Simulation {
    settings: Settings,
    parts: Vec<Part>,
    records: usize,
}

impl Simulation {
    /// With the history of a journal, if one is made beside the public files.
    fn begin() -> Result<Simulation, RunFault> {
        let settings = Settings::read_public()?;
        let mut parts = settings.parts();
        let bytes = match std::fs::read(JOURNAL) {
            Err(error) if error.kind() == ErrorKind::NotFound => Vec::new(),
            bytes => bytes.unwrap(),
        };
        let mut records = Vec::new();
        if history::is_made(&bytes) {
            let (rows, roles) = (settings.table.rows, settings.schema.secret_roles());
            History { records, .. } = history::read(&bytes, rows, &roles)?;
            history::decide_again(&mut parts, &records)?;
        }
        Ok(Simulation {
            settings,
            parts,
            records: records.len(),
        })
    }

    fn expected(&mut self, line: &[u8]) -> Expected {
        let (request, rows) = match self.settings.question(line, self.records) {
            Ok(question) => question,
            Err(reply) => return Expected::Only(reply),
        };
        let part = &mut self.parts[usize::from(request.column)];
        match part.decide(&rows) {
            Ok(()) => Expected::Answer {
                is_new: !part.implies(&rows),
                request,
                rows,
            },
            Err(Verdict::Unsafe) => Expected::Only(Reply::Unsafe),
            Err(Verdict::Wide) => Expected::Only(Reply::Wide),
        }
    }

    /// Whether a line that was shown is what was expected; an answer is taken.
    fn take(&mut self, expected: &Expected, line: &[u8]) -> bool {
        let (request, rows) = match expected {
            Expected::Only(reply) => return is_line(line, *reply),
            Expected::Answer { request, rows, .. } => (request, rows),
        };
        let people = self.settings.people(rows);
        let Some(answer) = answer_told(request.ask, people, line) else {
            return false;
        };
        let taken = self.parts[usize::from(request.column)].ask(rows, || answer);
        self.records += 1;
        taken.is_ok()
    }
}

/// Sends the verdict on each question, up to the first reply that disagrees.
pub fn simulate() -> Result<(), RunFault> {
    let mut simulation = Simulation::begin()?;
    let (mut lines, mut output) = (Lines::new(), stream(1));
    let mut number = 0;
    while let Some(line) = lines.next() {
        let expected = simulation.expected(line);
        output.write_all(expected.line().as_bytes()).unwrap();
        let Some(shown) = lines.next() else {
            return Ok(());
        };
        number += 2;
        if !simulation.take(&expected, shown) {
            let (line, due) = (number, expected.due());
            return Err(RunFault::Disagrees { line, due });
        }
    }
    Ok(())
}
