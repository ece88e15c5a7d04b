//! Reading a draw and replaying its calls.

use crate::household::Record;
use crate::report::{Report, refused_line};
use crate::sheet::{self, whole};
use crate::theory::Code;

pub const MOST_DRAW: usize = 262_144;
pub const MOST_SHEET: i64 = 65_537;
pub const MOST_ENTRIES: i64 = 2_048;
pub const MOST_CALLS: usize = 256;
pub const MOST_DRAWN_NOTES: usize = 4_096;

#[derive(Clone, Debug)]
pub enum Call {
    Sync { notes: Vec<Code>, confirmed: bool },
    Strike,
    Ask { book: usize, theory: usize, rows: usize, entries: usize },
}

pub struct Draw<'a> {
    sheets: [&'a [u8]; 2],
    entries: usize,
    calls: Vec<Call>,
}

fn count(item: &str, most: i64) -> Option<usize> {
    whole(item).filter(|x| (0..=most).contains(x) && !item.starts_with('-')).map(|x| x as usize)
}

/// A line up to its line end, and what comes behind.
fn split_line(bytes: &[u8]) -> Option<(&str, &[u8])> {
    let end = bytes.iter().position(|b| *b == 10)?;
    Some((std::str::from_utf8(&bytes[..end]).ok()?, &bytes[end + 1..]))
}

pub fn read(bytes: &[u8]) -> Option<Draw<'_>> {
    if bytes.len() > MOST_DRAW {
        return None;
    }
    let (first, rest) = split_line(bytes)?;
    let items: Vec<&str> = first.split(' ').collect();
    let ["draw", b, c, l] = items[..] else { return None };
    let (b, c, entries) = (count(b, MOST_SHEET)?, count(c, MOST_SHEET)?, count(l, MOST_ENTRIES)?);
    if rest.len() < b + c {
        return None;
    }
    let calls = read_calls(&rest[b + c..])?;
    Some(Draw { sheets: [&rest[..b], &rest[b..b + c]], entries, calls })
}

fn read_calls(mut rest: &[u8]) -> Option<Vec<Call>> {
    let mut calls = Vec::new();
    while !rest.is_empty() {
        let (line, behind) = split_line(rest)?;
        calls.push(read_call(line)?);
        rest = behind;
    }
    let notes: usize = calls.iter().map(|c| if let Call::Sync { notes, .. } = c { notes.len() } else { 0 }).sum();
    (calls.len() <= MOST_CALLS && notes <= MOST_DRAWN_NOTES).then_some(calls)
}

fn read_call(line: &str) -> Option<Call> {
    let items: Vec<&str> = line.split(' ').collect();
    match items[..] {
        [ending @ ("confirm" | "fail"), ref notes @ ..] => {
            let notes: Option<Vec<Code>> = notes.iter().map(|n| count(n, 65_535)).collect();
            Some(Call::Sync { notes: notes?, confirmed: ending == "confirm" })
        }
        ["strike"] => Some(Call::Strike),
        ["ask", book, theory, rows, entries] => {
            Some(Call::Ask { book: count(book, 1)?, theory: count(theory, 1)?, rows: count(rows, 65_537)?, entries: count(entries, 65_537)? })
        }
        _ => None,
    }
}

/// What `replay` prints, or nothing where a search takes more than `work` steps.
pub fn report(bytes: &[u8], work: u64) -> Option<Report> {
    let Some(draw) = read(bytes) else { return Some(Report::of_line("wrong draw".to_string())) };
    let mut sheets = Vec::new();
    for bytes in draw.sheets {
        match sheet::read(bytes) {
            Ok(sheet) => sheets.push(sheet),
            Err(refusal) => return Some(Report::of_line(refused_line(refusal))),
        }
    }
    let mut record = Record::open(sheets[0].theory.counts(), draw.entries);
    let mut report = Report { sheets, parts: Vec::new() };
    for call in &draw.calls {
        apply(call, &mut record, &mut report, work)?;
    }
    report.line(format!("kept {}", record.kept.len()));
    for code in &record.kept {
        report.line(report.sheets[0].theory.note(*code));
    }
    Some(report)
}

fn apply(call: &Call, record: &mut Record, report: &mut Report, work: u64) -> Option<()> {
    match call {
        Call::Sync { notes, confirmed } => {
            for refusal in record.sync(notes, *confirmed) {
                report.line(outcome("note", refusal));
            }
        }
        Call::Strike => report.line(outcome("strike", record.strike())),
        Call::Ask { book, theory, rows, entries } => {
            let counts = |sheet: usize| report.sheets[sheet].theory.counts();
            match record.question_refusal(counts(*book), counts(*theory), *rows, *entries) {
                Some(number) => report.line(outcome("question", Some(number))),
                None => report.question(*book, *theory, &record.kept, *rows, work)?,
            }
        }
    }
    Some(())
}

fn outcome(call: &str, refusal: Option<u8>) -> String {
    match refusal {
        Some(number) => format!("{call} refused {number}"),
        None => format!("{call} accepted"),
    }
}
