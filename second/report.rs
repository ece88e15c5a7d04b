//! What the programs print, with the histories shown kept apart: which shortest history is shown is left open.

use crate::judge::meets;
use crate::search::{Answer, Verdict, search};
use crate::sheet::{self, Refusal, Sheet};
use crate::theory::Code;

pub const REPORT_ROWS: usize = 4_096;

/// Part of what a program prints: a line, or the history shown for a question.
pub enum Part {
    Line(String),
    History(Shown),
}

/// A history shown: of `length` visits, begun with the kept ones, met by the rules of a book in a theory.
pub struct Shown {
    pub history: Vec<Code>,
    pub kept: Vec<Code>,
    pub book: usize,
    pub theory: usize,
}

/// A whole answer; `sheets` are those that the histories refer to, and visits are printed by the first.
pub struct Report {
    pub sheets: Vec<Sheet>,
    pub parts: Vec<Part>,
}

impl Report {
    pub fn line(&mut self, line: String) {
        self.parts.push(Part::Line(line));
    }

    pub fn of_line(line: String) -> Report {
        Report { sheets: Vec::new(), parts: vec![Part::Line(line)] }
    }

    /// Asks the question and adds the lines of its answer, unless it takes too long.
    pub fn question(&mut self, book: usize, theory: usize, kept: &[Code], rows: usize, work: u64) -> Option<()> {
        let answer = search(&self.sheets[book].book, &self.sheets[theory].theory, kept, rows, work)?;
        self.line(verdict_line(&answer));
        self.line(format!("rows {}", answer.rows));
        if !answer.history.is_empty() {
            let history = answer.history;
            self.parts.push(Part::History(Shown { history, kept: kept.to_vec(), book, theory }));
        }
        Some(())
    }

    pub fn text(&self) -> String {
        let mut text = String::new();
        for part in &self.parts {
            match part {
                Part::Line(line) => text += &format!("{line}\n"),
                Part::History(shown) => {
                    for code in &shown.history {
                        text += &format!("{}\n", self.sheets[0].theory.note(*code));
                    }
                }
            }
        }
        text
    }
}

fn verdict_line(answer: &Answer) -> String {
    match answer.verdict {
        Verdict::Can(length) => format!("verdict can {length}"),
        Verdict::Cannot => "verdict cannot".to_string(),
        Verdict::Short => "verdict short".to_string(),
    }
}

pub fn refused_line(refusal: Refusal) -> String {
    format!("refused {} {}", refusal.number, refusal.place)
}

/// What `sheet` prints, or nothing where the search takes more than `work` steps.
pub fn of_sheet(bytes: &[u8], work: u64) -> Option<Report> {
    let sheet = match sheet::read(bytes) {
        Ok(sheet) => sheet,
        Err(refusal) => return Some(Report::of_line(refused_line(refusal))),
    };
    let notes = sheet.notes.clone();
    let stands = match notes.is_empty() {
        true => "none",
        false if meets(&sheet.book, &sheet.theory, &notes) => "yes",
        false => "no",
    };
    let mut report = Report { sheets: vec![sheet], parts: Vec::new() };
    report.line(format!("kept {}", notes.len()));
    report.line(format!("stands {stands}"));
    report.question(0, 0, &notes, REPORT_ROWS, work)?;
    Some(report)
}
