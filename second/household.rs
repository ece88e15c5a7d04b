//! The record of a household: kept visits, syncs, strikes, and when a question is refused.

use crate::theory::Code;

pub const MOST_KEPT: usize = 1_024;
pub const MOST_ROWS: usize = 65_536;

pub struct Record {
    /// The counts of codes and atoms of the book that it was opened on.
    counts: (usize, usize),
    /// The entries of the visit list.
    entries: usize,
    pub kept: Vec<Code>,
}

impl Record {
    pub fn open(counts: (usize, usize), entries: usize) -> Record {
        Record { counts, entries, kept: Vec::new() }
    }

    pub fn has_room_for(&self, notes: usize) -> bool {
        self.kept.len() + notes <= self.entries
    }

    /// One sync: for each note the number of its refusal, if it is refused. Only a confirmed sync keeps the accepted notes.
    pub fn sync(&mut self, notes: &[Code], confirmed: bool) -> Vec<Option<u8>> {
        let mut accepted = Vec::new();
        let mut refusals = Vec::new();
        for code in notes {
            let refusal = self.note_refusal(*code, accepted.len());
            if refusal.is_none() {
                accepted.push(*code);
            }
            refusals.push(refusal);
        }
        if confirmed {
            self.kept.extend(accepted);
        }
        refusals
    }

    fn note_refusal(&self, code: Code, accepted: usize) -> Option<u8> {
        let used = self.kept.len() + accepted;
        if code >= self.counts.0 {
            Some(4)
        } else if used == self.entries || used == MOST_KEPT {
            Some(5)
        } else {
            None
        }
    }

    /// Strikes the last kept visit.
    pub fn strike(&mut self) -> Option<u8> {
        match self.kept.pop() {
            Some(_) => None,
            None => Some(6),
        }
    }

    pub fn question_refusal(&self, book: (usize, usize), theory: (usize, usize), rows: usize, entries: usize) -> Option<u8> {
        if book != self.counts || theory != self.counts {
            Some(7)
        } else if rows > MOST_ROWS || entries < rows {
            Some(9)
        } else {
            None
        }
    }
}
