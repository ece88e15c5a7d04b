//! The search over positions, layer by layer.

use crate::book::Book;
use crate::expansion::{Label, Visit, bit, has_sound_choice, next_labels};
use crate::facts::Facts;
use crate::theory::{Code, Theory};
use std::collections::HashMap;
use std::rc::Rc;

#[derive(Clone, Copy, PartialEq, Debug)]
pub enum Verdict {
    Can(usize),
    Cannot,
    Short,
}

#[derive(Clone, PartialEq, Debug)]
pub struct Answer {
    pub verdict: Verdict,
    pub rows: usize,
    /// A shortest history, after `can`.
    pub history: Vec<Code>,
}

#[derive(Clone, Copy)]
struct Position {
    place: usize,
    label: Label,
    code: Code,
    /// The position that this one was first stepped to from.
    from: Option<usize>,
}

pub struct Search<'a> {
    book: &'a Book,
    kept: &'a [Code],
    rows: usize,
    codes: usize,
    facts: Facts,
    positions: Vec<Position>,
    seen: HashMap<(usize, Label), Vec<bool>>,
    next_labels: HashMap<(Label, u32), Rc<Vec<Label>>>,
    work: u64,
}

/// The answer, or nothing where it takes more than `work` steps.
pub fn search(book: &Book, theory: &Theory, kept: &[Code], rows: usize, work: u64) -> Option<Answer> {
    let facts = Facts::new(theory, book.atoms());
    let codes = theory.codes();
    let (seen, next_labels) = (HashMap::new(), HashMap::new());
    Search { book, kept, rows, codes, facts, positions: Vec::new(), seen, next_labels, work }.run()
}

impl Search<'_> {
    fn run(mut self) -> Option<Answer> {
        self.start();
        let mut layer = 0..self.positions.len();
        let mut distance = 0;
        loop {
            if self.positions.len() > self.rows {
                return Some(Answer { verdict: Verdict::Short, rows: self.rows, history: Vec::new() });
            }
            let rows = self.positions.len();
            if layer.is_empty() {
                return Some(Answer { verdict: Verdict::Cannot, rows, history: Vec::new() });
            }
            if let Some(end) = layer.clone().find(|p| self.ends(*p)) {
                let history = self.path(end);
                return Some(Answer { verdict: Verdict::Can(distance + 1), rows, history });
            }
            for position in layer.clone() {
                self.step(position)?;
                if self.positions.len() > self.rows {
                    break;
                }
            }
            layer = layer.end..self.positions.len();
            distance += 1;
        }
    }

    fn start(&mut self) {
        let label = self.book.rules.iter().fold(0, |set, r| set | bit(*r));
        match self.kept.first() {
            Some(code) => self.see(0, label, *code, None),
            None => (0..self.codes).for_each(|code| self.see(0, label, code, None)),
        }
    }

    fn last_place(&self) -> usize {
        self.kept.len().saturating_sub(1)
    }

    fn see(&mut self, place: usize, label: Label, code: Code, from: Option<usize>) {
        let codes = self.codes;
        let seen = self.seen.entry((place, label)).or_insert_with(|| vec![false; codes]);
        if !seen[code] {
            seen[code] = true;
            self.positions.push(Position { place, label, code, from });
        }
    }

    fn ends(&self, position: usize) -> bool {
        let p = self.positions[position];
        let visit = Visit { facts: self.facts.at_the_last(p.code), follows: false };
        p.place == self.last_place() && has_sound_choice(self.book, p.label, visit)
    }

    fn step(&mut self, position: usize) -> Option<()> {
        let p = self.positions[position];
        if p.place < self.last_place() {
            let next = self.kept[p.place + 1];
            let facts = self.facts.before(p.code, next);
            return self.step_to(position, p.place + 1, facts, &[next as u16]);
        }
        for (facts, nexts) in self.facts.groups(p.code).iter() {
            self.step_to(position, p.place, *facts, nexts)?;
        }
        Some(())
    }

    fn step_to(&mut self, from: usize, place: usize, facts: u32, nexts: &[u16]) -> Option<()> {
        for label in self.labels_after(self.positions[from].label, facts)?.iter() {
            self.work = self.work.checked_sub(nexts.len() as u64)?;
            for next in nexts {
                self.see(place, *label, *next as Code, Some(from));
            }
            if self.positions.len() > self.rows {
                break;
            }
        }
        Some(())
    }

    /// More labels than rows are as good as all of them: they make more positions than rows.
    fn labels_after(&mut self, label: Label, facts: u32) -> Option<Rc<Vec<Label>>> {
        if let Some(labels) = self.next_labels.get(&(label, facts)) {
            return Some(labels.clone());
        }
        let labels = Rc::new(next_labels(self.book, label, facts, self.rows, &mut self.work)?);
        self.next_labels.insert((label, facts), labels.clone());
        Some(labels)
    }

    fn path(&self, end: usize) -> Vec<Code> {
        let mut codes = Vec::new();
        let mut at = Some(end);
        while let Some(p) = at {
            codes.push(self.positions[p].code);
            at = self.positions[p].from;
        }
        codes.reverse();
        codes
    }
}
