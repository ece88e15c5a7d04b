//! The facts of a theory as sets of atoms, with the parts of every sum worked out once for each code.

use crate::theory::{Code, Sum, Theory};
use std::collections::HashMap;
use std::rc::Rc;

/// Next codes that see the same facts.
pub type Group = (u32, Vec<u16>);

pub struct Facts {
    codes: usize,
    /// For each code the atoms that hold there whatever comes next.
    still: Vec<u32>,
    moving: Vec<Moving>,
    groups: HashMap<Code, Rc<Vec<Group>>>,
}

/// An atom with a next: the parts of its sum at each code.
struct Moving {
    atom: usize,
    sum: Sum,
    now: Vec<i64>,
    next: Vec<i64>,
}

impl Facts {
    /// The facts about these atoms.
    pub fn new(theory: &Theory, used: u32) -> Facts {
        let codes = theory.codes();
        let moving: Vec<Moving> = match theory {
            Theory::Flags { .. } => Vec::new(),
            Theory::Numbers { atoms, .. } => {
                let used = atoms.iter().enumerate().filter(|(a, s)| used >> a & 1 == 1 && !s.is_still());
                used.map(|(a, s)| Moving::new(a, s, theory)).collect()
            }
        };
        let is_still = |a: &usize| used >> a & 1 == 1 && !moving.iter().any(|m| m.atom == *a);
        let still: Vec<usize> = (0..theory.atoms()).filter(is_still).collect();
        let at = |code| still.iter().filter(|a| theory.holds(**a, code, None)).fold(0, |set, a| set | 1 << a);
        Facts { codes, still: (0..codes).map(at).collect(), moving, groups: HashMap::new() }
    }

    pub fn at_the_last(&self, code: Code) -> u32 {
        let weak = self.moving.iter().filter(|m| !m.sum.has(crate::theory::When::Strong));
        weak.fold(self.still[code], |set, m| set | 1 << m.atom)
    }

    pub fn before(&self, code: Code, next: Code) -> u32 {
        let holding = self.moving.iter().filter(|m| m.sum.compares(m.now[code] + m.next[next]));
        holding.fold(self.still[code], |set, m| set | 1 << m.atom)
    }

    /// All next codes of a code, by the facts they see.
    pub fn groups(&mut self, code: Code) -> Rc<Vec<Group>> {
        if let Some(groups) = self.groups.get(&code) {
            return groups.clone();
        }
        let groups = Rc::new(self.grouped(code));
        self.groups.insert(code, groups.clone());
        groups
    }

    fn grouped(&self, code: Code) -> Vec<Group> {
        if self.moving.is_empty() {
            return vec![(self.still[code], (0..self.codes as u16).collect())];
        }
        let mut groups: HashMap<u32, Vec<u16>> = HashMap::new();
        for next in 0..self.codes {
            groups.entry(self.before(code, next)).or_default().push(next as u16);
        }
        let mut groups: Vec<Group> = groups.into_iter().collect();
        groups.sort_unstable();
        groups
    }
}

impl Moving {
    fn new(atom: usize, sum: &Sum, theory: &Theory) -> Moving {
        let part = |next| (0..theory.codes()).map(|c| sum.part(&theory.values(c), next)).collect();
        Moving { atom, sum: sum.clone(), now: part(false), next: part(true) }
    }
}
