//! Formulas by number, without negation but at atoms, and the rules among them.

pub const MOST_FORMULAS: usize = 64;

pub type Formula = usize;

#[derive(Clone, Copy, PartialEq, Eq, Hash, Debug)]
pub enum Kind {
    True,
    False,
    Atom(usize),
    NotAtom(usize),
    And(Formula, Formula),
    Or(Formula, Formula),
    Tomorrow(Formula),
    WeakTomorrow(Formula),
    Until(Formula, Formula),
    Release(Formula, Formula),
}

#[derive(Clone, Default, Debug)]
pub struct Book {
    pub formulas: Vec<Kind>,
    pub rules: Vec<Formula>,
}

impl Book {
    /// The number of an equal formula, or of this one put at the end; none where it is the 65th.
    pub fn put(&mut self, kind: Kind) -> Option<Formula> {
        if let Some(old) = self.formulas.iter().position(|k| *k == kind) {
            return Some(old);
        }
        if self.formulas.len() == MOST_FORMULAS {
            return None;
        }
        self.formulas.push(kind);
        Some(self.formulas.len() - 1)
    }

    pub fn name_rule(&mut self, formula: Formula) {
        if !self.rules.contains(&formula) {
            self.rules.push(formula);
        }
    }

    /// The atoms that some formula speaks of.
    pub fn atoms(&self) -> u32 {
        self.formulas.iter().fold(0, |set, kind| match kind {
            Kind::Atom(a) | Kind::NotAtom(a) => set | 1 << a,
            _ => set,
        })
    }
}
