//! Expansions of a label: what its sound choices hand on to the next visit.

use crate::book::{Book, Formula, Kind};
use std::collections::HashSet;

/// A set of formulas: bit f stands for formula f.
pub type Label = u64;

pub fn bit(f: Formula) -> Label {
    1 << f
}

/// A visit as formulas see it: the atoms that hold there, and whether a visit follows.
#[derive(Clone, Copy, PartialEq, Eq, Hash)]
pub struct Visit {
    pub facts: u32,
    pub follows: bool,
}

/// What a formula alone can do at a visit.
struct Prospects {
    /// The formulas that have a sound choice.
    can: Label,
    /// Those of them of which some sound choice hands something on.
    hands: Label,
}

fn prospects(book: &Book, visit: Visit) -> Prospects {
    let (mut can, mut hands): (Label, Label) = (0, 0);
    for (f, kind) in book.formulas.iter().enumerate() {
        let c = |g: Formula| can >> g & 1 == 1;
        let h = |g: Formula| hands >> g & 1 == 1;
        let fact = |a: usize| visit.facts >> a & 1 == 1;
        let (sound, handing) = match *kind {
            Kind::True => (true, false),
            Kind::False => (false, false),
            Kind::Atom(a) => (fact(a), false),
            Kind::NotAtom(a) => (!fact(a), false),
            Kind::And(a, b) => (c(a) && c(b), h(a) || h(b)),
            Kind::Or(a, b) => (c(a) || c(b), h(a) || h(b)),
            Kind::Tomorrow(_) => (visit.follows, true),
            Kind::WeakTomorrow(_) => (true, true),
            Kind::Until(a, b) => (c(b) || c(a) && visit.follows, h(b) || c(a)),
            Kind::Release(_, b) => (c(b), true),
        };
        can |= if sound { bit(f) } else { 0 };
        hands |= if sound && handing && visit.follows { bit(f) } else { 0 };
    }
    Prospects { can, hands }
}

/// Whether some choice is sound for the label. Formulas that share members can share a choice: where one formula's choice
/// is sound, another keeps it on the members it meets and its own sound choice elsewhere.
pub fn has_sound_choice(book: &Book, label: Label, visit: Visit) -> bool {
    label & !prospects(book, visit).can == 0
}

/// The next labels of all sound choices at a visit that is followed by another.
/// It stops early once there are more than `most` of them, and gives up after `work` states.
pub fn next_labels(book: &Book, label: Label, facts: u32, most: usize, work: &mut u64) -> Option<Vec<Label>> {
    let prospects = prospects(book, Visit { facts, follows: true });
    let mut unfolding = Unfolding { book, prospects, most, work, met: HashSet::new(), found: HashSet::new() };
    unfolding.unfold(label, 0)?;
    let mut found: Vec<Label> = unfolding.found.into_iter().collect();
    found.sort_unstable();
    Some(found)
}

struct Unfolding<'a> {
    book: &'a Book,
    prospects: Prospects,
    most: usize,
    work: &'a mut u64,
    met: HashSet<(Label, Label)>,
    found: HashSet<Label>,
}

impl Unfolding<'_> {
    /// Unfolds the members that still wait, the greatest number first. Operands have smaller numbers, so that a member
    /// is unfolded once and its side is chosen once.
    fn unfold(&mut self, waiting: Label, next: Label) -> Option<()> {
        if waiting & !self.prospects.can != 0 || self.found.len() > self.most {
            return Some(());
        }
        // A member that has a sound choice and hands nothing on adds nothing.
        let waiting = waiting & self.prospects.hands;
        if waiting == 0 {
            self.found.insert(next);
            return Some(());
        }
        if !self.met.insert((waiting, next)) {
            return Some(());
        }
        *self.work = self.work.checked_sub(1)?;
        let f = 63 - waiting.leading_zeros() as usize;
        self.choose(f, waiting & !bit(f), next)
    }

    fn choose(&mut self, f: Formula, waiting: Label, next: Label) -> Option<()> {
        match self.book.formulas[f] {
            Kind::And(a, b) => self.unfold(waiting | bit(a) | bit(b), next),
            Kind::Or(a, b) => {
                self.unfold(waiting | bit(a), next)?;
                self.unfold(waiting | bit(b), next)
            }
            Kind::Until(a, b) => {
                self.unfold(waiting | bit(b), next)?;
                self.unfold(waiting | bit(a), next | bit(f))
            }
            Kind::Release(a, b) => {
                self.unfold(waiting | bit(a) | bit(b), next)?;
                self.unfold(waiting | bit(b), next | bit(f))
            }
            Kind::Tomorrow(a) | Kind::WeakTomorrow(a) => self.unfold(waiting, next | bit(a)),
            Kind::True | Kind::False | Kind::Atom(_) | Kind::NotAtom(_) => unreachable!("these hand nothing on"),
        }
    }
}
