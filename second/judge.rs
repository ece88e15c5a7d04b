//! The judge: the table of satisfaction, formula by formula, over all visits of a history.

use crate::book::{Book, Kind};
use crate::theory::{Code, Theory};

/// For each formula the visits at which it holds.
pub fn table(book: &Book, theory: &Theory, history: &[Code]) -> Vec<Vec<bool>> {
    let n = history.len();
    let mut holds: Vec<Vec<bool>> = Vec::new();
    for kind in &book.formulas {
        let column = (0..n).map(|i| holds_at(*kind, i, theory, history, &holds)).collect();
        holds.push(column);
    }
    holds
}

fn holds_at(kind: Kind, i: usize, theory: &Theory, history: &[Code], holds: &[Vec<bool>]) -> bool {
    let n = history.len();
    let atom = |a| theory.holds(a, history[i], history.get(i + 1).copied());
    match kind {
        Kind::True => true,
        Kind::False => false,
        Kind::Atom(a) => atom(a),
        Kind::NotAtom(a) => !atom(a),
        Kind::And(a, b) => holds[a][i] && holds[b][i],
        Kind::Or(a, b) => holds[a][i] || holds[b][i],
        Kind::Tomorrow(a) => i < n - 1 && holds[a][i + 1],
        Kind::WeakTomorrow(a) => i == n - 1 || holds[a][i + 1],
        Kind::Until(a, b) => {
            // The right side at some j, where the left one holds from i to j - 1: j is at most its first failure.
            let failure = (i..n).find(|k| !holds[a][*k]).unwrap_or(n);
            (i..n).any(|j| j <= failure && holds[b][j])
        }
        Kind::Release(a, b) => {
            let failure = (i..n).find(|k| !holds[b][*k]).unwrap_or(n);
            failure == n || (i..n).any(|k| k < failure && holds[a][k])
        }
    }
}

/// Whether every rule holds at the first visit of a history that has one.
pub fn meets(book: &Book, theory: &Theory, history: &[Code]) -> bool {
    let holds = table(book, theory, history);
    book.rules.iter().all(|r| holds[*r][0])
}
