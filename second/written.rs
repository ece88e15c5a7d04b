//! Rules as they are written, with their own meaning: no negation is pushed down and nothing is unfolded.

use crate::theory::{Code, Theory};

/// Whether the rule that these items write holds at visit `i`; the items behind it are left.
pub fn holds(items: &mut &[&str], i: usize, theory: &Theory, history: &[Code]) -> bool {
    let start = *items;
    let (first, rest) = start.split_first().expect("a rule that was read has all its items");
    *items = rest;
    let n = history.len();
    match *first {
        "T" => true,
        "L" => false,
        "!" => !holds(items, i, theory, history),
        "X" | "W" | "F" | "G" => {
            let at = column(items, theory, history);
            match *first {
                "X" => i + 1 < n && at[i + 1],
                "W" => i + 1 == n || at[i + 1],
                "F" => (i..n).any(|j| at[j]),
                _ => (i..n).all(|j| at[j]),
            }
        }
        "&" | "|" | "U" | "R" => {
            let left = column(items, theory, history);
            let right = column(items, theory, history);
            match *first {
                "&" => left[i] && right[i],
                "|" => left[i] || right[i],
                "U" => (i..n).any(|j| right[j] && (i..j).all(|k| left[k])),
                _ => (i..n).all(|j| right[j]) || (i..n).any(|k| left[k] && (i..=k).all(|j| right[j])),
            }
        }
        atom => theory.holds(atom.parse().expect("an atom's number"), history[i], history.get(i + 1).copied()),
    }
}

/// Reads one operand: the visits at which it holds.
fn column(items: &mut &[&str], theory: &Theory, history: &[Code]) -> Vec<bool> {
    let start = *items;
    (0..history.len())
        .map(|j| {
            *items = start;
            holds(items, j, theory, history)
        })
        .collect()
}

/// Whether all rules of these lines hold at the first visit.
pub fn all_hold(rules: &[String], theory: &Theory, history: &[Code]) -> bool {
    rules.iter().all(|rule| {
        let items: Vec<&str> = rule.split(' ').skip(1).collect();
        holds(&mut &items[..], 0, theory, history)
    })
}
