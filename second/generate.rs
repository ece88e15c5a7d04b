//! Generated sheets: flags and numbers, near the limits, and knots. A few of them are refused.

use crate::formulas;
use crate::random::Random;
use crate::search::search;
use crate::sheet;
use crate::text::Text;
use crate::theory::Theory;

/// What the own search may take to choose notes.
const NOTE_WORK: u64 = 300_000;

fn name(random: &mut Random, length: usize) -> String {
    (0..length).map(|_| (b'a' + random.below(26) as u8) as char).collect()
}

pub fn names(random: &mut Random, count: usize) -> Vec<String> {
    let mut names: Vec<String> = Vec::new();
    while names.len() < count {
        let length = if random.chance(60) { 1 + random.below(3) } else { 1 + random.below(8) };
        let name = name(random, length);
        if !names.contains(&name) {
            names.push(name);
        }
    }
    names
}

/// Few more often than many.
fn few(random: &mut Random, least: usize, most: usize) -> usize {
    let span = most - least + 1;
    let (one, other) = (random.below(span), random.below(span));
    least + one.min(other)
}

pub fn flags_opening(random: &mut Random, flags: usize, atoms: usize) -> Text {
    let names = names(random, flags);
    let mut text = Text { heading: "flags".to_string(), ..Text::default() };
    text.opening = names.iter().map(|n| format!("v {n}")).collect();
    for i in 0..atoms {
        let flag = if random.chance(80) { i % flags } else { random.below(flags) };
        text.opening.push(format!("a {}", names[flag]));
    }
    text
}

fn bounds(random: &mut Random, codes: i64) -> (i64, i64) {
    let width = *random.pick(&[1, 2, 2, 3, 3, 4, 5, 7, 10, 16, 64, 100, 1000, 4096]);
    let width = width.min(codes.max(1));
    let low = *random.pick(&[0, 0, 0, 1, -1, -3, -10_000, 10_001 - width]);
    (low, low + width - 1)
}

pub fn numbers_opening(random: &mut Random, variables: usize, atoms: usize, codes: i64) -> Text {
    let names = names(random, variables);
    let mut text = Text { heading: "numbers".to_string(), ..Text::default() };
    let mut left = codes;
    let mut all = Vec::new();
    for name in &names {
        let (low, high) = bounds(random, left);
        left /= high - low + 1;
        all.push((name.clone(), low, high));
        text.opening.push(format!("v {name} {low} {high}"));
    }
    for _ in 0..atoms {
        text.opening.push(format!("a {}", sum(random, &all)));
    }
    text
}

/// A sum of which the constant is near what it comes to at some values.
fn sum(random: &mut Random, variables: &[(String, i64, i64)]) -> String {
    if random.chance(25) {
        return step(random, variables);
    }
    let mut terms = Vec::new();
    let mut constant = 0;
    for _ in 0..*random.pick(&[1, 1, 1, 2, 2, 3, 4]) {
        let (name, low, high) = random.pick(variables);
        let coefficient = if random.chance(75) { *random.pick(&[1, -1, 1, 2]) } else { random.within(-1000, 1000) };
        let mark = *random.pick(&["", "", "", "'", "~"]);
        terms.push(format!("{coefficient}*{name}{mark}"));
        constant += coefficient * random.within(*low, *high);
    }
    let constant = (constant + *random.pick(&[0, 0, 0, 1, -1])).clamp(-40_000_000, 40_000_000);
    format!("{}{}{constant}", terms.join("+"), random.pick(&["=", "<", "<="]))
}

/// A sum that says how a variable goes on.
fn step(random: &mut Random, variables: &[(String, i64, i64)]) -> String {
    let (name, _, _) = random.pick(variables);
    let mark = *random.pick(&["'", "~"]);
    let by = *random.pick(&[0, 1, 1, -1, 2]);
    format!("1*{name}{mark}+-1*{name}{}{by}", random.pick(&["=", "=", "<", "<="]))
}

pub fn add_rules(random: &mut Random, text: &mut Text, count: usize) {
    let atoms = text.atoms();
    for _ in 0..count {
        let formula = match random.below(20) {
            0..12 => formulas::shaped(random, atoms),
            12..18 => {
                let size = 2 + random.below(9);
                formulas::any(random, atoms, size)
            }
            18 => formulas::dead(random, atoms),
            _ => formulas::knot(random, atoms),
        };
        text.rules.push(format!("r {formula}"));
    }
}

pub fn note(random: &mut Random, theory: &Theory) -> String {
    let code = random.below(theory.codes());
    theory.note(code)
}

/// Notes at random, or the beginning of a history that meets the rules, possibly with a visit at random behind.
pub fn add_notes(random: &mut Random, text: &mut Text, count: usize) {
    let Ok(read) = sheet::read(&text.bytes()) else { return };
    if random.chance(70) {
        let rows = 1_000;
        let found = search(&read.book, &read.theory, &[], rows, NOTE_WORK).map(|a| a.history).unwrap_or_default();
        let visits = found.iter().take(count);
        text.notes = visits.map(|c| read.theory.note(*c)).collect();
        if random.chance(70) {
            return;
        }
    }
    while text.notes.len() < count {
        text.notes.push(note(random, &read.theory));
    }
}

fn note_count(random: &mut Random) -> usize {
    match random.below(20) {
        0..8 => 0,
        8..17 => 1 + random.below(4),
        17 | 18 => random.below(12),
        _ => random.below(60),
    }
}

pub fn flags(random: &mut Random) -> Text {
    let flags = if random.chance(85) { few(random, 1, 5) } else { few(random, 1, 10) };
    let atoms = few(random, 0, 4) + flags.min(4);
    let mut text = flags_opening(random, flags, atoms.min(32));
    let rules = few(random, 0, 5);
    add_rules(random, &mut text, rules);
    let notes = note_count(random);
    add_notes(random, &mut text, notes);
    text
}

pub fn numbers(random: &mut Random) -> Text {
    let variables = few(random, 1, 4);
    let codes = *random.pick(&[4, 10, 24, 24, 60, 60, 200, 600]);
    let atoms = few(random, 1, 6);
    let mut text = numbers_opening(random, variables, atoms, codes);
    let rules = few(random, 0, 5);
    add_rules(random, &mut text, rules);
    let notes = note_count(random);
    add_notes(random, &mut text, notes);
    text
}

/// A variable that counts up to a goal: shortest histories are long.
pub fn chain(random: &mut Random) -> Text {
    let goal = if random.chance(8) { 4_095 } else { 2 + random.below(300) as i64 };
    let by = 1 + random.below(2) as i64;
    let mut text = Text { heading: "numbers".to_string(), ..Text::default() };
    text.opening = vec![format!("v t 0 {goal}")];
    for atom in [format!("1*t'+-1*t={by}"), format!("1*t={goal}"), "1*t=0".to_string(), format!("1*t~+-1*t<={by}")] {
        text.opening.push(format!("a {atom}"));
    }
    let rules: &[&str] = if random.chance(50) { &["r G | W L 0", "r F 1", "r 2"] } else { &["r U 0 1", "r 2"] };
    text.rules = rules.iter().map(|r| r.to_string()).collect();
    if random.chance(30) {
        text.rules.push(format!("r {}", formulas::shaped(random, 4)));
    }
    if random.chance(70) {
        let kept = random.below(12) as i64;
        text.notes = (0..=kept).map(|i| i * by).filter(|t| *t <= goal).map(|t| format!("n {t}")).collect();
    }
    text
}

/// Sheets of which the positions often outnumber the rows.
pub fn wide(random: &mut Random) -> Text {
    let mut text = match random.below(4) {
        0 => {
            let flags = 11 + random.below(2);
            flags_opening(random, flags, 3)
        }
        1 => numbers_opening(random, 3, 4, 4_096),
        _ => {
            let flags = 5 + random.below(4);
            flags_opening(random, flags, flags)
        }
    };
    let atoms = text.atoms();
    for _ in 0..1 + random.below(8) {
        let (a, b) = (random.below(atoms), random.below(atoms));
        let shape = random.pick(&["X T", "G F a", "G | X a X b", "F & a X b", "G X T", "X X b", "U a X b", "G | ! a X F b"]);
        text.rules.push(format!("r {}", shape.replace('a', &a.to_string()).replace('b', &b.to_string())));
    }
    if random.chance(30) {
        let notes = 1 + random.below(3);
        add_notes(random, &mut text, notes);
    }
    text
}

/// Dozens of ors, untils and releases over tomorrows.
pub fn knots(random: &mut Random) -> Text {
    let mut text = if random.chance(70) {
        let flags = few(random, 1, 4);
        flags_opening(random, flags, flags)
    } else {
        let (variables, atoms) = (few(random, 1, 2), few(random, 1, 4));
        numbers_opening(random, variables, atoms, 12)
    };
    let atoms = text.atoms();
    for _ in 0..3 + random.below(12) {
        text.rules.push(format!("r {}", formulas::knot(random, atoms)));
    }
    if random.chance(40) {
        text.rules.push(format!("r {}", formulas::dead(random, atoms)));
    }
    while sheet::read(&text.bytes()).is_err() && random.chance(95) {
        text.rules.pop();
    }
    let notes = few(random, 0, 4);
    add_notes(random, &mut text, notes);
    text
}
