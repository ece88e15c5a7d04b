//! The judge and the search checked without their short cuts, on small generated sheets: all histories up to a length,
//! and positions by all choices.

use crate::book::{Book, Kind};
use crate::expansion::{Label, bit};
use crate::formulas;
use crate::generate::{flags_opening, note, numbers_opening};
use crate::judge::{meets, table};
use crate::random::Random;
use crate::search::{Answer, Verdict, search};
use crate::sheet::{self, Sheet};
use crate::text::Text;
use crate::theory::{Code, Theory};
use crate::written::all_hold;
use std::collections::HashSet;

const LONGEST: usize = 5;
const MOST_CODES: usize = 4;
/// Choices are tried one by one up to this many ors, untils and releases.
const MOST_CHOICES: usize = 9;

#[derive(Default)]
struct Counts {
    can: usize,
    cannot: usize,
    short: usize,
    histories: usize,
    by_all_choices: usize,
}

/// Checks `count` sheets and says of the first wrong answer what it is.
pub fn check(seed: u64, count: u64) -> Result<String, String> {
    let mut counts = Counts::default();
    for index in 0..count {
        let mut random = Random::new(seed, index);
        let text = small(&mut random);
        let sheet = sheet::read(&text.bytes()).expect("a small sheet is read");
        let rows = *random.pick(&[4_096, 4_096, 4_096, 20, 50]);
        check_sheet(&sheet, &text.rules, rows, &mut counts).map_err(|e| format!("{e}\n{}", String::from_utf8_lossy(&text.bytes())))?;
    }
    let Counts { can, cannot, short, histories, by_all_choices } = counts;
    Ok(format!(
        "can {can}, cannot {cannot}, short {short}; {histories} histories judged twice, {by_all_choices} searches by all choices\n\
         checked {count} sheets, 0 differences"
    ))
}

fn small(random: &mut Random) -> Text {
    loop {
        let mut text = if random.chance(50) {
            let flags = 1 + random.below(2);
            flags_opening(random, flags, 2)
        } else {
            numbers_opening(random, 1, 3, MOST_CODES as i64)
        };
        for _ in 0..random.below(4) {
            let size = 2 + random.below(8);
            let atoms = text.atoms();
            let rule = match random.below(10) {
                0..5 => formulas::any(random, atoms, size),
                5..8 => formulas::shaped(random, atoms),
                8 => formulas::knot(random, atoms),
                _ => formulas::dead(random, atoms),
            };
            text.rules.push(format!("r {rule}"));
        }
        if let Ok(read) = sheet::read(&text.bytes()) {
            let notes = random.below(5).saturating_sub(1);
            text.notes = (0..notes).map(|_| note(random, &read.theory)).collect();
            return text;
        }
    }
}

fn check_sheet(sheet: &Sheet, rules: &[String], rows: usize, counts: &mut Counts) -> Result<(), String> {
    let Sheet { theory, book, notes } = sheet;
    let answer = search(book, theory, notes, rows, u64::MAX).ok_or("the search gave up")?;
    match answer.verdict {
        Verdict::Can(_) => counts.can += 1,
        Verdict::Cannot => counts.cannot += 1,
        Verdict::Short => counts.short += 1,
    }
    check_histories(sheet, rules, &answer, counts)?;
    if choices(book).len() <= MOST_CHOICES {
        counts.by_all_choices += 1;
        let (verdict, counted) = by_all_choices(book, theory, notes, rows);
        if (verdict, counted) != (answer.verdict, answer.rows) {
            return Err(format!("by all choices {verdict:?}, rows {counted}; the search said {:?}, rows {}", answer.verdict, answer.rows));
        }
    }
    Ok(())
}

fn check_histories(sheet: &Sheet, rules: &[String], answer: &Answer, counts: &mut Counts) -> Result<(), String> {
    let Sheet { theory, book, notes } = sheet;
    let mut shortest = None;
    for length in 1..=LONGEST {
        for number in 0..theory.codes().pow(length as u32) {
            let history = history(number, length, theory.codes());
            counts.histories += 1;
            if table(book, theory, &history) != marks(book, theory, &history) {
                return Err(format!("two judges differ on {history:?}"));
            }
            let met = meets(book, theory, &history);
            if (length < LONGEST || number % 8 == 0) && met != all_hold(rules, theory, &history) {
                return Err(format!("the rules as written differ on {history:?}"));
            }
            if met && shortest.is_none() && history.starts_with(notes) {
                shortest = Some(length);
            }
        }
    }
    let agrees = match answer.verdict {
        Verdict::Can(length) if length <= LONGEST => shortest == Some(length),
        Verdict::Can(_) | Verdict::Cannot => shortest.is_none(),
        Verdict::Short => true,
    };
    let shown = &answer.history;
    let shows = shown.is_empty() || shown.starts_with(notes) && meets(book, theory, shown);
    if agrees && shows { Ok(()) } else { Err(format!("{answer:?}, shortest history {shortest:?}")) }
}

fn history(mut number: usize, length: usize, codes: usize) -> Vec<Code> {
    let mut history = Vec::new();
    for _ in 0..length {
        history.push(number % codes);
        number /= codes;
    }
    history
}

/// The judge as one pass from the last visit to the first.
fn marks(book: &Book, theory: &Theory, history: &[Code]) -> Vec<Vec<bool>> {
    let n = history.len();
    let mut marks = vec![vec![false; n]; book.formulas.len()];
    for i in (0..n).rev() {
        let last = i + 1 == n;
        let atom = |a| theory.holds(a, history[i], history.get(i + 1).copied());
        for (f, kind) in book.formulas.iter().enumerate() {
            marks[f][i] = match *kind {
                Kind::True => true,
                Kind::False => false,
                Kind::Atom(a) => atom(a),
                Kind::NotAtom(a) => !atom(a),
                Kind::And(a, b) => marks[a][i] && marks[b][i],
                Kind::Or(a, b) => marks[a][i] || marks[b][i],
                Kind::Tomorrow(a) => !last && marks[a][i + 1],
                Kind::WeakTomorrow(a) => last || marks[a][i + 1],
                Kind::Until(a, b) => marks[b][i] || marks[a][i] && !last && marks[f][i + 1],
                Kind::Release(a, b) => marks[b][i] && (marks[a][i] || last || marks[f][i + 1]),
            };
        }
    }
    marks
}

fn choices(book: &Book) -> Vec<usize> {
    let is_choice = |f: &usize| matches!(book.formulas[*f], Kind::Or(..) | Kind::Until(..) | Kind::Release(..));
    (0..book.formulas.len()).filter(is_choice).collect()
}

/// The expansion of a label where the formulas in `first` are met on their first side, and what it hands on.
fn expansion(book: &Book, label: Label, first: Label) -> (Label, Label) {
    let (mut members, mut next) = (label, 0);
    loop {
        let before = members;
        for f in (0..book.formulas.len()).filter(|f| before & bit(*f) != 0) {
            let side = first & bit(f) != 0;
            let (now, later) = match book.formulas[f] {
                Kind::And(a, b) => (bit(a) | bit(b), 0),
                Kind::Or(a, b) => (if side { bit(a) } else { bit(b) }, 0),
                Kind::Until(a, b) => {
                    if side {
                        (bit(b), 0)
                    } else {
                        (bit(a), bit(f))
                    }
                }
                Kind::Release(a, b) => {
                    if side {
                        (bit(a) | bit(b), 0)
                    } else {
                        (bit(b), bit(f))
                    }
                }
                Kind::Tomorrow(a) | Kind::WeakTomorrow(a) => (0, bit(a)),
                _ => (0, 0),
            };
            members |= now;
            next |= later;
        }
        if members == before {
            return (members, next);
        }
    }
}

/// A weak tomorrow may hand on an until at the last visit; an until there may not hand on itself.
fn is_sound(book: &Book, theory: &Theory, members: Label, first: Label, code: Code, next: Option<Code>) -> bool {
    let member = |f: &usize| members & bit(*f) != 0;
    (0..book.formulas.len()).filter(member).all(|f| match book.formulas[f] {
        Kind::False => false,
        Kind::Atom(a) => theory.holds(a, code, next),
        Kind::NotAtom(a) => !theory.holds(a, code, next),
        Kind::Tomorrow(_) => next.is_some(),
        Kind::Until(..) => next.is_some() || first & bit(f) != 0,
        _ => true,
    })
}

/// The next labels of all sound choices, by trying every choice.
fn labels_by_all_choices(book: &Book, theory: &Theory, label: Label, code: Code, next: Option<Code>) -> HashSet<Label> {
    let choices = choices(book);
    let mut labels = HashSet::new();
    for number in 0..1usize << choices.len() {
        let first = choices.iter().enumerate().filter(|(i, _)| number >> i & 1 == 1).fold(0, |set, (_, f)| set | bit(*f));
        let (members, handed) = expansion(book, label, first);
        if is_sound(book, theory, members, first, code, next) {
            labels.insert(handed);
        }
    }
    labels
}

type Position = (usize, Label, Code);

/// The verdict and the row count, with positions as the page has them and no short cut.
fn by_all_choices(book: &Book, theory: &Theory, kept: &[Code], rows: usize) -> (Verdict, usize) {
    let last = kept.len().saturating_sub(1);
    let rules = book.rules.iter().fold(0, |set, r| set | bit(*r));
    let starts = if kept.is_empty() { (0..theory.codes()).collect() } else { vec![kept[0]] };
    let mut layer: HashSet<Position> = starts.into_iter().map(|code| (0, rules, code)).collect();
    let mut seen = layer.clone();
    for distance in 0.. {
        if seen.len() > rows {
            return (Verdict::Short, rows);
        }
        if layer.is_empty() {
            break;
        }
        let ends = |p: &Position| p.0 == last && !labels_by_all_choices(book, theory, p.1, p.2, None).is_empty();
        if layer.iter().any(ends) {
            return (Verdict::Can(distance + 1), seen.len());
        }
        let stepped: HashSet<Position> = layer.iter().flat_map(|p| steps(book, theory, kept, *p)).collect();
        layer = stepped.difference(&seen).copied().collect();
        seen.extend(&layer);
    }
    (Verdict::Cannot, seen.len())
}

fn steps(book: &Book, theory: &Theory, kept: &[Code], (place, label, code): Position) -> Vec<Position> {
    let used_up = place + 1 >= kept.len();
    let nexts = if used_up { (0..theory.codes()).collect() } else { vec![kept[place + 1]] };
    let next_place = if used_up { place } else { place + 1 };
    let mut steps = Vec::new();
    for next in nexts {
        for label in labels_by_all_choices(book, theory, label, code, Some(next)) {
            steps.push((next_place, label, next));
        }
    }
    steps
}
