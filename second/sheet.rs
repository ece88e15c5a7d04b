//! Reading a sheet: what it says, or the number and the place of its refusal.

use crate::book::{Book, Formula, Kind};
use crate::theory::*;

pub const MOST_BYTES: usize = 65_536;
pub const MOST_NOTES: usize = 1_024;
pub const MOST_DEPTH: usize = 32;
pub const MOST_TERMS: usize = 4;
pub const BOUND: i64 = 10_000;
pub const COEFFICIENT: i64 = 1_000;
pub const CONSTANT: i64 = 40_000_000;

#[derive(Clone, Debug)]
pub struct Sheet {
    pub theory: Theory,
    pub book: Book,
    pub notes: Vec<Code>,
}

#[derive(Clone, Copy, PartialEq, Debug)]
pub struct Refusal {
    pub number: u8,
    pub place: usize,
}

struct Line<'a> {
    place: usize,
    items: Vec<&'a str>,
}

/// A whole number as it must be written. One too long for any limit is read as a number past all limits.
pub fn whole(item: &str) -> Option<i64> {
    let digits = item.strip_prefix('-').unwrap_or(item);
    let negative = digits.len() < item.len();
    if digits.is_empty() || !digits.bytes().all(|b| b.is_ascii_digit()) {
        return None;
    }
    if digits.starts_with('0') && (digits.len() > 1 || negative) {
        return None;
    }
    let size = if digits.len() > 15 { i64::MAX } else { digits.parse().ok()? };
    Some(if negative { -size } else { size })
}

fn whole_within(item: &str, limit: i64) -> Option<i64> {
    whole(item).filter(|x| -limit <= *x && *x <= limit)
}

pub fn read(bytes: &[u8]) -> Result<Sheet, Refusal> {
    let refusal = |number, place| Refusal { number, place };
    let text = proper_text(bytes).ok_or(refusal(10, 0))?;
    let lines = lines(text);
    let (trailer, above) = lines.split_last().expect("a text that ends in a line end has a line");
    let (rules, notes) = read_trailer(trailer, &lines).ok_or(refusal(11, trailer.place))?;
    let mut theory = read_heading(&above[0]).ok_or(refusal(12, 0))?;
    let opening: Vec<&Line> = above[1..].iter().filter(|l| l.place < rules).collect();
    if opening.is_empty() {
        return Err(refusal(12, rules));
    }
    for line in opening {
        read_opening(&line.items, &mut theory).ok_or(refusal(12, line.place))?;
    }
    let mut book = Book::default();
    for line in above.iter().filter(|l| rules <= l.place && l.place < notes) {
        read_rule(&line.items, theory.atoms(), &mut book).ok_or(refusal(13, line.place))?;
    }
    let mut visits = Vec::new();
    for line in above.iter().filter(|l| notes <= l.place) {
        let visit = read_note(&line.items, &theory).filter(|_| visits.len() < MOST_NOTES);
        visits.push(visit.ok_or(refusal(14, line.place))?);
    }
    Ok(Sheet { theory, book, notes: visits })
}

fn proper_text(bytes: &[u8]) -> Option<&str> {
    let printable = bytes.iter().all(|b| matches!(b, 32..=126 | 10));
    let fits = bytes.len() <= MOST_BYTES && bytes.last() == Some(&10);
    if printable && fits { std::str::from_utf8(bytes).ok() } else { None }
}

/// The lines with their places; an item is what stands between single spaces, so two spaces make an empty item.
fn lines(text: &str) -> Vec<Line<'_>> {
    let mut place = 0;
    let mut lines = Vec::new();
    for line in text.split_terminator('\n') {
        lines.push(Line { place, items: line.split(' ').collect() });
        place += line.len() + 1;
    }
    lines
}

fn read_trailer(trailer: &Line, lines: &[Line]) -> Option<(usize, usize)> {
    let ["end", rules, notes] = trailer.items[..] else { return None };
    let (rules, notes) = (whole(rules)?, whole(notes)?);
    let begins = |place: i64| lines.iter().any(|l| l.place as i64 == place);
    let ordered = 0 < rules && rules <= notes && notes <= trailer.place as i64;
    (ordered && begins(rules) && begins(notes)).then_some((rules as usize, notes as usize))
}

fn read_heading(line: &Line) -> Option<Theory> {
    match line.items[..] {
        ["flags"] => Some(Theory::Flags { names: Vec::new(), atoms: Vec::new() }),
        ["numbers"] => Some(Theory::Numbers { variables: Vec::new(), atoms: Vec::new() }),
        _ => None,
    }
}

fn is_name(item: &str) -> bool {
    (1..=8).contains(&item.len()) && item.bytes().all(|b| b.is_ascii_lowercase())
}

fn read_opening(items: &[&str], theory: &mut Theory) -> Option<()> {
    match theory {
        Theory::Flags { names, atoms } => match items {
            ["v", name] if atoms.is_empty() => names.push(read_flag(name, names)?),
            ["a", name] if atoms.len() < MOST_ATOMS => atoms.push(names.iter().position(|n| n == name)?),
            _ => return None,
        },
        Theory::Numbers { variables, atoms } => match items {
            ["v", name, low, high] if atoms.is_empty() => variables.push(read_variable(name, low, high, variables)?),
            ["a", sum] if atoms.len() < MOST_ATOMS => atoms.push(read_sum(sum, variables)?),
            _ => return None,
        },
    }
    Some(())
}

fn read_flag(name: &str, names: &[String]) -> Option<String> {
    let fits = is_name(name) && names.len() < MOST_FLAGS && !names.iter().any(|n| n == name);
    fits.then(|| name.to_string())
}

fn read_variable(name: &str, low: &str, high: &str, variables: &[Variable]) -> Option<Variable> {
    let (low, high) = (whole_within(low, BOUND)?, whole_within(high, BOUND)?);
    let variable = Variable { name: name.to_string(), low, high };
    let taken = variables.iter().any(|v| v.name == name);
    if !is_name(name) || taken || variables.len() == MOST_VARIABLES || low > high {
        return None;
    }
    let codes = variables.iter().map(Variable::width).product::<i64>() * variable.width();
    (codes <= MOST_CODES).then_some(variable)
}

fn read_sum(item: &str, variables: &[Variable]) -> Option<Sum> {
    let at = item.find(['=', '<'])?;
    let (left, right) = item.split_at(at);
    let (compare, constant) = if let Some(rest) = right.strip_prefix("<=") {
        (Compare::AtMost, rest)
    } else if let Some(rest) = right.strip_prefix('<') {
        (Compare::Less, rest)
    } else {
        (Compare::Equal, right.strip_prefix('=')?)
    };
    let constant = whole_within(constant, CONSTANT)?;
    let terms: Option<Vec<Term>> = left.split('+').map(|t| read_term(t, variables)).collect();
    terms.filter(|t| t.len() <= MOST_TERMS).map(|terms| Sum { terms, compare, constant })
}

fn read_term(item: &str, variables: &[Variable]) -> Option<Term> {
    let (coefficient, rest) = item.split_once('*')?;
    let coefficient = whole_within(coefficient, COEFFICIENT)?;
    let (name, when) = if let Some(name) = rest.strip_suffix('\'') {
        (name, When::Strong)
    } else if let Some(name) = rest.strip_suffix('~') {
        (name, When::Weak)
    } else {
        (rest, When::Now)
    };
    let variable = variables.iter().position(|v| v.name == name)?;
    Some(Term { coefficient, variable, when })
}

fn read_rule(items: &[&str], atoms: usize, book: &mut Book) -> Option<()> {
    let ["r", formula @ ..] = items else { return None };
    let mut reading = Reading { items: formula, atoms, book };
    let rule = reading.formula(true, MOST_DEPTH)?;
    if !reading.items.is_empty() {
        return None;
    }
    book.name_rule(rule);
    Some(())
}

struct Reading<'a> {
    items: &'a [&'a str],
    atoms: usize,
    book: &'a mut Book,
}

impl Reading<'_> {
    /// Reads one formula, at most `depth` deep, and puts it, or its negation where `plain` is false.
    fn formula(&mut self, plain: bool, depth: usize) -> Option<Formula> {
        let (first, rest) = self.items.split_first()?;
        self.items = rest;
        let below = depth.checked_sub(1)?;
        let kind = match *first {
            "T" | "L" => constant((*first == "T") == plain),
            "!" => return self.formula(!plain, below),
            "X" | "W" => {
                let operand = self.formula(plain, below)?;
                if (*first == "X") == plain { Kind::Tomorrow(operand) } else { Kind::WeakTomorrow(operand) }
            }
            "F" | "G" => {
                let until = (*first == "F") == plain;
                let left = self.book.put(constant(until))?;
                let right = self.formula(plain, below)?;
                if until { Kind::Until(left, right) } else { Kind::Release(left, right) }
            }
            "&" | "|" | "U" | "R" => {
                let left = self.formula(plain, below)?;
                let right = self.formula(plain, below)?;
                binary(first, plain, left, right)
            }
            atom => self.atom(atom, plain)?,
        };
        self.book.put(kind)
    }

    fn atom(&self, item: &str, plain: bool) -> Option<Kind> {
        let atom = whole(item).filter(|a| 0 <= *a && *a < self.atoms as i64)? as usize;
        Some(if plain { Kind::Atom(atom) } else { Kind::NotAtom(atom) })
    }
}

fn constant(holds: bool) -> Kind {
    if holds { Kind::True } else { Kind::False }
}

fn binary(operator: &str, plain: bool, left: Formula, right: Formula) -> Kind {
    match (operator, plain) {
        ("&", true) | ("|", false) => Kind::And(left, right),
        ("|", true) | ("&", false) => Kind::Or(left, right),
        ("U", true) | ("R", false) => Kind::Until(left, right),
        _ => Kind::Release(left, right),
    }
}

fn read_note(items: &[&str], theory: &Theory) -> Option<Code> {
    let ["n", values @ ..] = items else { return None };
    let values: Option<Vec<i64>> = values.iter().map(|x| whole(x)).collect();
    theory.code(&values?)
}
