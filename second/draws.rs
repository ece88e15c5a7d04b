//! Generated draws: two sheets and calls, accepted and refused ones mixed, and wrong draws.

use crate::broken;
use crate::formulas;
use crate::generate;
use crate::household::Record;
use crate::random::Random;
use crate::search::{Verdict, search};
use crate::sheet::{self, Sheet};
use crate::text::Text;

/// What the own search may take to choose the rows of a question.
const ROWS_WORK: u64 = 300_000;

pub fn draw(random: &mut Random) -> Vec<u8> {
    let first = if random.chance(60) { generate::flags(random) } else { generate::numbers(random) };
    let second = second_sheet(random, &first);
    let mut sheets = [first.bytes(), second.bytes()];
    if random.chance(6) {
        let which = random.below(2);
        sheets[which] = broken::broken(random);
    }
    let entries = *random.pick(&[0, 1, 2, 3, 4, 6, 8, 10, 16, 100, 1_023, 1_024, 1_025, 2_048]);
    let calls = calls(random, &sheets, entries);
    let bytes = written(&sheets, &entries.to_string(), &calls);
    if random.chance(12) { wrong(random, bytes, &sheets, calls) } else { bytes }
}

fn written(sheets: &[Vec<u8>; 2], entries: &str, calls: &[String]) -> Vec<u8> {
    let mut bytes = format!("draw {} {} {entries}\n", sheets[0].len(), sheets[1].len()).into_bytes();
    sheets.iter().for_each(|s| bytes.extend_from_slice(s));
    calls.iter().for_each(|c| bytes.extend_from_slice(format!("{c}\n").as_bytes()));
    bytes
}

/// Often a sheet with the same counts: the same opening with other rules, or another theory.
fn second_sheet(random: &mut Random, first: &Text) -> Text {
    let mut text = first.clone();
    match random.below(10) {
        0..5 => {
            text.rules.clear();
            let rules = random.below(4);
            generate::add_rules(random, &mut text, rules);
        }
        5 | 6 if first.heading == "flags" && first.variables() <= 6 => text = as_numbers(random, first),
        7 => {
            text.opening.pop();
            text.rules.clear();
            text.notes.clear();
        }
        8 => text = generate::flags(random),
        9 => text = generate::numbers(random),
        _ => {}
    }
    text
}

/// A number sheet with as many codes and atoms as this flags sheet.
fn as_numbers(random: &mut Random, first: &Text) -> Text {
    let mut text = Text { heading: "numbers".to_string(), ..Text::default() };
    let codes = 1 << first.variables();
    text.opening.push(format!("v t 0 {}", codes - 1));
    for _ in 0..first.atoms() {
        let mark = *random.pick(&["", "'", "~"]);
        text.opening.push(format!("a 1*t{mark}<={}", random.below(codes)));
    }
    text.rules = first.rules.clone();
    text
}

fn calls(random: &mut Random, sheets: &[Vec<u8>; 2], entries: usize) -> Vec<String> {
    let read: Vec<Sheet> = sheets.iter().filter_map(|s| sheet::read(s).ok()).collect();
    if read.len() < 2 {
        return vec!["strike".to_string(), "confirm 0".to_string()];
    }
    let mut record = Record::open(read[0].theory.counts(), entries);
    let count = match random.below(30) {
        0 => 256,
        1 => 40,
        _ => random.below(14),
    };
    (0..count).map(|_| call(random, &read, &mut record)).collect()
}

fn call(random: &mut Random, sheets: &[Sheet], record: &mut Record) -> String {
    match random.below(10) {
        0..4 => sync(random, sheets, record),
        4 | 5 => {
            record.strike();
            "strike".to_string()
        }
        _ => question(random, sheets, record),
    }
}

fn sync(random: &mut Random, sheets: &[Sheet], record: &mut Record) -> String {
    let codes = sheets[0].theory.codes();
    let count = match random.below(40) {
        0 => 100,
        1..4 if record.has_room_for(1_000) => 1_030,
        _ => random.below(5),
    };
    let mut notes: Vec<usize> = (0..count).map(|_| random.below(codes)).collect();
    if random.chance(30) {
        notes.push(*random.pick(&[codes, codes + 1, 65_535, codes - 1]));
    }
    if random.chance(30) {
        let history = shortest(sheets, record, 0, 0).map(|(_, history)| history).unwrap_or_default();
        notes = history.into_iter().skip(record.kept.len()).take(1 + random.below(3)).collect();
    }
    let confirmed = random.chance(70);
    record.sync(&notes, confirmed);
    let notes: String = notes.iter().map(|n| format!(" {n}")).collect();
    format!("{}{notes}", if confirmed { "confirm" } else { "fail" })
}

/// The row count and the shortest history of a question that is not refused.
fn shortest(sheets: &[Sheet], record: &Record, book: usize, theory: usize) -> Option<(usize, Vec<usize>)> {
    let (book, theory) = (&sheets[book], &sheets[theory].theory);
    if record.question_refusal(book.theory.counts(), theory.counts(), 1, 1).is_some() {
        return None;
    }
    let answer = search(&book.book, theory, &record.kept, 2_000, ROWS_WORK)?;
    (answer.verdict != Verdict::Short).then_some((answer.rows, answer.history))
}

fn question(random: &mut Random, sheets: &[Sheet], record: &Record) -> String {
    let (book, theory) = (random.below(3) / 2, random.below(3) / 2);
    let counted = shortest(sheets, record, book, theory).map(|(rows, _)| rows);
    let rows = match random.below(14) {
        0 => 0,
        1 => 1 + random.below(20),
        2 => 65_537,
        3 if counted.is_some() => 65_536,
        4..10 => (counted.unwrap_or(500) + random.below(3)).saturating_sub(1),
        _ => 200 + random.below(1_500),
    };
    let entries = match random.below(12) {
        0 => rows.saturating_sub(1),
        1 => (rows + 1).min(65_537),
        2 => 65_537,
        _ => rows,
    };
    format!("ask {book} {theory} {rows} {entries}")
}

const BAD_CALLS: [&str; 26] = [
    "", " ", "confirm ", "confirm  0", "confirm 65536", "confirm -1", "confirm 00", "confirm x", "fail 0 ", "Fail 0", "strike 1", "strike ", "ask",
    "ask 0 0 1", "ask 0 0 1 1 1", "ask 2 0 1 1", "ask 0 2 1 1", "ask 0 0 65538 65538", "ask 0 0 1 65538", "ask 0 0 01 1", "ask 0 0 -1 1",
    "ask 0 0 1 -0", "ask 0  0 1 1", "confirm 99999999999999999999", "end", "kept 0",
];

fn wrong(random: &mut Random, bytes: Vec<u8>, sheets: &[Vec<u8>; 2], mut calls: Vec<String>) -> Vec<u8> {
    let with = |first: String| [first.as_bytes(), &bytes[bytes.iter().position(|b| *b == 10).unwrap_or(0)..]].concat();
    let (b, c) = (sheets[0].len(), sheets[1].len());
    match random.below(14) {
        0 => broken::damage(random, bytes),
        1 => bytes[..bytes.len() - 1].to_vec(),
        2 => bytes[..random.below(bytes.len())].to_vec(),
        3 => with(format!("draw {b} {c} 2049")),
        4 => with(format!("draw {} {c} 5", b + 1)),
        5 => with(format!("draw {b} {} 5", c.saturating_sub(1))),
        6 => with(format!("draw {b} {c} {}", random.pick(&["05", "-0", "-1", "", "5 ", "5 5", "x", "99999999999999999999"]))),
        7 => with(format!("{} {b} {c} 5", random.pick(&["Draw", "draw ", " draw", "drew", ""]))),
        8 => with(format!("draw {} {c} 5", random.pick(&["65537", "65538", "0", "00", "99999999999999999999"]))),
        9 => {
            calls = vec!["strike".to_string(); 256 + random.below(2)];
            written(sheets, "5", &calls)
        }
        10 => {
            let zeros = |n: usize| format!("fail{}", " 0".repeat(n));
            calls = vec![zeros(4_000), zeros(96 + random.below(2))];
            written(sheets, "5", &calls)
        }
        11 => {
            let filler = format!("confirm{}", " 65535".repeat(1_000));
            calls = vec![filler; 44];
            let mut long = written(sheets, "5", &calls);
            long.truncate(262_143 + random.below(3));
            long
        }
        _ => {
            let line = random.pick(&BAD_CALLS).to_string();
            calls.insert(random.below(calls.len() + 1), line);
            written(sheets, "7", &calls)
        }
    }
}

/// A first sheet of exactly 65,537 bytes, or an empty one, is refused within a right draw.
pub fn draw_at_a_limit(random: &mut Random) -> Vec<u8> {
    let small = generate::flags(random).bytes();
    let rule = formulas::shaped(random, 0);
    let sheets = match random.below(4) {
        0 => [vec![10; 65_537], small],
        1 => [small, Vec::new()],
        2 => [Vec::new(), vec![10; 65_537]],
        _ => [format!("flags\nv a\nr {rule}\nend 10 {}\n", 13 + rule.len()).into_bytes(), small],
    };
    let strikes = 250 + random.below(8);
    let entries = *random.pick(&["0", "2048", "1"]);
    written(&sheets, entries, &vec!["strike".to_string(); strikes])
}
