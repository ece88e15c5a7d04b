//! Sheets at a limit: the last good value, or the first bad one.

use crate::formulas;
use crate::generate::*;
use crate::random::Random;
use crate::sheet;
use crate::text::Text;

pub fn limits(random: &mut Random) -> Vec<u8> {
    let over = random.below(2);
    match random.below(16) {
        0 => flags_opening(random, 12 + over, 2).bytes(),
        1 => variables(random, 8 + over).bytes(),
        2 => long_name(random, 8 + over).bytes(),
        3 => bound(random, 10_000 + over as i64).bytes(),
        4 => widths(random, over == 1).bytes(),
        5 => atoms(random, 32 + over).bytes(),
        6 => terms(random, 4 + over).bytes(),
        7 => coefficient(random, 1_000 + over as i64).bytes(),
        8 => constant(random, 40_000_000 + over as i64).bytes(),
        9 => depth(random, 32 + over).bytes(),
        10 => different_formulas(random, 64 + over).bytes(),
        11 => notes(random, 1_024 + over).bytes(),
        12 => bytes(random, 65_536 + over),
        13 => digits(random, 1 + over * 200).bytes(),
        14 => {
            let mut text = flags(random);
            let levels = 4 + random.below(10);
            text.rules = vec![format!("r {}", formulas::balanced(random, text.atoms(), levels))];
            text.bytes()
        }
        _ => full(random).bytes(),
    }
}

fn with_rules(random: &mut Random, mut text: Text) -> Text {
    let rules = random.below(3);
    add_rules(random, &mut text, rules);
    let notes = random.below(3);
    add_notes(random, &mut text, notes);
    text
}

fn variables(random: &mut Random, count: usize) -> Text {
    let mut text = Text { heading: "numbers".to_string(), ..Text::default() };
    let names = names(random, count);
    text.opening = names.iter().map(|n| format!("v {n} 0 {}", random.below(2))).collect();
    text.opening.push(format!("a 1*{}=0", names[count - 1]));
    with_rules(random, text)
}

fn long_name(random: &mut Random, length: usize) -> Text {
    let mut text = flags_opening(random, 1, 0);
    let name = "z".repeat(length);
    text.opening.push(format!("v {name}"));
    text.opening.push(format!("a {name}"));
    with_rules(random, text)
}

fn signed(random: &mut Random, size: i64) -> i64 {
    if random.chance(50) { size } else { -size }
}

fn bound(random: &mut Random, size: i64) -> Text {
    let mut text = Text { heading: "numbers".to_string(), ..Text::default() };
    let end = signed(random, size);
    let inner = end - end.signum() * random.within(0, 5);
    text.opening = vec![format!("v t {} {}", end.min(inner), end.max(inner)), format!("a 1*t'+-1*t=1")];
    with_rules(random, text)
}

fn widths(random: &mut Random, over: bool) -> Text {
    let good: [&[i64]; 6] = [&[4096], &[64, 64], &[2, 2048], &[16, 16, 16], &[1, 4096, 1], &[4, 4, 4, 4, 4, 4]];
    let bad: [&[i64]; 6] = [&[4097], &[64, 65], &[17, 241], &[16, 16, 17], &[1, 4096, 2], &[20001, 20001]];
    let widths = if over { *random.pick(&bad) } else { *random.pick(&good) };
    let mut text = Text { heading: "numbers".to_string(), ..Text::default() };
    for (i, width) in widths.iter().enumerate() {
        let low = if *width > 10_001 { -10_000 } else { random.within(-3, 0) };
        text.opening.push(format!("v {} {low} {}", (b'a' + i as u8) as char, low + width - 1));
    }
    text.opening.push("a 1*a=0".to_string());
    with_rules(random, text)
}

fn atoms(random: &mut Random, count: usize) -> Text {
    let mut text = if random.chance(50) { flags_opening(random, 3, count) } else { numbers_opening(random, 2, count, 30) };
    text.rules = vec![format!("r F {}", random.below(34))];
    text
}

fn terms(random: &mut Random, count: usize) -> Text {
    let mut text = numbers_opening(random, 2, 0, 40);
    let name = text.opening[0].split(' ').nth(1).expect("a line v NAME LOW HIGH").to_string();
    let terms: Vec<String> = (0..count).map(|_| format!("{}*{name}", random.within(-3, 3))).collect();
    text.opening.push(format!("a {}<{}", terms.join("+"), random.within(-5, 5)));
    with_rules(random, text)
}

fn coefficient(random: &mut Random, size: i64) -> Text {
    let mut text = Text { heading: "numbers".to_string(), ..Text::default() };
    let mark = *random.pick(&["", "'", "~"]);
    text.opening = vec!["v t -10000 -9990".to_string(), format!("a {}*t{mark}<-9995000", signed(random, size))];
    with_rules(random, text)
}

fn constant(random: &mut Random, size: i64) -> Text {
    let mut text = Text { heading: "numbers".to_string(), ..Text::default() };
    let compare = *random.pick(&["=", "<", "<="]);
    let sum = *random.pick(&["1*t", "1000*t+1000*t'+1000*t~+1000*t", "-1000*t+-1000*t'+-1000*t~+-1000*t"]);
    text.opening = vec!["v t 9998 10000".to_string(), format!("a {sum}{compare}{}", signed(random, size))];
    with_rules(random, text)
}

fn depth(random: &mut Random, depth: usize) -> Text {
    let mut text = flags_opening(random, 2, 2);
    text.rules = vec![format!("r {}", formulas::deep(random, 2, depth))];
    text
}

/// Rules that put exactly this many formulas: two constants or atoms, and chains of tomorrows.
fn different_formulas(random: &mut Random, count: usize) -> Text {
    let mut text = flags_opening(random, 2, 2);
    let long = 2 + random.below(29);
    let tomorrow = *random.pick(&["X ", "W "]);
    text.rules.push(format!("r {}0", tomorrow.repeat(long)));
    let rest = count - 1 - long;
    text.rules.push(format!("r {}1", "X ".repeat(29.min(rest - 1))));
    let rest = rest - 1 - 29.min(rest - 1);
    if rest > 0 {
        text.rules.push(format!("r {}T", "W ".repeat((rest - 1).min(30))));
    }
    text
}

fn notes(random: &mut Random, count: usize) -> Text {
    let mut text = if random.chance(50) { flags(random) } else { numbers(random) };
    text.notes.clear();
    if let Ok(read) = sheet::read(&text.bytes()) {
        text.notes = (0..count).map(|_| note(random, &read.theory)).collect();
    }
    text
}

/// A sheet of exactly this many bytes: rules are named again and again. The fillers have 4 to 7 bytes with their line ends.
fn bytes(random: &mut Random, length: usize) -> Vec<u8> {
    let mut text = flags_opening(random, 1, 1);
    let fillers = ["r T", "r 10", "r X T", "r ! 10"];
    text.opening = (0..12).map(|i| if i == 0 { "v q".to_string() } else { "a q".to_string() }).collect();
    let trailer = "end 54 12345\n".len();
    let mut left = length - text.places().0 - trailer;
    while left > 0 {
        let fitting: Vec<&&str> = fillers.iter().filter(|f| left == f.len() + 1 || left >= f.len() + 5).collect();
        let filler = **random.pick(&fitting);
        left -= filler.len() + 1;
        text.rules.push(filler.to_string());
    }
    text.bytes()
}

/// A number written with this many digits, where the limits ask for few.
fn digits(random: &mut Random, digits: usize) -> Text {
    let number = "1".repeat(digits);
    let mut text = Text { heading: "numbers".to_string(), ..Text::default() };
    text.opening = vec!["v t 0 9".to_string(), "a 1*t=1".to_string(), "a 1*t<5".to_string()];
    text.rules = vec!["r F 0".to_string()];
    text.notes = vec!["n 3".to_string()];
    let sign = *random.pick(&["", "-"]);
    match random.below(5) {
        0 => text.opening[0] = format!("v t -3 {sign}{number}"),
        1 => text.opening[1] = format!("a {sign}{number}*t=1"),
        2 => text.opening[1] = format!("a 1*t={sign}{number}"),
        3 => text.rules[0] = format!("r F {number}"),
        _ => text.notes[0] = format!("n {sign}{number}"),
    }
    text
}

/// Every limit at once: 12 flags, 32 atoms, many formulas, many notes.
fn full(random: &mut Random) -> Text {
    let mut text = flags_opening(random, 12, 32);
    let rules = 5 + random.below(10);
    add_rules(random, &mut text, rules);
    while sheet::read(&text.bytes()).is_err() {
        text.rules.pop();
    }
    let read = sheet::read(&text.bytes()).expect("the loop above ends at a sheet that is read");
    let notes = 1 + random.below(1_024);
    text.notes = (0..notes).map(|_| note(random, &read.theory)).collect();
    text
}
