//! Broken sheets: every cause of a refusal, and damage to bytes and lines at random places. Some stay good.

use crate::formulas;
use crate::generate;
use crate::random::Random;
use crate::text::Text;

pub fn broken(random: &mut Random) -> Vec<u8> {
    let text = if random.chance(50) { generate::flags(random) } else { generate::numbers(random) };
    match random.below(20) {
        0 | 1 => bytes(random, &text),
        2..5 => trailer(random, &text),
        5 | 6 => heading(random, text),
        7..10 => opening(random, text),
        10..12 => rule(random, text),
        12..14 => note(random, text),
        14 | 15 => lines(random, text),
        _ => damage(random, text.bytes()),
    }
}

fn bytes(random: &mut Random, text: &Text) -> Vec<u8> {
    let mut bytes = text.bytes();
    match random.below(5) {
        0 => bytes.clear(),
        1 => {
            bytes.pop();
        }
        2 => *bytes.last_mut().expect("a sheet has bytes") = *random.pick(&[0, 9, 13, 32, 48]),
        3 => bytes.resize(65_530 + random.below(20), 10),
        _ => {
            let at = random.below(bytes.len());
            bytes[at] = *random.pick(&[0, 7, 9, 11, 13, 31, 127, 128, 195, 255]);
        }
    }
    bytes
}

fn trailer(random: &mut Random, text: &Text) -> Vec<u8> {
    let (r, n, own) = text.places();
    let zeros = "0".repeat(1 + random.below(3));
    let nines = "9".repeat(1 + random.below(40));
    let trailer = match random.below(24) {
        0 => format!("end {} {n}\n", r + 1),
        1 => format!("end {} {n}\n", r - 1),
        2 => format!("end {r} {}\n", n + 1),
        3 => format!("end {r} {}\n", n - 1),
        4 => format!("end {n} {r}\n"),
        5 => format!("end 0 {n}\n"),
        6 => format!("end {r} {}\n", own + 1),
        7 => format!("end {r} {own}\n"),
        8 => format!("end {own} {own}\n"),
        9 => format!("end {zeros}{r} {n}\n"),
        10 => format!("end {r} {zeros}{n}\n"),
        11 => format!("end  {r} {n}\n"),
        12 => format!("end {r} {n} \n"),
        13 => format!(" end {r} {n}\n"),
        14 => format!("end {r} {n}{nines}\n"),
        15 => format!("end {r}\n"),
        16 => format!("end {r} {n} {n}\n"),
        17 => format!("end -{r} {n}\n"),
        18 => format!("end {r} {n}\n\n"),
        19 => format!("End {r} {n}\n"),
        20 => "end\n".to_string(),
        21 => "\n".to_string(),
        22 => {
            let at = text.heading.len() + 1;
            format!("end {at} {}\n", if random.chance(50) { at } else { r })
        }
        _ => String::new(),
    };
    text.with_trailer(&trailer)
}

fn heading(random: &mut Random, mut text: Text) -> Vec<u8> {
    match random.below(8) {
        0 => text.heading = if text.heading == "flags" { "numbers" } else { "flags" }.to_string(),
        1 => text.heading = text.heading.to_uppercase(),
        2 => text.heading.push(' '),
        3 => text.heading.insert(0, ' '),
        4 => text.heading.clear(),
        5 => text.heading.push_str(" 1"),
        6 => text.opening.clear(),
        _ => {
            text.heading.pop();
        }
    }
    text.bytes()
}

const BAD_VARIABLES: [&str; 24] = [
    "v", "v ", "v A", "v a1", "v abcdefghi", "v abcdefgh", "V a", "v  a", "v a ", " v a", "v a b", "va", "w a", "", "v zz 0", "v zz 0 1 2",
    "v zz 1 0", "v zz 0 10001", "v zz -10001 0", "v zz 00 1", "v zz -0 1", "v zz 0 +1", "v zz 0  1", "v zz 0 4096",
];

const BAD_SUMS: [&str; 40] = [
    "", "=", "1*q", "1*q=", "q=0", "1q=0", "*q=0", "1*=0", "1*q==0", "1*q=<0", "1*q>0", "1*q>=0", "+1*q=0", "1*q+=0", "1*q-1*q=0", "1*q=-0",
    "1*q=00", "1*q=+1", "01*q=0", "-0*q=0", "--1*q=0", "1001*q=0", "-1001*q=0", "1000*q=0", "1*q=40000001", "1*q=-40000001", "1*q=40000000",
    "1*q''=0", "1*q'~=0", "1*q~'=0", "1*'q=0", "1*Q=0", "1*q=0 ", "1*q =0", "1*q=0=0", "1*q+1*q+1*q+1*q=0", "1*q+1*q+1*q+1*q+1*q=0", "1*q++1*q=0",
    "1*1*q=0", "1*q<q",
];

fn opening(random: &mut Random, mut text: Text) -> Vec<u8> {
    let variables = text.variables();
    match random.below(6) {
        0 => {
            let line = random.pick(&BAD_VARIABLES).to_string();
            text.opening.insert(random.below(variables + 1), line);
        }
        1 => {
            let twice = text.opening[random.below(variables)].clone();
            text.opening.insert(variables, twice);
        }
        2 => text.opening.push(random.pick(&["v late", "v late 0 1", "a nobody", "a", "a ", "a a b", "", "b a"]).to_string()),
        3 => {
            let first = text.opening[0].split(' ').nth(1).unwrap_or("a");
            let line = format!("a {}", random.pick(&BAD_SUMS).replace('q', first));
            text.opening.push(line);
        }
        4 => text.opening.rotate_right(1),
        _ => {
            let at = random.below(text.opening.len());
            text.opening[at] = touched(random, &text.opening[at]);
        }
    }
    text.bytes()
}

/// A line with an item taken away, doubled or exchanged, or with a space too many.
fn touched(random: &mut Random, line: &str) -> String {
    let mut items: Vec<String> = line.split(' ').map(str::to_string).collect();
    let at = random.below(items.len());
    match random.below(7) {
        0 => {
            items.remove(at);
        }
        1 => items.insert(at, items[at].clone()),
        2 => items.insert(at, String::new()),
        3 => items.push(String::new()),
        4 => items[at].insert(0, '0'),
        5 => items[at].insert(0, '-'),
        _ => items[at] = random.pick(&["-0", "2", "99999999999999999999999999", "X", "T", "r", "n", "v", "a", "end", "x", "32", "!"]).to_string(),
    }
    items.join(" ")
}

const BAD_RULES: [&str; 24] = [
    "r", "r ", "r  T", "r T ", "r T T", "r & T", "r &", "r !", "r X", "r U T", "r R T T T", "r F", "r ? T", "r t", "r l", "r TT", "r !T", "r 00",
    "r -0", "r 01", "r 99999999999999999999", "R T", "T", "",
];

fn rule(random: &mut Random, mut text: Text) -> Vec<u8> {
    let at = random.below(text.rules.len() + 1);
    let atoms = text.atoms();
    match random.below(6) {
        0 | 1 => text.rules.insert(at, random.pick(&BAD_RULES).to_string()),
        2 => text.rules.insert(at, format!("r F {atoms}")),
        3 => {
            let depth = 31 + random.below(4);
            text.rules.insert(at, format!("r {}", formulas::deep(random, atoms, depth)));
        }
        4 => generate::add_rules(random, &mut text, 40),
        _ if text.rules.is_empty() => text.rules.push("n 0".to_string()),
        _ => {
            let at = random.below(text.rules.len());
            text.rules[at] = touched(random, &text.rules[at]);
        }
    }
    text.bytes()
}

fn note(random: &mut Random, mut text: Text) -> Vec<u8> {
    let variables = text.variables();
    let at = random.below(text.notes.len() + 1);
    let zeros = |n: usize| format!("n{}", " 0".repeat(n));
    match random.below(9) {
        0 => text.notes.insert(at, zeros(variables + 1)),
        1 => text.notes.insert(at, zeros(variables - 1)),
        2 => text.notes.insert(at, zeros(variables).replace('0', "2")),
        3 => text.notes.insert(at, zeros(variables).replace("n 0", "n -0")),
        4 => text.notes.insert(at, zeros(variables).replace("n 0", "n 00")),
        5 => text.notes.insert(at, zeros(variables) + " "),
        6 => text.notes.insert(at, random.pick(&["", "n", "N 0", "n x", "r T", "v a", "n 10001"]).to_string()),
        7 => {
            let good = text.notes.first().cloned().unwrap_or(zeros(variables));
            text.notes = vec![good; 1_023 + random.below(4)];
        }
        _ if text.notes.is_empty() => text.notes.push("end 0 0".to_string()),
        _ => {
            let at = random.below(text.notes.len());
            text.notes[at] = touched(random, &text.notes[at]);
        }
    }
    text.bytes()
}

/// Lines taken away, doubled or moved, with the trailer kept or written anew.
fn lines(random: &mut Random, mut text: Text) -> Vec<u8> {
    let old = text.trailer();
    let section = random.below(3);
    let lines = text.section(section);
    if !lines.is_empty() {
        let at = random.below(lines.len());
        let line = lines[at].clone();
        match random.below(4) {
            0 => {
                lines.remove(at);
            }
            1 => lines.insert(at, line),
            2 => lines.reverse(),
            _ => {
                lines.remove(at);
                let other = random.below(3);
                let others = text.section(other);
                others.insert(random.below(others.len() + 1), line);
            }
        }
    }
    if random.chance(50) { text.bytes() } else { text.with_trailer(&old) }
}

/// A byte or a few exchanged, put in or taken away.
pub fn damage(random: &mut Random, mut bytes: Vec<u8>) -> Vec<u8> {
    let times = if random.chance(80) { 1 } else { 2 + random.below(3) };
    for _ in 0..times {
        if bytes.is_empty() {
            return bytes;
        }
        let at = random.below(bytes.len());
        let other = bytes[random.below(bytes.len())];
        let byte = if random.chance(60) { other } else { random.within(32, 126) as u8 };
        match random.below(4) {
            0 => bytes[at] = byte,
            1 => bytes.insert(at, byte),
            2 => {
                bytes.remove(at);
            }
            _ => bytes[at] = if random.chance(90) { bytes[at] ^ 1 << random.below(4) } else { random.below(256) as u8 },
        }
    }
    bytes
}
