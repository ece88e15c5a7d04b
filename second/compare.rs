//! Runs the first programs on generated inputs and compares what they print with the own answers.

use crate::broken;
use crate::draw;
use crate::draws;
use crate::generate;
use crate::judge::meets;
use crate::limits;
use crate::random::Random;
use crate::report::{self, Part, Report, Shown};
use crate::sheet::whole;
use crate::theory::{Code, Theory};
use std::collections::BTreeMap;
use std::io::{Read, Write};
use std::process::{Command, Stdio};
use std::sync::mpsc;
use std::time::Duration;

/// The steps that the own search may take for one question.
pub const WORK: u64 = 60_000_000;

pub struct Options {
    pub seed: u64,
    pub count: u64,
    pub sheet: String,
    pub replay: Option<String>,
    /// Compare only the lines `kept` and `stands`, or the line of a refusal.
    pub prefix: bool,
    /// The seconds that a first program may take for one input.
    pub seconds: u64,
}

pub struct Input {
    pub kind: &'static str,
    pub is_draw: bool,
    pub bytes: Vec<u8>,
}

/// The input of this number: it depends on the seed and the number alone.
pub fn input(seed: u64, index: u64) -> Input {
    let mut random = Random::new(seed, index);
    let random = &mut random;
    let (kind, bytes) = match random.below(100) {
        0..24 => ("flags", generate::flags(random).bytes()),
        24..44 => ("numbers", generate::numbers(random).bytes()),
        44..47 => ("chain", generate::chain(random).bytes()),
        47..51 => ("wide", generate::wide(random).bytes()),
        51..56 => ("knots", generate::knots(random).bytes()),
        56..63 => ("limits", limits::limits(random)),
        63..84 => ("broken", broken::broken(random)),
        84..99 => ("draw", draws::draw(random)),
        _ => ("draw", draws::draw_at_a_limit(random)),
    };
    Input { kind, is_draw: kind == "draw", bytes }
}

pub enum Run {
    Ended(Vec<u8>, String),
    OverTime,
}

/// Runs a program with this standard input.
pub fn run(path: &str, bytes: &[u8], seconds: u64) -> std::io::Result<Run> {
    let mut child = Command::new(path).stdin(Stdio::piped()).stdout(Stdio::piped()).spawn()?;
    let mut stdout = child.stdout.take().expect("standard output is a pipe");
    let (send, receive) = mpsc::channel();
    let reader = std::thread::spawn(move || {
        let mut printed = Vec::new();
        let _ = stdout.read_to_end(&mut printed);
        let _ = send.send(printed);
    });
    // A program may end before it has read all.
    let _ = child.stdin.take().expect("standard input is a pipe").write_all(bytes);
    let printed = receive.recv_timeout(Duration::from_secs(seconds));
    if printed.is_err() {
        child.kill()?;
    }
    let status = child.wait()?;
    let _ = reader.join();
    Ok(match printed {
        Ok(printed) => Run::Ended(printed, if status.success() { String::new() } else { status.to_string() }),
        Err(_) => Run::OverTime,
    })
}

/// What is wrong with what a first program printed, if something is.
pub fn difference(report: &Report, printed: &[u8], prefix: bool) -> Result<(), String> {
    let text = std::str::from_utf8(printed).map_err(|_| "it printed no text".to_string())?;
    let mut lines = text.split_inclusive('\n');
    let parts = if prefix { &report.parts[..report.parts.len().min(2)] } else { &report.parts[..] };
    for part in parts {
        match part {
            Part::Line(own) => {
                let line = lines.next().unwrap_or("nothing");
                if line.strip_suffix('\n') != Some(own) {
                    return Err(format!("it printed {line:?} for {own:?}"));
                }
            }
            Part::History(shown) => {
                let visits: Vec<&str> = lines.by_ref().take(shown.history.len()).collect();
                check_shown(report, shown, &visits)?;
            }
        }
    }
    match lines.next() {
        Some(line) if !prefix => Err(format!("it printed {line:?} behind the end")),
        _ => Ok(()),
    }
}

fn check_shown(report: &Report, shown: &Shown, lines: &[&str]) -> Result<(), String> {
    let read: Option<Vec<Code>> = lines.iter().map(|l| read_visit(l, &report.sheets[0].theory)).collect();
    let history = read.ok_or("a visit of the history shown is no note of a code")?;
    if history.len() != shown.history.len() {
        return Err(format!("the history shown has {} visits for {}", history.len(), shown.history.len()));
    }
    if !history.starts_with(&shown.kept) {
        return Err("the history shown does not begin with the kept visits".to_string());
    }
    let (book, theory) = (&report.sheets[shown.book].book, &report.sheets[shown.theory].theory);
    if meets(book, theory, &history) { Ok(()) } else { Err("the history shown does not meet the rules".to_string()) }
}

fn read_visit(line: &str, theory: &Theory) -> Option<Code> {
    let values: Option<Vec<i64>> = line.strip_suffix('\n')?.strip_prefix("n ")?.split(' ').map(whole).collect();
    theory.code(&values?)
}

#[derive(Default)]
struct Tally {
    counts: BTreeMap<String, usize>,
    compared: usize,
    longest: usize,
}

impl Tally {
    fn count(&mut self, key: String) {
        *self.counts.entry(key).or_default() += 1;
    }

    fn add(&mut self, input: &Input, report: &Report) {
        self.compared += 1;
        self.count(format!("input {}", input.kind));
        for part in &report.parts {
            match part {
                Part::Line(line) => self.add_line(input, line),
                Part::History(shown) => self.longest = self.longest.max(shown.history.len()),
            }
        }
    }

    fn add_line(&mut self, input: &Input, line: &str) {
        let words: Vec<&str> = line.split(' ').collect();
        let of = if input.is_draw { "draw" } else { "sheet" };
        match words[..] {
            ["stands" | "verdict", word, ..] => self.count(format!("{of}: {} {word}", words[0])),
            ["refused", number, _] => self.count(format!("{of}: refused {number}")),
            ["note" | "strike" | "question" | "wrong", ..] => self.count(format!("{of}: {line}")),
            ["kept", count] if !input.is_draw && count != "0" => self.count(format!("{of}: kept some")),
            _ => {}
        }
    }

    fn print(&self) {
        for (key, count) in &self.counts {
            println!("{key}: {count}");
        }
        println!("longest history shown: {}", self.longest);
    }
}

pub fn compare(options: &Options) -> Result<(), String> {
    let mut tally = Tally::default();
    for index in 0..options.count {
        let input = input(options.seed, index);
        let program = if input.is_draw { options.replay.as_ref() } else { Some(&options.sheet) };
        let Some(program) = program else {
            tally.count("left out: draw".to_string());
            continue;
        };
        let report = if input.is_draw { draw::report(&input.bytes, WORK) } else { report::of_sheet(&input.bytes, WORK) };
        let Some(report) = report else {
            tally.count("skipped: own search too long".to_string());
            continue;
        };
        match run(program, &input.bytes, options.seconds).map_err(|e| format!("{program} cannot be run: {e}"))? {
            Run::OverTime => tally.count("skipped: first program over time".to_string()),
            Run::Ended(printed, status) => {
                check_run(&report, &printed, &status, options).map_err(|e| explain(options, index, &input, &report, &printed, &e))?;
                tally.add(&input, &report);
            }
        }
    }
    tally.print();
    println!("compared {}, 0 differences", tally.compared);
    Ok(())
}

fn check_run(report: &Report, printed: &[u8], status: &str, options: &Options) -> Result<(), String> {
    if !status.is_empty() {
        return Err(format!("it ended with {status}"));
    }
    difference(report, printed, options.prefix)
}

fn explain(options: &Options, index: u64, input: &Input, report: &Report, printed: &[u8], error: &str) -> String {
    let file = format!("target/second/difference-{}-{index}.{}", options.seed, if input.is_draw { "draw" } else { "sheet" });
    let stored = match std::fs::write(&file, &input.bytes) {
        Ok(()) => format!("stored as {file}"),
        Err(e) => format!("not stored: {e}"),
    };
    format!(
        "difference at seed {}, input {index} ({}), {stored}\n{error}\n--- input\n{}\n--- first program\n{}\n--- second program\n{}",
        options.seed,
        input.kind,
        input.bytes.escape_ascii().to_string().replace("\\n", "\n"),
        printed.escape_ascii().to_string().replace("\\n", "\n"),
        report.text()
    )
}
