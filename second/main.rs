//! The second program: sheets and draws read and answered from the documents alone, and compared with the first programs.

mod book;
mod broken;
mod brute;
mod compare;
mod draw;
mod draws;
mod expansion;
mod facts;
mod formulas;
mod generate;
mod household;
mod judge;
mod limits;
mod random;
mod report;
mod search;
mod sheet;
mod table;
mod text;
mod theory;
mod written;

use std::io::{Read, Write};

const USAGE: &str = "usage: second sheet < SHEET
       second replay < DRAW
       second compare --seed S --count N --sheet PATH [--replay PATH] [--prefix] [--seconds N]
       second generate --seed S --index I
       second check-judge --seed S --count N
       second table [--sheet PATH]";

fn input(most: u64) -> Vec<u8> {
    let mut bytes = Vec::new();
    std::io::stdin().take(most).read_to_end(&mut bytes).expect("standard input can be read");
    bytes
}

fn write(bytes: &[u8]) {
    std::io::stdout().write_all(bytes).expect("standard output can be written");
}

fn print(report: Option<report::Report>) {
    write(report.expect("no limit of work was set").text().as_bytes());
}

struct Arguments(Vec<String>);

impl Arguments {
    fn value(&self, name: &str) -> Option<String> {
        let at = self.0.iter().position(|a| a == name)?;
        self.0.get(at + 1).cloned()
    }

    fn number(&self, name: &str, otherwise: u64) -> u64 {
        self.value(name).map_or(otherwise, |v| v.parse().unwrap_or_else(|_| usage()))
    }

    fn options(&self) -> compare::Options {
        compare::Options {
            seed: self.number("--seed", 1),
            count: self.number("--count", 1_000),
            sheet: self.value("--sheet").unwrap_or_else(|| usage()),
            replay: self.value("--replay"),
            prefix: self.0.iter().any(|a| a == "--prefix"),
            seconds: self.number("--seconds", 60),
        }
    }
}

fn usage() -> ! {
    eprintln!("{USAGE}");
    std::process::exit(2)
}

fn end(result: Result<(), String>) {
    if let Err(difference) = result {
        println!("{difference}");
        std::process::exit(1)
    }
}

fn main() {
    let arguments = Arguments(std::env::args().skip(1).collect());
    let (seed, count) = (arguments.number("--seed", 1), arguments.number("--count", 1_000));
    match arguments.0.first().map(String::as_str) {
        Some("sheet") => print(report::of_sheet(&input(65_537), u64::MAX)),
        Some("replay") => print(draw::report(&input(262_145), u64::MAX)),
        Some("compare") => end(compare::compare(&arguments.options())),
        Some("generate") => write(&compare::input(seed, arguments.number("--index", 0)).bytes),
        Some("check-judge") => end(brute::check(seed, count).map(|counts| println!("{counts}"))),
        Some("table") => end(table::run_table(arguments.value("--sheet"))),
        _ => usage(),
    }
}
