//! Runs the table of sheets: the first line printed by the first program and by this one is compared with the table's.

#[path = "../tests/table/cases.rs"]
mod cases;

use crate::compare::{Run, run};
use crate::report;
use cases::{Case, cases};

/// A number of steps that no sheet of the table takes: its searches are cut short.
const WORK: u64 = 60_000_000;

fn first_line(printed: &[u8]) -> String {
    let line = printed.split(|b| *b == 10).next().unwrap_or_default();
    String::from_utf8_lossy(line).into_owned()
}

fn by_this_program(case: &Case) -> String {
    report::of_sheet(&case.bytes, WORK).map_or("nothing".to_string(), |r| first_line(r.text().as_bytes()))
}

fn by_first_program(path: &str, case: &Case) -> Result<String, String> {
    match run(path, &case.bytes, 60).map_err(|e| format!("{path} cannot be run: {e}"))? {
        Run::Ended(printed, status) if status.is_empty() => Ok(first_line(&printed)),
        Run::Ended(_, status) => Ok(format!("nothing, it ended with {status}")),
        Run::OverTime => Ok("nothing within 60 seconds".to_string()),
    }
}

/// Prints the cases that fail and how many there are.
pub fn run_table(first: Option<String>) -> Result<(), String> {
    let cases = cases();
    let mut failed = 0;
    for case in &cases {
        let mut printed = vec![("second program", by_this_program(case))];
        if let Some(path) = &first {
            printed.push(("first program", by_first_program(path, case)?));
        }
        for (program, line) in printed.iter().filter(|(_, line)| *line != case.expected) {
            failed += 1;
            println!("table: {}: the {program} printed `{line}` for `{}`", case.name, case.expected);
        }
    }
    let last = format!("table: {} sheets, {failed} failed", cases.len());
    if failed > 0 {
        return Err(last);
    }
    println!("{last}");
    Ok(())
}
