// The benchmark of `holds`: how long the proved numbers theory takes to answer every pair of codes for three atoms,
// and, in the same run, how long the same computation takes written plainly in Rust. Prints both and their ratio.
use std::hint::black_box;
use std::time::Instant;

unsafe extern "C" {
    fn numbers_bench_count(atom: u8) -> u64;
}

#[derive(Clone, Copy, PartialEq)]
enum Moment {
    Now,
    Next,
    WeakNext,
}

#[derive(Clone, Copy)]
enum Comparison {
    Equal,
    Less,
    AtMost,
}

struct Variable {
    low: i32,
    high: i32,
}

struct Term {
    coefficient: i32,
    variable: usize,
    moment: Moment,
}

struct Atom {
    terms: Vec<Term>,
    comparison: Comparison,
    constant: i32,
}

struct Theory {
    variables: Vec<Variable>,
    atoms: Vec<Atom>,
}

impl Theory {
    fn codes(&self) -> u32 {
        self.variables.iter().map(|v| (v.high - v.low + 1) as u32).product()
    }

    // The value of a variable in a code; the last variable moves fastest.
    fn value(&self, code: u32, variable: usize) -> i32 {
        let mut rest = code;
        for i in (0..self.variables.len()).rev() {
            let width = (self.variables[i].high - self.variables[i].low + 1) as u32;
            if i == variable {
                return self.variables[i].low + (rest % width) as i32;
            }
            rest /= width;
        }
        0
    }

    fn holds(&self, atom: usize, code: u32, next: Option<u32>) -> Option<bool> {
        let atom = self.atoms.get(atom)?;
        if code >= self.codes() || next.is_some_and(|n| n >= self.codes()) {
            return None;
        }
        let strong = atom.terms.iter().any(|t| t.moment == Moment::Next);
        let mut sum = 0;
        for term in &atom.terms {
            let at = match (term.moment, next) {
                (Moment::Now, _) => code,
                (_, Some(n)) => n,
                (_, None) => return Some(!strong),
            };
            sum += term.coefficient * self.value(at, term.variable);
        }
        Some(match atom.comparison {
            Comparison::Equal => sum == atom.constant,
            Comparison::Less => sum < atom.constant,
            Comparison::AtMost => sum <= atom.constant,
        })
    }

    fn count(&self, atom: usize) -> u64 {
        let mut count = 0;
        for code in 0..self.codes() {
            for next in 0..self.codes() {
                if self.holds(atom, code, Some(next)) == Some(true) {
                    count += 1;
                }
            }
        }
        count
    }
}

fn term(coefficient: i32, variable: usize, moment: Moment) -> Term {
    Term { coefficient, variable, moment }
}

fn main() {
    let theory = Theory {
        variables: vec![Variable { low: 0, high: 15 }, Variable { low: 0, high: 15 }, Variable { low: -8, high: 7 }],
        atoms: vec![
            Atom { terms: vec![term(1, 0, Moment::Now), term(-2, 1, Moment::Now)], comparison: Comparison::AtMost, constant: 4 },
            Atom { terms: vec![term(1, 0, Moment::Next), term(-1, 0, Moment::Now)], comparison: Comparison::Equal, constant: 1 },
            Atom {
                terms: vec![term(3, 2, Moment::WeakNext), term(-2, 1, Moment::Now), term(1, 0, Moment::Now)],
                comparison: Comparison::Less,
                constant: 0,
            },
        ],
    };
    let theory = black_box(theory);
    let pairs = u64::from(theory.codes()) * u64::from(theory.codes());
    println!("atom  facts      proved ns/call  plain Rust ns/call  plain/proved");
    let mut failed = false;
    for atom in 0..3u8 {
        let start = Instant::now();
        let proved = unsafe { numbers_bench_count(black_box(atom)) };
        let proved_time = start.elapsed();
        let start = Instant::now();
        let plain = theory.count(black_box(atom as usize));
        let plain_time = start.elapsed();
        failed |= proved != plain;
        println!(
            "{atom}     {proved:<9}  {:<14.2}  {:<18.2}  {:.2}",
            proved_time.as_nanos() as f64 / pairs as f64,
            plain_time.as_nanos() as f64 / pairs as f64,
            plain_time.as_secs_f64() / proved_time.as_secs_f64()
        );
        if proved != plain {
            println!("the counts differ: {proved} and {plain}");
        }
    }
    std::process::exit(failed as i32);
}
