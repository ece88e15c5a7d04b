//! The two theories: what the codes are, and which atoms hold at a code and at what comes next.

pub type Code = usize;

pub const MOST_CODES: i64 = 4_096;
pub const MOST_ATOMS: usize = 32;
pub const MOST_FLAGS: usize = 12;
pub const MOST_VARIABLES: usize = 8;

#[derive(Clone, Copy, PartialEq, Debug)]
pub enum When {
    Now,
    Strong,
    Weak,
}

#[derive(Clone, Copy, PartialEq, Debug)]
pub enum Compare {
    Equal,
    Less,
    AtMost,
}

#[derive(Clone, Debug)]
pub struct Term {
    pub coefficient: i64,
    pub variable: usize,
    pub when: When,
}

#[derive(Clone, Debug)]
pub struct Sum {
    pub terms: Vec<Term>,
    pub compare: Compare,
    pub constant: i64,
}

#[derive(Clone, Debug)]
pub struct Variable {
    pub name: String,
    pub low: i64,
    pub high: i64,
}

#[derive(Clone, Debug)]
pub enum Theory {
    Flags { names: Vec<String>, atoms: Vec<usize> },
    Numbers { variables: Vec<Variable>, atoms: Vec<Sum> },
}

impl Variable {
    pub fn width(&self) -> i64 {
        self.high - self.low + 1
    }
}

impl Sum {
    pub fn has(&self, when: When) -> bool {
        self.terms.iter().any(|t| t.when == when)
    }

    pub fn is_still(&self) -> bool {
        self.terms.iter().all(|t| t.when == When::Now)
    }

    pub fn compares(&self, sum: i64) -> bool {
        match self.compare {
            Compare::Equal => sum == self.constant,
            Compare::Less => sum < self.constant,
            Compare::AtMost => sum <= self.constant,
        }
    }

    /// The part of the sum that is taken from the values of this visit, or of the next one.
    pub fn part(&self, values: &[i64], next: bool) -> i64 {
        let taken = self.terms.iter().filter(|t| (t.when != When::Now) == next);
        taken.map(|t| t.coefficient * values[t.variable]).sum()
    }

    fn holds(&self, now: &[i64], next: Option<&[i64]>) -> bool {
        match next {
            Some(next) => self.compares(self.part(now, false) + self.part(next, true)),
            None if self.has(When::Strong) => false,
            None if self.has(When::Weak) => true,
            None => self.compares(self.part(now, false)),
        }
    }
}

impl Theory {
    pub fn codes(&self) -> usize {
        match self {
            Theory::Flags { names, .. } => 1 << names.len(),
            Theory::Numbers { variables, .. } => variables.iter().map(|v| v.width() as usize).product(),
        }
    }

    pub fn atoms(&self) -> usize {
        match self {
            Theory::Flags { atoms, .. } => atoms.len(),
            Theory::Numbers { atoms, .. } => atoms.len(),
        }
    }

    pub fn counts(&self) -> (usize, usize) {
        (self.codes(), self.atoms())
    }

    pub fn holds(&self, atom: usize, code: Code, next: Option<Code>) -> bool {
        match self {
            Theory::Flags { atoms, .. } => code >> atoms[atom] & 1 == 1,
            Theory::Numbers { atoms, .. } => {
                let next = next.map(|c| self.values(c));
                atoms[atom].holds(&self.values(code), next.as_deref())
            }
        }
    }

    /// The values of the flags or variables, in the order of the `v` lines.
    pub fn values(&self, code: Code) -> Vec<i64> {
        match self {
            Theory::Flags { names, .. } => (0..names.len()).map(|i| (code >> i & 1) as i64).collect(),
            Theory::Numbers { variables, .. } => {
                let mut rest = code as i64;
                let mut values = vec![0; variables.len()];
                for (i, v) in variables.iter().enumerate().rev() {
                    values[i] = v.low + rest % v.width();
                    rest /= v.width();
                }
                values
            }
        }
    }

    /// The least and the greatest value of each flag or variable.
    pub fn bounds(&self) -> Vec<(i64, i64)> {
        match self {
            Theory::Flags { names, .. } => vec![(0, 1); names.len()],
            Theory::Numbers { variables, .. } => variables.iter().map(|v| (v.low, v.high)).collect(),
        }
    }

    /// The code of these values, if there is one for each flag or variable and each is within its bounds.
    pub fn code(&self, values: &[i64]) -> Option<Code> {
        let bounds = self.bounds();
        let within = values.iter().zip(&bounds).all(|(x, (low, high))| low <= x && x <= high);
        if values.len() != bounds.len() || !within {
            return None;
        }
        Some(match self {
            Theory::Flags { .. } => values.iter().enumerate().map(|(i, x)| (*x as usize) << i).sum(),
            Theory::Numbers { variables, .. } => {
                let counted = values.iter().zip(variables).fold(0, |code, (x, v)| code * v.width() + (x - v.low));
                counted as usize
            }
        })
    }

    /// A visit as a note of the sheet.
    pub fn note(&self, code: Code) -> String {
        let values: Vec<String> = self.values(code).iter().map(|x| x.to_string()).collect();
        format!("n {}", values.join(" "))
    }
}
