//! A sheet as lines, before it is written with its trailer.

#[derive(Clone, Default)]
pub struct Text {
    pub heading: String,
    /// The `v` and `a` lines.
    pub opening: Vec<String>,
    pub rules: Vec<String>,
    pub notes: Vec<String>,
}

fn length(lines: &[String]) -> usize {
    lines.iter().map(|l| l.len() + 1).sum()
}

impl Text {
    /// The places of the first rule, of the first note and of the trailer.
    pub fn places(&self) -> (usize, usize, usize) {
        let rules = self.heading.len() + 1 + length(&self.opening);
        let notes = rules + length(&self.rules);
        (rules, notes, notes + length(&self.notes))
    }

    pub fn with_trailer(&self, trailer: &str) -> Vec<u8> {
        let mut bytes = format!("{}\n", self.heading).into_bytes();
        for line in self.opening.iter().chain(&self.rules).chain(&self.notes) {
            bytes.extend_from_slice(line.as_bytes());
            bytes.push(10);
        }
        bytes.extend_from_slice(trailer.as_bytes());
        bytes
    }

    pub fn trailer(&self) -> String {
        let (rules, notes, _) = self.places();
        format!("end {rules} {notes}\n")
    }

    pub fn bytes(&self) -> Vec<u8> {
        self.with_trailer(&self.trailer())
    }

    /// The lines of all sections but the heading.
    pub fn section(&mut self, section: usize) -> &mut Vec<String> {
        match section {
            0 => &mut self.opening,
            1 => &mut self.rules,
            _ => &mut self.notes,
        }
    }

    pub fn variables(&self) -> usize {
        self.opening.iter().filter(|l| l.starts_with('v')).count()
    }

    pub fn atoms(&self) -> usize {
        self.opening.len() - self.variables()
    }
}
