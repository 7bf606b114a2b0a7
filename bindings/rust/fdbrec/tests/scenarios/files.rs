//! The files of scenarios (scenarios/README.md says what a row is).
use std::path::Path;
use std::{fs, mem};

pub struct Scenario {
    pub name: String,
    pub rows: Vec<Row>,
}

/// A word, what is given with it, and what is wanted.
pub struct Row {
    pub line: usize,
    pub word: String,
    pub given: String,
    pub wanted: String,
}

pub fn read(path: &Path) -> Vec<Scenario> {
    let text = fs::read_to_string(path).unwrap();
    let mut reader = Reader::default();
    for (at, line) in text.lines().enumerate() {
        if line.starts_with("     ") && !reader.row.is_empty() {
            reader.row.push(' ');
            reader.row.push_str(line.trim());
            continue;
        }
        reader.end_row();
        if let Some(name) = line.strip_prefix("## ") {
            reader.scenarios.push(Scenario { name: name.into(), rows: Vec::new() });
        } else if line.starts_with("    ") {
            reader.row = line.trim().into();
            reader.line = at + 1;
        }
    }
    reader.end_row();
    reader.scenarios
}

#[derive(Default)]
struct Reader {
    names: Vec<(String, String)>,
    scenarios: Vec<Scenario>,
    row: String,
    line: usize,
}

impl Reader {
    fn end_row(&mut self) {
        let row = mem::take(&mut self.row);
        if row.is_empty() {
            return;
        }
        let is_let = self.scenarios.is_empty();
        let text = match row.strip_prefix("let ") {
            Some(named) if is_let => named,
            _ => &row,
        };
        // (no name begins with another one)
        let filled = self.names.iter().fold(text.to_string(), |text, (name, value)| text.replace(name, value));
        if is_let {
            let (name, value) = filled.split_once('=').expect("a let without a value");
            self.names.push((format!("${}", name.trim()), value.trim().into()));
            return;
        }
        let (left, wanted) = filled.split_once(" -> ").unwrap_or((&filled, ""));
        let (word, given) = left.split_once(' ').unwrap_or((left, ""));
        let row = Row { line: self.line, word: word.into(), given: given.trim().into(), wanted: wanted.trim().into() };
        self.scenarios.last_mut().unwrap().rows.push(row);
    }
}
