//! Rows that must occur, and how often each did.

use std::collections::HashMap;

#[derive(Default)]
pub struct Rows {
    rows: Vec<(String, u64)>,
    places: HashMap<String, usize>,
}

impl Rows {
    /// Adds a row that must occur.
    pub fn add(&mut self, row: String) {
        self.places.insert(row.clone(), self.rows.len());
        self.rows.push((row, 0));
    }

    /// Counts an occurrence, if there is such a row.
    pub fn count(&mut self, row: &str) {
        if let Some(&place) = self.places.get(row) {
            self.rows[place].1 += 1;
        }
    }

    pub fn len(&self) -> usize {
        self.rows.len()
    }

    pub fn is_empty(&self) -> bool {
        self.rows.is_empty()
    }

    /// How often the rarest row occurred.
    pub fn least(&self) -> u64 {
        self.rows.iter().map(|(_, times)| *times).min().unwrap_or(0)
    }

    /// A line for each row, with a mark where it occurred fewer times than needed.
    pub fn text(&self, needed: u64) -> String {
        let mark = |times: u64| if times < needed { "  TOO FEW" } else { "" };
        self.rows.iter().map(|(row, times)| format!("{times:7}  {row}{}\n", mark(*times))).collect()
    }
}
