//! Counts of what was made, for the table on standard error.

use std::collections::BTreeMap;

#[derive(Default)]
pub struct Tally {
    tables: BTreeMap<&'static str, BTreeMap<&'static str, usize>>,
}

impl Tally {
    pub fn count(&mut self, table: &'static str, row: &'static str) {
        *self.tables.entry(table).or_default().entry(row).or_default() += 1;
    }

    pub fn report(&self) {
        for (table, rows) in &self.tables {
            eprintln!("{table}:");
            for (row, count) in rows {
                eprintln!("{count:9}  {row}");
            }
        }
    }
}
