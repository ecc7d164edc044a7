//! Counts by outcome. Every outcome has a row from the start, so that one that
//! never came up is seen.

use std::collections::BTreeMap;
use std::fmt;

pub struct Counts<T> {
    rows: BTreeMap<T, u64>,
}

impl<T: Ord> Counts<T> {
    /// A row for each of the outcomes.
    pub fn of(outcomes: Vec<T>) -> Counts<T> {
        Counts { rows: outcomes.into_iter().map(|outcome| (outcome, 0)).collect() }
    }

    pub fn count(&mut self, outcome: T) {
        *self.rows.get_mut(&outcome).expect("every outcome has a row") += 1;
    }

    /// The outcomes that never came up.
    pub fn missing(&self) -> impl Iterator<Item = &T> {
        self.rows.iter().filter(|(_, &count)| count == 0).map(|(outcome, _)| outcome)
    }
}

impl<T: fmt::Display> fmt::Display for Counts<T> {
    fn fmt(&self, f: &mut fmt::Formatter) -> fmt::Result {
        for (outcome, count) in &self.rows {
            writeln!(f, "{:<60}{count:>10}", outcome.to_string())?;
        }
        Ok(())
    }
}
