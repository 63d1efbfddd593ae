// Workloads whose size is doubled four times.
use crate::kinds::{KINDS, Kind};

/// Sheets by their size.
pub struct Workload {
    pub name: &'static str,
    /// What the size counts.
    pub unit: &'static str,
    /// The least of the five sizes; the largest is 16 times as large.
    pub least: usize,
    pub sheet: fn(usize) -> String,
}

impl Workload {
    pub(super) const fn new(
        name: &'static str,
        unit: &'static str,
        least: usize,
        sheet: fn(usize) -> String,
    ) -> Self {
        Self {
            name,
            unit,
            least,
            sheet,
        }
    }

    /// The five sizes.
    pub fn sizes(&self) -> [usize; 5] {
        [1, 2, 4, 8, 16].map(|times| times * self.least)
    }
}

/// These kinds in the order of the table of growth: by the form of their lines.
pub fn ordered(kinds: &[&Kind]) -> Vec<&'static Kind> {
    let mut asked: Vec<_> = KINDS.iter().filter(|kind| kinds.contains(kind)).collect();
    asked.sort_by_key(|kind| kind.form);
    asked
}
