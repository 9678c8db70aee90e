//! Counts of a function's verdicts, and their line in the report.

use crate::function::{Source, Verdict};
use std::collections::BTreeMap;

#[derive(Default)]
pub struct Tally {
    pub cases: usize,
    compared: usize,
    modelled: usize,
    panics: usize,
    pub differences: usize,
    refused: BTreeMap<u8, usize>,
    /// How many cases reached each corner.
    pub corners: Vec<(&'static str, usize)>,
}

impl Tally {
    pub fn count(&mut self, verdict: &Verdict) {
        self.cases += 1;
        match verdict.source {
            Source::Rust => self.compared += 1,
            Source::Model => self.modelled += 1,
            Source::Panic => self.panics += 1,
            Source::Refusal(number) => *self.refused.entry(number).or_default() += 1,
        }
        if verdict.difference.is_some() {
            self.differences += 1;
        }
        if self.corners.is_empty() {
            let names = verdict.corners.iter().map(|(name, _)| *name);
            self.corners = names.map(|name| (name, 0)).collect();
        }
        for ((_, count), (_, reached)) in self.corners.iter_mut().zip(&verdict.corners) {
            *count += usize::from(*reached);
        }
    }

    pub fn line(&self, family: &str, name: &str) -> String {
        format!(
            "{:24} {:>9} {:>9} {:>10} {:>7} {:>12}  {}",
            format!("{family} {name}"),
            self.cases,
            self.compared,
            self.modelled,
            self.panics,
            self.differences,
            self.refusals()
        )
        .trim_end()
        .to_string()
    }

    /// How often each refusal was due: `1: 20  4: 7`.
    fn refusals(&self) -> String {
        let each: Vec<String> = self
            .refused
            .iter()
            .map(|(number, count)| format!("{number}: {count}"))
            .collect();
        each.join("  ")
    }
}

pub fn heading() -> String {
    format!(
        "{:24} {:>9} {:>9} {:>10} {:>7} {:>12}  refused",
        "function", "cases", "with Rust", "with model", "panics", "differences"
    )
}

/// A heading and a line for each function of a family that counts corners; none of any other. The first names the columns of all.
pub fn corners(family: &str, tallies: &[(&str, Tally)]) -> Vec<String> {
    let counted = tallies
        .iter()
        .filter(|(_, tally)| !tally.corners.is_empty());
    let lines = counted.enumerate().flat_map(|(place, (name, tally))| {
        let names = tally.corners.iter().map(|(name, _)| name.to_string());
        let counts = tally.corners.iter().map(|(_, count)| count.to_string());
        let heading = (place == 0).then(|| columns(family, names));
        heading
            .into_iter()
            .chain([columns(&format!("{family} {name}"), counts)])
    });
    lines.collect()
}

fn columns(name: &str, values: impl Iterator<Item = String>) -> String {
    let values: String = values.map(|value| format!(" {value:>9}")).collect();
    format!("{name:24}{values}")
}

#[cfg(test)]
mod tests {
    use super::*;

    fn tally(reached: &[bool]) -> Tally {
        let mut tally = Tally::default();
        for &reached in reached {
            tally.count(&Verdict {
                source: Source::Rust,
                difference: None,
                corners: vec![("first", reached), ("never", false)],
            });
        }
        tally
    }

    #[test]
    fn corners_are_counted_and_listed() {
        let tallies = [
            ("one", tally(&[true, false, true])),
            ("two", tally(&[false])),
        ];
        let lines = corners("family", &tallies);
        let words: Vec<Vec<&str>> = lines
            .iter()
            .map(|line| line.split_whitespace().collect())
            .collect();
        assert_eq!(words[0], ["family", "first", "never"]);
        assert_eq!(words[1], ["family", "one", "2", "0"]);
        assert_eq!(words[2], ["family", "two", "0", "0"]);
        assert_eq!(words.len(), 3);
        assert_eq!(corners("family", &[("none", Tally::default())]), [""; 0]);
    }
}
