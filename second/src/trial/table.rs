//! Counting the kinds of answers.

use crate::yard::lines;
use std::fmt;

/// The kinds of answers, by their words after the line number.
const KINDS: [&str; 16] = [
    "ok",
    "sealed",
    "round",
    "closed taken",
    "closed aside",
    "refused 1",
    "refused 2",
    "refused 3",
    "refused 4",
    "refused 6",
    "refused 7",
    "refused 11",
    "refused 12",
    "refused 13",
    "refused 14",
    "refused 16",
];

/// How many lines got which kind of answer.
#[derive(Clone, Debug, Default)]
pub struct Table {
    counts: [u64; KINDS.len()],
    /// Sealings by the number of leads: 0 to 5, and above.
    leads: [u64; 7],
    /// Faults of form by field: 0 to 5, and above.
    fields: [u64; 7],
}

impl Table {
    /// Counts all answers of a run.
    pub fn count(&mut self, answers: &[u8]) {
        for answer in lines(answers) {
            let words: Vec<&[u8]> = answer.split(|&b| b == b'\t').collect();
            let kind = match words.as_slice() {
                [_, b"closed", _, outcome] => [b"closed ", *outcome].concat(),
                [_, b"refused", number, _] => [b"refused ", *number].concat(),
                [_, kind, ..] => kind.to_vec(),
                _ => Vec::new(),
            };
            if let Some(place) = KINDS.iter().position(|k| k.as_bytes() == kind) {
                self.counts[place] += 1;
            }
            match words.as_slice() {
                [_, b"sealed", leads @ ..] => self.leads[leads.len().min(6)] += 1,
                [_, b"refused", b"7", [digit]] => {
                    self.fields[usize::from(digit - b'0').min(6)] += 1;
                }
                [_, b"refused", b"7", _] => self.fields[6] += 1,
                _ => {}
            }
        }
    }

    /// The kinds that came fewer times than this.
    pub fn scarce(&self, least: u64) -> Vec<&'static str> {
        let counts = KINDS.iter().zip(self.counts);
        counts
            .filter(|(_, c)| *c < least)
            .map(|(k, _)| *k)
            .collect()
    }
}

impl fmt::Display for Table {
    fn fmt(&self, f: &mut fmt::Formatter<'_>) -> fmt::Result {
        for (kind, count) in KINDS.iter().zip(self.counts) {
            writeln!(f, "{count:>12}  {kind}")?;
            let (counts, what) = match *kind {
                "sealed" => (self.leads, "leads"),
                "refused 7" => (self.fields, "field"),
                _ => continue,
            };
            for (number, count) in counts.iter().enumerate().filter(|(_, c)| **c > 0) {
                let above = if number == 6 { " or more" } else { "" };
                writeln!(f, "{count:>24}  {what} {number}{above}")?;
            }
        }
        Ok(())
    }
}
