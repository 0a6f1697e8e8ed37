//! What the scripts for `why` came to, and how often.

use crate::said::Said;
use std::collections::{BTreeMap, BTreeSet};
use std::fmt;

/// With the first word begins what is said of a frame; where there is a second, the line ends with it.
const ANSWERS: [&str; 8] = [
    "Queued",
    "Queued-over std",
    "Queued-over ext",
    "A1",
    "A2",
    "A3",
    "A4",
    "8",
];
/// With these ends what is said where no frame comes last.
const ENDINGS: [&str; 3] = [
    "read another request",
    "read a line that can't be read",
    "read the end of the script",
];
const UNREADABLE: &str = "lines that can't be read";
const REFUSED: &str = "lines that are refused";

fn gives(line: &str, answer: &str) -> bool {
    let (word, end) = answer.split_once(' ').unwrap_or((answer, ""));
    line.split(':').next() == Some(word) && line.ends_with(end)
}

/// One of those above, or nothing for a line that tells of a filter.
fn kind(line: &str) -> Option<&'static str> {
    if line.starts_with("filter ") {
        return None;
    }
    let answer = ANSWERS.iter().find(|answer| gives(line, answer));
    let ending = ENDINGS.iter().find(|end| line.ends_with(**end));
    Some(match answer.or(ending) {
        Some(kind) => kind,
        None if line.contains(": expected ") => UNREADABLE,
        None => REFUSED,
    })
}

/// An answer or an ending: only filters are told of after it.
pub fn outcome(said: &[Said]) -> &'static str {
    let last = said.iter().rev().find_map(|line| kind(&line.text()));
    last.unwrap_or("")
}

pub struct Tally {
    counts: BTreeMap<&'static str, usize>,
    /// The bytes and bits in which filters first differed.
    places: BTreeSet<String>,
    /// How many lines each script has.
    lengths: Vec<usize>,
}

impl Tally {
    pub fn new() -> Tally {
        Tally {
            counts: BTreeMap::new(),
            places: BTreeSet::new(),
            lengths: Vec::new(),
        }
    }

    pub fn count(&mut self, script: &str, said: &[Said]) {
        self.lengths.push(script.split_terminator('\n').count());
        for line in said.iter().map(Said::text) {
            match kind(&line) {
                Some(kind) => *self.counts.entry(kind).or_default() += 1,
                None => {
                    let place = line.split(&[':', '('][..]).nth(1).unwrap_or("");
                    self.places.insert(place.to_string());
                }
            }
        }
    }
}

impl fmt::Display for Tally {
    fn fmt(&self, f: &mut fmt::Formatter) -> fmt::Result {
        let kinds = ANSWERS.iter().chain(&ENDINGS);
        for kind in kinds.chain(&[UNREADABLE, REFUSED]) {
            let count = self.counts.get(kind).unwrap_or(&0);
            writeln!(f, "{}: {}", kind, count)?;
        }
        writeln!(f, "bits of 47: {}", self.places.len())?;
        let shortest = self.lengths.iter().min().unwrap_or(&0);
        let longest = self.lengths.iter().max().unwrap_or(&0);
        let total: usize = self.lengths.iter().sum();
        write!(f, "lines: {}, {} to {} a script", total, shortest, longest)
    }
}
