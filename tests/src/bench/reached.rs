//! What the inputs came to: how often each call was answered with each number.

use std::collections::BTreeMap;

/// What a line of the output may begin with: a call and a number that can occur.
const LINES: [(&str, &[usize]); 11] = [
    ("format", &[0, 1]),
    ("start", &[0, 7, 8, 9]),
    ("write", &[0, 4, 8]),
    ("read", &[0, 4, 16]),
    ("fetch", &[0, 4, 14]),
    ("fail", &[0, 6, 10, 11]),
    ("resync", &[0, 7, 8]),
    ("rebuild", &[0, 12, 14]),
    ("newlog", &[0, 12, 13]),
    ("full", &[0, 8]),
    ("bad", &[15]),
];

/// The counts of lines by call and number.
#[derive(Default)]
pub struct Reached(BTreeMap<String, usize>);

impl Reached {
    /// Counts the lines of an output after the column names.
    pub fn count(&mut self, output: &[String]) {
        for line in &output[1..] {
            let call = line.split(' ').take(2).collect::<Vec<&str>>().join(" ");
            *self.0.entry(call).or_default() += 1;
        }
    }

    /// How many lines were counted.
    pub fn lines(&self) -> usize {
        self.0.values().sum()
    }

    /// Fails unless each call got each of its numbers so many times, and no other. Hands back the least count.
    pub fn complete(&self, at_least: usize) -> Result<usize, String> {
        let can_occur = LINES.iter().flat_map(|(call, codes)| codes.iter().map(move |code| format!("{call} {code}")));
        let counts: Vec<(String, usize)> =
            can_occur.map(|call| (call.clone(), self.0.get(&call).copied().unwrap_or(0))).collect();
        if let Some(other) = self.0.keys().find(|&call| !counts.iter().any(|(known, _)| known == call)) {
            return Err(format!("{other} was answered, which can't occur"));
        }
        match counts.iter().min_by_key(|(_, count)| count) {
            Some(&(_, count)) if count >= at_least => Ok(count),
            least => Err(format!("{least:?} is the least count of an answer, not {at_least}")),
        }
    }
}
