//! What the cases covered in each layout and with each count of parities: how often each number was answered, in the
//! company of which others, and each fault alone.

use super::calls::{Call, Measures, Shelf};
use crate::shelf::model::numbers::{Fault, Findings, OF_LENGTHS, OF_LIST, OF_MEASURES, OF_RECORD};

/// How many calls there are, and numbers from 0 to the last one that a call answers.
pub const CALLS: usize = 11;
pub const CODES: usize = 17;

/// The calls by name, with the numbers that each can answer beside 0.
const NUMBERS: [(&str, &[usize]); CALLS] = [
    ("format", &[1, 2]),
    ("start", &[1, 2, 3, 7, 8, 9]),
    ("fail", &[1, 2, 3, 6, 10, 11]),
    ("put back", &[1, 2, 3, 6, 12]),
    ("new log", &[1, 2, 3, 12, 13]),
    ("write", &[1, 2, 3, 4, 5, 8]),
    ("read", &[1, 2, 3, 4, 5, 16]),
    ("fetch", &[1, 2, 3, 4, 5, 14]),
    ("resync", &[1, 2, 3, 7, 8]),
    ("rebuild", &[1, 2, 3, 12, 14]),
    ("full resync", &[1, 2, 8]),
];

/// The number that is never answered with one parity: the log and a disk can't both be failed then.
const WITHHELD: usize = 14;

/// The pairs of numbers that never apply together: a member above the log has no flag; a block is withheld only where a
/// disk has failed.
const APART_OF_TWO: [(&str, usize, usize); 2] = [("fail", 6, 10), ("rebuild", 12, WITHHELD)];

/// The same with one parity: besides, a disk and the log have not both failed where the record passes. That a member
/// has failed already is never all that applies, since one failure is the limit.
const APART_OF_ONE: [(&str, usize, usize); 3] = [("fail", 6, 10), ("start", 8, 9), ("fail", 10, 10)];

/// Those with so many parities.
fn apart(parities: usize) -> &'static [(&'static str, usize, usize)] {
    match parities {
        1 => &APART_OF_ONE,
        _ => &APART_OF_TWO,
    }
}

/// The faults of rows 1 to 3 by what they are of.
const FAULTS: [(usize, &[Fault]); 4] = [(1, &OF_MEASURES), (1, &OF_RECORD), (2, &OF_LENGTHS), (3, &OF_LIST)];

/// Whether a call looks for these faults: format does for those of measures and lengths only, full resync for all but
/// those of the list.
fn looks_for(name: &str, faults: &[Fault]) -> bool {
    match name {
        "format" => faults == OF_MEASURES || faults == OF_LENGTHS,
        "full resync" => faults != OF_LIST,
        _ => true,
    }
}

/// Counts for each call: by the number answered and another that applied too (itself where none did), and by fault.
struct Counts {
    numbers: [[[usize; CODES]; CODES]; CALLS],
    alone: [[usize; 64]; CALLS],
}

/// The counts of the shelves by layout and by the parities less one, and of those whose layout or count of parities is
/// none that there is.
pub struct Tally {
    known: [[Counts; 2]; 2],
    neither: Counts,
}

/// The faults of such a layout or such a count.
const OF_NEITHER: [Fault; 3] = [Fault::HighLayout, Fault::HighParities, Fault::LowParities];

/// The index of a call in the counts.
pub fn index(call: Call) -> usize {
    match call {
        Call::Format => 0,
        Call::Start => 1,
        Call::Fail(_) => 2,
        Call::PutBack(_) => 3,
        Call::NewLog => 4,
        Call::Write { .. } => 5,
        Call::Read { .. } => 6,
        Call::Fetch { .. } => 7,
        Call::Resync => 8,
        Call::Rebuild => 9,
        Call::FullResync => 10,
    }
}

/// The name of the call that has this index.
pub fn name(index: usize) -> &'static str {
    NUMBERS[index].0
}

/// Whether the call that has this index can answer this number on a shelf with so many parities.
pub fn answers(index: usize, code: usize, parities: usize) -> bool {
    NUMBERS[index].1.contains(&code) && (parities == 2 || code != WITHHELD)
}

impl Tally {
    /// Counts of nothing so far.
    pub fn new() -> Tally {
        let known = [(); 2].map(|_| [(); 2].map(|_| Counts::new()));
        Tally { known, neither: Counts::new() }
    }

    /// Counts a case.
    pub fn count(&mut self, call: Call, shelf: &Shelf, found: &Findings) {
        let counts = match shelf.record.measures {
            Measures { layout: layout @ 0..=1, parities: parities @ 1..=2, .. } => {
                &mut self.known[layout][parities - 1]
            }
            _ => &mut self.neither,
        };
        counts.count(index(call), found);
    }

    /// Fails unless, in either layout and with either count of parities, every call answered 0 and each of its numbers,
    /// and no other, each number was the first where each later one applied too, and each fault was the only one of its
    /// row. A layout or a count that is neither was the only fault of its row too. Hands back the least count of a
    /// fault.
    pub fn complete(&self) -> Result<usize, String> {
        let mut least = self.neither.faults(|fault| OF_NEITHER.contains(&fault))?;
        for (layout, parities) in [(0, 1), (0, 2), (1, 1), (1, 2)] {
            let counts = &self.known[layout][parities - 1];
            let found = counts.numbers(parities).and_then(|()| counts.faults(|fault| !OF_NEITHER.contains(&fault)));
            least = least.min(found.map_err(|fault| format!("layout {layout}, parities {parities}: {fault}"))?);
        }
        Ok(least)
    }
}

impl Counts {
    /// Counts of nothing so far.
    fn new() -> Counts {
        Counts { numbers: [[[0; CODES]; CODES]; CALLS], alone: [[0; 64]; CALLS] }
    }

    /// Counts a case of a call.
    fn count(&mut self, call: usize, found: &Findings) {
        let code = found.code();
        let others = found.numbers & !(1 << code);
        if others == 0 {
            self.numbers[call][code][code] += 1;
        }
        for other in (0..CODES).filter(|&other| others >> other & 1 == 1) {
            self.numbers[call][code][other] += 1;
        }
        for (_, faults) in FAULTS.iter().filter(|(row, _)| *row == code) {
            for &fault in faults.iter().filter(|&&fault| found.faults[code - 1].only(fault)) {
                self.alone[call][fault as usize] += 1;
            }
        }
    }

    /// Fails unless every call answered 0 and each of its numbers, and no other, and each number was the first where each
    /// later one applied too, but not where they never apply together.
    fn numbers(&self, parities: usize) -> Result<(), String> {
        for (call, (name, _)) in NUMBERS.iter().enumerate() {
            let is_other = |code: &usize| !answers(call, *code, parities) && self.numbers[call][*code] != [0; CODES];
            if let Some(code) = (1..CODES).find(is_other) {
                return Err(format!("{name} answered {code}, which is none of its numbers"));
            }
            let all: Vec<usize> = (0..CODES).filter(|&code| code == 0 || answers(call, code, parities)).collect();
            for &code in &all {
                let later = all.iter().copied().filter(|&other| other > code && code > 0);
                for other in [code].into_iter().chain(later) {
                    let is_apart = apart(parities).contains(&(name, code, other));
                    if is_apart != (self.numbers[call][code][other] == 0) {
                        let which = if is_apart { "a" } else { "no" };
                        return Err(format!("{which} case of {name} answered {code} where {other} applied"));
                    }
                }
            }
        }
        Ok(())
    }

    /// Fails unless each of the faults that are due was the only one of its row. Hands back the least count.
    fn faults(&self, is_due: impl Fn(Fault) -> bool) -> Result<usize, String> {
        let mut least = usize::MAX;
        for (call, (name, _)) in NUMBERS.iter().enumerate() {
            for (_, faults) in FAULTS.iter().filter(|(_, faults)| looks_for(name, faults)) {
                for &fault in faults.iter().filter(|&&fault| is_due(fault)) {
                    least = least.min(self.alone[call][fault as usize]);
                    if self.alone[call][fault as usize] == 0 {
                        return Err(format!("no case of {name} had {fault:?} alone"));
                    }
                }
            }
        }
        Ok(least)
    }
}
