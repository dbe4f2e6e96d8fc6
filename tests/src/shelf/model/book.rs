//! The book: what a shelf is to hold and which number each call is to get, told from nothing but the measures and what
//! the calls are asked for. It knows neither array nor log nor list.

use std::collections::BTreeSet;
use std::ops::Range;

use crate::shelf::harness::calls::{Call, Measures};

/// The book of a shelf: a block for each address, the failed members, the marked addresses, the mode, and u, the log
/// records used.
#[derive(Clone)]
pub struct Book {
    m: Measures,
    blocks: Vec<Vec<u8>>,
    members: BTreeSet<usize>,
    marks: BTreeSet<usize>,
    mode: usize,
    used: usize,
}

impl Book {
    /// The book of a fresh shelf.
    pub fn fresh(m: Measures) -> Book {
        let blocks = vec![vec![0; m.b]; m.d * m.s];
        Book { m, blocks, members: BTreeSet::new(), marks: BTreeSet::new(), mode: 0, used: 0 }
    }

    /// The last block written at an address.
    pub fn block(&self, address: usize) -> &[u8] {
        &self.blocks[address]
    }

    /// The failed members.
    pub fn members(&self) -> &BTreeSet<usize> {
        &self.members
    }

    /// The marked addresses.
    pub fn marks(&self) -> &BTreeSet<usize> {
        &self.marks
    }

    /// The mode and u.
    pub fn counts(&self) -> (usize, usize) {
        (self.mode, self.used)
    }

    /// Whether a stripe awaits resynchronisation.
    pub fn awaits(&self, stripe: usize) -> bool {
        self.marks.range(stripe * self.m.d..(stripe + 1) * self.m.d).next().is_some()
    }

    /// How many stripes await it.
    pub fn awaiting(&self) -> usize {
        (0..self.m.s).filter(|&stripe| self.awaits(stripe)).count()
    }

    /// The parities that there are: P and Q, or P alone.
    fn parities(&self) -> usize {
        match self.m.parities {
            1 => 1,
            _ => 2,
        }
    }

    /// The log's number: the one after P, or after Q where that is there.
    fn log(&self) -> usize {
        match self.m.parities {
            1 => self.m.d + 1,
            _ => self.m.d + 2,
        }
    }

    /// Whether a member of the array has failed.
    fn array_failed(&self) -> bool {
        self.members.iter().any(|&member| member != self.log())
    }

    /// Whether the log has failed.
    fn log_failed(&self) -> bool {
        self.members.contains(&self.log())
    }

    /// How far a member stands after the one that has P in a stripe, counted round: 0 is P's own, 1 is Q's, 2 that of
    /// data index 0, and so on; without Q that of data index 0 is 1.
    pub fn after_p(&self, member: usize, stripe: usize) -> usize {
        let n = self.m.d + self.parities();
        match self.m.layout {
            0 => (member + n - self.m.d) % n,
            _ => (member + stripe + 1) % n,
        }
    }

    /// Whether an address has its own member failed.
    pub fn loses(&self, address: usize) -> bool {
        let (stripe, place) = (address / self.m.d, self.parities() + address % self.m.d);
        self.members.iter().any(|&member| member != self.log() && self.after_p(member, stripe) == place)
    }

    /// Whether an address has its own member and the log both failed while its stripe awaits resynchronisation.
    pub fn withholds(&self, address: usize) -> bool {
        self.log_failed() && self.awaits(address / self.m.d) && self.loses(address)
    }

    /// The number that a call gets, which is given so many bytes of data.
    pub fn number(&self, call: Call, data_len: usize) -> usize {
        match call {
            Call::Format => 0,
            Call::Start if self.mode != 0 => 7,
            Call::Start if self.array_failed() => 8,
            Call::Start if self.log_failed() => 9,
            Call::Start => 0,
            Call::Fail(member) if member > self.log() => 6,
            Call::Fail(member) if self.members.contains(&member) => 10,
            Call::Fail(_) if self.members.len() == self.parities() => 11,
            Call::Fail(_) => 0,
            Call::PutBack(member) if member >= self.log() => 6,
            Call::PutBack(member) if !self.members.contains(&member) => 12,
            Call::PutBack(_) => 0,
            Call::NewLog if !self.log_failed() => 12,
            Call::NewLog if !self.marks.is_empty() => 13,
            Call::NewLog => 0,
            Call::Write { address, count } => match self.request(address, count, data_len) {
                0 if self.array_failed() => 8,
                number => number,
            },
            Call::Read { address, count } => match self.request(address, count, data_len) {
                0 if (address..address + count).any(|address| self.loses(address)) => 16,
                number => number,
            },
            Call::Fetch { address, count } => match self.request(address, count, data_len) {
                0 if (address..address + count).any(|address| self.withholds(address)) => 14,
                number => number,
            },
            Call::Resync if self.mode == 0 => 7,
            Call::Resync | Call::FullResync if self.array_failed() => 8,
            Call::Resync | Call::FullResync => 0,
            Call::Rebuild if !self.array_failed() => 12,
            Call::Rebuild if (0..self.m.d * self.m.s).any(|address| self.withholds(address)) => 14,
            Call::Rebuild => 0,
        }
    }

    /// The number that a request gets by its address, count and length of data.
    fn request(&self, address: usize, count: usize, data_len: usize) -> usize {
        match address.checked_add(count) {
            _ if count == 0 => 4,
            None => 4,
            Some(end) if end > self.m.d * self.m.s => 4,
            _ if data_len != count * self.m.b => 5,
            _ => 0,
        }
    }

    /// Enters an accepted call.
    pub fn enter(&mut self, call: Call, data: &[u8]) {
        let log = self.log();
        match call {
            Call::Format => *self = Book::fresh(self.m),
            Call::Start => self.mode = 1,
            Call::Fail(member) => {
                self.members.insert(member);
                if member == log && self.mode == 1 {
                    self.mode = 2;
                }
            }
            Call::PutBack(member) => {
                self.members.remove(&member);
            }
            Call::NewLog => {
                self.members.remove(&log);
            }
            Call::Write { address, count } => self.write(address..address + count, data),
            Call::Read { .. } | Call::Fetch { .. } => {}
            Call::Resync => {
                self.mode = 2;
                self.marks.first().copied().into_iter().for_each(|lowest| self.unmark(lowest / self.m.d));
            }
            Call::Rebuild => self.rebuild(),
            Call::FullResync => {
                self.marks.clear();
                self.mode = 0;
            }
        }
        self.settle();
    }

    /// Whenever no mark is left, u and mode 2 become 0.
    fn settle(&mut self) {
        if self.marks.is_empty() {
            self.used = 0;
            self.mode %= 2;
        }
    }

    /// A stripe's marks go.
    fn unmark(&mut self, stripe: usize) {
        self.marks.retain(|mark| mark / self.m.d != stripe);
    }

    /// Puts in the blocks, then takes each stripe that they touch.
    fn write(&mut self, addresses: Range<usize>, data: &[u8]) {
        for (address, block) in addresses.clone().zip(data.chunks(self.m.b)) {
            self.blocks[address].copy_from_slice(block);
        }
        for stripe in addresses.start / self.m.d..=(addresses.end - 1) / self.m.d {
            self.mark(stripe, &addresses);
            self.settle();
        }
    }

    /// Marks the blocks of a stripe that a write puts off, or drops the stripe's marks.
    fn mark(&mut self, stripe: usize, addresses: &Range<usize>) {
        let all = stripe * self.m.d..(stripe + 1) * self.m.d;
        let w = all.clone().filter(|address| addresses.contains(address)).count();
        let unmarked: Vec<usize> = all.filter(|address| !self.marks.contains(address)).collect();
        let (x, y): (Vec<usize>, Vec<usize>) = unmarked.into_iter().partition(|address| addresses.contains(address));
        let sum = self.used + w + x.len().min(y.len());
        let to_mark = if y.len() < x.len() { [x, y].concat() } else { x };
        if self.mode == 1 && sum <= self.m.l && self.marks.len() + to_mark.len() <= self.m.e {
            self.used = sum;
            self.marks.extend(to_mark);
        } else {
            self.unmark(stripe);
        }
    }

    /// Clears the array's members. The marks of each stripe whose P or Q was on one of them go.
    fn rebuild(&mut self) {
        let (log, parities) = (self.log(), self.parities());
        let lost: Vec<usize> = self.members.iter().copied().filter(|&member| member != log).collect();
        let made_afresh: Vec<bool> =
            (0..self.m.s).map(|stripe| lost.iter().any(|&member| self.after_p(member, stripe) < parities)).collect();
        self.marks.retain(|mark| !made_afresh[mark / self.m.d]);
        self.members.retain(|&member| member == log);
    }
}
