//! A shelf beside its book. Each call on it is compared with the model and with the book.

use super::calls::{Buffer, Call, Measures, Record, Shelf};
use super::reports::Reports;
use super::stand::Stand;
use crate::model::made;
use crate::shelf::model::book::Book;
use crate::shelf::model::layout::List;
use crate::shelf::model::numbers::lengths;
use crate::shelf::model::roles;

/// A shelf that a sequence of calls from a fresh one reached, the book of that sequence, and what the failed members of
/// the array held when they were reported.
#[derive(Clone)]
pub struct Pair {
    pub shelf: Shelf,
    pub book: Book,
    reports: Reports,
}

impl Pair {
    /// A shelf and its book; of no member it is known what was reported.
    pub fn of(shelf: Shelf, book: Book) -> Pair {
        Pair { shelf, book, reports: Reports::default() }
    }

    /// A fresh shelf and its book. Before format the record is nonsense, and the buffers hold this byte.
    pub fn fresh(m: Measures, byte: u8, stand: &mut Stand) -> Result<Pair, String> {
        let record = Record { measures: m, mode: usize::MAX, next: usize::MAX, listed: usize::MAX, failed: [1; 19] };
        let [array, log, list] = lengths(m).map(|length| Buffer::of(vec![byte; length as usize]));
        let shelf = Shelf { record, array, log, list, data: Buffer::empty() };
        let mut pair = Pair::of(shelf, Book::fresh(m));
        pair.step(Call::Format, Buffer::empty(), stand)?;
        Ok(pair)
    }

    /// Makes a call, which leaves the shelf as it is handed on. A member that is put back holds what it held when it
    /// was reported. Fails unless the call does as the model does, gets the book's number, gives the book's blocks, and
    /// leaves the book's counts, members and marks. Hands back the number.
    pub fn step(&mut self, call: Call, data: Buffer, stand: &mut Stand) -> Result<usize, String> {
        self.reports.give(call, &mut self.shelf);
        let failed = self.shelf.record.failed;
        let code = self.numbered(call, data, stand)?;
        if code == 0 {
            self.exact(call, &failed, stand.data())?;
        }
        Ok(code)
    }

    /// The same, and fails unless the call is accepted.
    pub fn accepted(&mut self, call: Call, data: Buffer, stand: &mut Stand) -> Result<(), String> {
        match self.step(call, data, stand)? {
            0 => Ok(()),
            code => Err(format!("{call:?} answers {code}, not 0; the shelf: {}", self.shelf)),
        }
    }

    /// Makes a call as a step does, but a member that is put back holds what it holds, and the blocks that are given
    /// need not be the book's.
    pub fn numbered(&mut self, call: Call, data: Buffer, stand: &mut Stand) -> Result<usize, String> {
        self.shelf.data = data;
        let due = self.book.number(call, self.shelf.data.told);
        let found = stand.as_model(call, &self.shelf)?.code();
        if found != due {
            return Err(format!("{call:?} answers {found}, by the book {due}; the shelf: {}", self.shelf));
        }
        stand.hand_on(&mut self.shelf);
        if due == 0 {
            self.book.enter(call, &self.shelf.data.bytes);
            self.reports.take(call, &mut self.shelf);
        }
        self.agrees()?;
        Ok(due)
    }

    /// Fails unless an accepted report of a member of the array, which led here from this record, is taken back by the
    /// next call, whatever became of the member between them. Nothing is made of another call.
    pub fn takes_back(&self, call: Call, before: &Record, stand: &mut Stand) -> Result<(), String> {
        let member = match call {
            Call::Fail(member) if member < before.measures.log() => member,
            _ => return Ok(()),
        };
        let mut after = self.clone();
        after.spoil();
        after.step(Call::PutBack(member), Buffer::empty(), stand)?;
        match after.shelf.record == *before {
            true => after.holds(),
            false => Err(format!("{call:?} is not taken back, the record was {before:?}; the shelf: {}", after.shelf)),
        }
    }

    /// Fails unless the blocks that either read gave, or with which a rebuild filled the members that had failed, are the
    /// book's.
    fn exact(&self, call: Call, failed: &[u8; 19], data: &[u8]) -> Result<(), String> {
        let m = self.shelf.record.measures;
        let given: Vec<(usize, &[u8])> = match call {
            Call::Read { address, .. } | Call::Fetch { address, .. } => (address..).zip(data.chunks(m.b)).collect(),
            Call::Rebuild => (0..m.d * m.s)
                .map(|address| (address, address / m.d, roles::members(m, address / m.d)[address % m.d]))
                .filter(|&(_, _, member)| failed[member] != 0)
                .map(|(address, stripe, member)| (address, self.stored(member, stripe)))
                .collect(),
            _ => Vec::new(),
        };
        match given.into_iter().find(|&(address, block)| block != self.book.block(address)) {
            None => Ok(()),
            Some((address, _)) => {
                Err(format!("{call:?} gives another block {address} than the last written; the shelf: {}", self.shelf))
            }
        }
    }

    /// Overwrites the failed members.
    pub fn spoil(&mut self) {
        for member in self.shelf.failed() {
            self.shelf.member(member).fill(200 + member as u8);
        }
    }

    /// Whether a failed member of the array holds other bytes than it did when it was reported.
    pub fn is_changed(&mut self, member: usize) -> bool {
        self.reports.is_changed(member, &mut self.shelf)
    }

    /// What was reported, which is no part of the shelf.
    pub fn reports(&self) -> &Reports {
        &self.reports
    }

    /// The bytes of a member's block in a stripe.
    pub fn stored(&self, member: usize, stripe: usize) -> &[u8] {
        let Measures { s, b, .. } = self.shelf.record.measures;
        &self.shelf.array.bytes[(member * s + stripe) * b..][..b]
    }

    /// Fails unless the shelf's mode, next, failed members and listed addresses are the book's.
    fn agrees(&self) -> Result<(), String> {
        let (r, book) = (&self.shelf.record, &self.book);
        let members = self.shelf.failed();
        let listed: Vec<usize> = List::of(r.measures, &self.shelf.list.bytes).entries().into_keys().collect();
        let counts = (r.mode, r.next) == book.counts() && r.listed == book.marks().len();
        if counts && members.iter().eq(book.members()) && listed.iter().eq(book.marks()) {
            return Ok(());
        }
        let (counts, members, marks) = (book.counts(), book.members(), book.marks());
        Err(format!("the book has mode, u {counts:?}, {members:?} failed, {marks:?} marked; the shelf: {}", self.shelf))
    }

    /// Fails unless each data block on a sound member is the book's, and P and Q, each where it is there and its member
    /// sound, are those of the book's blocks in every stripe that does not await resynchronisation.
    pub fn holds(&self) -> Result<(), String> {
        let m = self.shelf.record.measures;
        let Measures { d, s, b, .. } = m;
        for stripe in 0..s {
            let data = (stripe * d..(stripe + 1) * d).flat_map(|address| self.book.block(address));
            let row = made(d, m.parities, b, &data.copied().chain(vec![0; m.parities * b]).collect::<Vec<u8>>());
            let count = if self.book.awaits(stripe) { d } else { m.log() };
            for (block, member) in row.chunks(b).zip(roles::members(m, stripe)).take(count) {
                if self.shelf.record.failed[member] == 0 && block != self.stored(member, stripe) {
                    return Err(format!("member {member} of stripe {stripe} is not the book's; {}", self.shelf));
                }
            }
        }
        Ok(())
    }
}
