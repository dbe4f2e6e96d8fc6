//! What an accepted call on a shelf leaves, written anew from the text of each call, a block at a time.

use std::collections::BTreeSet;
use std::ops::Range;

use super::due::Due;
use super::events::{Event, Events};
use super::layout::{Entries, List};
use super::numbers::{findings, NONE};
use super::roles;
use crate::model::{made, recovered};
use crate::shelf::harness::calls::{fetch, Call, Measures, Record, Shelf};

/// What is due of a call that is answered with this number, and the ways in which its work is done, a plain read is
/// refused, or blocks are withheld.
pub fn outcome(call: Call, shelf: &Shelf, code: usize) -> (Due, Events) {
    let mut due = Due::nothing(call, shelf, code);
    let mut events = Events::default();
    match call {
        Call::Read { address, count } if code == 16 => events = lost(shelf, address, count),
        _ if code != 0 => {
            events.add(Event::FetchWithheld, code == 14 && call.is_read());
            events.add(Event::RebuildWithheld, code == 14 && call == Call::Rebuild);
        }
        Call::Format => format(shelf, &mut due),
        Call::Start => due.record.mode = 1,
        Call::Fail(member) => due.record = failed(shelf.record, member),
        Call::PutBack(member) => put_back(shelf, member, &mut due, &mut events),
        Call::NewLog => due.record.failed[shelf.record.measures.log()] = 0,
        Call::Read { address, count } => due.data = Some(read(shelf, address..address + count, &mut events)),
        Call::Fetch { address, count } => due.data = Some(fetched(shelf, address..address + count, &mut events)),
        Call::Write { .. } | Call::Resync | Call::Rebuild | Call::FullResync => {
            let mut work = Work::of(call, shelf);
            work.done(call, shelf, &mut due);
            events = work.events;
            work.leave(shelf, &mut due);
        }
    }
    (due, events)
}

/// Array and log all zero, every list word none, mode 0, nothing failed, counts zero.
fn format(shelf: &Shelf, due: &mut Due) {
    due.record = Record { mode: 0, next: 0, listed: 0, failed: [0; 19], ..shelf.record };
    due.array = Some(vec![0; shelf.array.bytes.len()]);
    due.log = Some(vec![0; shelf.log.bytes.len()]);
    due.list = Some(NONE.to_le_bytes().repeat(shelf.list.bytes.len() / 4));
}

/// The record after a member failed. If it is the log, mode 1 becomes 2 when blocks are listed, else 0.
fn failed(given: Record, member: usize) -> Record {
    let mut after = given;
    after.failed[member] = 1;
    if member == given.measures.log() && given.mode == 1 {
        after.mode = if given.listed > 0 { 2 } else { 0 };
    }
    after
}

/// The member's flag clears, and nothing else changes.
fn put_back(shelf: &Shelf, member: usize, due: &mut Due, events: &mut Events) {
    let (given, log) = (&shelf.record, shelf.record.measures.log());
    due.record.failed[member] = 0;
    events.add(Event::PutBackNormal, given.mode == 0);
    events.add(Event::PutBackAccelerating, given.mode == 1 && given.listed == 0);
    events.add(Event::PutBackListed, given.mode == 1 && given.listed > 0);
    events.add(Event::PutBackTransitional, given.mode == 2);
    events.add(Event::PutBackBesideFailed, due.record.failed[..log].contains(&1));
    events.add(Event::PutBackWithoutLog, given.failed[log] != 0);
}

/// The blocks as they stand in the array: all are on sound members.
fn read(shelf: &Shelf, addresses: Range<usize>, events: &mut Events) -> Vec<u8> {
    let (sight, d, log) = (Sight::of(shelf), shelf.record.measures.d, shelf.record.measures.log());
    let array_failed = (0..log).any(|member| sight.is_failed(member));
    let of_stripes = addresses.start / d * d..addresses.end.div_ceil(d) * d;
    events.add(Event::ReadSound, !array_failed);
    events.add(Event::ReadBesideFailed, array_failed);
    events.add(Event::ReadStaleWithoutLog, sight.is_failed(log) && sight.entries.range(of_stripes).count() > 0);
    addresses.flat_map(|address| sight.stored(sight.member(address), address / d)).copied().collect()
}

/// The ways in which a plain read is refused for a block on a failed member: where a recovering read of the same blocks
/// takes it from, or that this one is withheld.
fn lost(shelf: &Shelf, address: usize, count: usize) -> Events {
    let (sight, mut events) = (Sight::of(shelf), Events::default());
    let is_withheld = findings(fetch(address, count), shelf).code() == 14;
    events.add(Event::ReadLostAndWithheld, is_withheld);
    for source in (address..address + count).map(|address| sight.source(address)).filter(|_| !is_withheld) {
        events.add(Event::ReadLostInCur, matches!(source, Source::Cur(_)));
        events.add(Event::ReadLostInOri, matches!(source, Source::Ori(_)));
        events.add(Event::ReadLostByParity, matches!(source, Source::Parity));
    }
    events
}

/// The blocks by a recovering read.
fn fetched(shelf: &Shelf, addresses: Range<usize>, events: &mut Events) -> Vec<u8> {
    let sight = Sight::of(shelf);
    addresses.flat_map(|address| sight.block(address, events)).collect()
}

/// Where the block of a member in a stripe stands in the array.
fn place(m: Measures, member: usize, stripe: usize) -> Range<usize> {
    let first = (member * m.s + stripe) * m.b;
    first..first + m.b
}

/// Where a recovering read takes a block from: its member, a record of the log, or parity.
enum Source {
    Member,
    Cur(u32),
    Ori(u32),
    Parity,
}

/// A shelf as both reads see it.
struct Sight<'a> {
    shelf: &'a Shelf,
    entries: Entries,
}

impl Sight<'_> {
    /// The sight of a sound shelf.
    fn of(shelf: &Shelf) -> Sight<'_> {
        Sight { shelf, entries: List::of(shelf.record.measures, &shelf.list.bytes).entries() }
    }

    /// Whether a member has failed.
    fn is_failed(&self, member: usize) -> bool {
        self.shelf.record.failed[member] != 0
    }

    /// The member that has a block.
    fn member(&self, address: usize) -> usize {
        let m = self.shelf.record.measures;
        roles::members(m, address / m.d)[address % m.d]
    }

    /// The bytes of a member's block in a stripe.
    fn stored(&self, member: usize, stripe: usize) -> &[u8] {
        &self.shelf.array.bytes[place(self.shelf.record.measures, member, stripe)]
    }

    /// A record of the log.
    fn logged(&self, record: u32) -> &[u8] {
        let b = self.shelf.record.measures.b;
        &self.shelf.log.bytes[record as usize * b..][..b]
    }

    /// Where a recovering read takes a block from: a failed member's from Cur, else from Ori, else from parity.
    fn source(&self, address: usize) -> Source {
        match self.entries.get(&address) {
            _ if !self.is_failed(self.member(address)) => Source::Member,
            Some(&[ori, NONE]) => Source::Ori(ori),
            Some(&[_, cur]) => Source::Cur(cur),
            None => Source::Parity,
        }
    }

    /// What a recovering read gives of a block.
    fn block(&self, address: usize, events: &mut Events) -> Vec<u8> {
        let (m, source) = (self.shelf.record.measures, self.source(address));
        let (is_member, is_listed) = (matches!(source, Source::Member), self.entries.contains_key(&address));
        events.add(Event::FetchSound, is_member && !is_listed);
        events.add(Event::FetchSoundListed, is_member && is_listed);
        events.add(Event::FetchWithoutLog, !is_member && self.is_failed(m.log()));
        events.add(Event::FetchCur, matches!(source, Source::Cur(_)));
        events.add(Event::FetchOri, matches!(source, Source::Ori(_)));
        match source {
            Source::Member => self.stored(self.member(address), address / m.d).to_vec(),
            Source::Cur(record) | Source::Ori(record) => self.logged(record).to_vec(),
            Source::Parity => self.worked_back(address, events),
        }
    }

    /// The original of a stripe's block, by its place in the stripe and its member: a listed block's Ori, else its
    /// bytes if its member is sound; else missing.
    fn original(&self, place: usize, member: usize, stripe: usize) -> Option<&[u8]> {
        let d = self.shelf.record.measures.d;
        let entry = if place < d { self.entries.get(&(stripe * d + place)) } else { None };
        match entry {
            Some(&[NONE, _]) => None,
            Some(&[ori, _]) => Some(self.logged(ori)),
            None if self.is_failed(member) => None,
            None => Some(self.stored(member, stripe)),
        }
    }

    /// An unlisted block on a failed member, worked back by parity from originals.
    fn worked_back(&self, address: usize, events: &mut Events) -> Vec<u8> {
        let m = self.shelf.record.measures;
        let Measures { d, b, .. } = m;
        let (stripe, x) = (address / d, address % d);
        let (mut row, mut y) = (vec![0; m.log() * b], x);
        for (place, member) in roles::members(m, stripe).into_iter().enumerate().filter(|&(place, _)| place != x) {
            match self.original(place, member, stripe) {
                Some(bytes) => row[place * b..][..b].copy_from_slice(bytes),
                None => y = place,
            }
        }
        events.add(Event::FetchByBoth, y != x && y < d);
        events.add(Event::FetchByQ, y == d);
        events.add(Event::FetchByP, y == x || y == d + 1);
        events.add(Event::FetchBesideOri, (0..d).any(|index| self.entries.contains_key(&(stripe * d + index))));
        recovered(d, m.parities, b, x, y, &row)[x * b..][..b].to_vec()
    }
}

/// A shelf in work: the record, array and log as they are so far, and what the list says so far. The record's count of
/// listed blocks is that before the work.
struct Work {
    m: Measures,
    record: Record,
    array: Vec<u8>,
    log: Vec<u8>,
    entries: Entries,
    events: Events,
}

/// A part of a write: the stripe, its blocks that are written by data index, and the data from the first of them on.
struct Part<'a> {
    stripe: usize,
    written: Range<usize>,
    data: &'a [u8],
}

impl Work {
    /// A shelf before the work. Full resync does not look at the list.
    fn of(call: Call, shelf: &Shelf) -> Work {
        let m = shelf.record.measures;
        let entries = match call {
            Call::FullResync => Entries::new(),
            _ => List::of(m, &shelf.list.bytes).entries(),
        };
        let (array, log) = (shelf.array.bytes.clone(), shelf.log.bytes.clone());
        Work { m, record: shelf.record, array, log, entries, events: Events::default() }
    }

    /// Does the work of a call; what resync tells goes to what is due.
    fn done(&mut self, call: Call, shelf: &Shelf, due: &mut Due) {
        match call {
            Call::Write { address, count } => self.write(address, count, &shelf.data.bytes),
            Call::Resync => due.stripe = Some(self.resync()),
            Call::Rebuild => self.rebuild(shelf),
            Call::FullResync => self.full_resync(),
            _ => {}
        }
    }

    /// Puts what the work left to what is due.
    fn leave(self, shelf: &Shelf, due: &mut Due) {
        due.record = Record { listed: self.entries.len(), ..self.record };
        due.array = (self.array != shelf.array.bytes).then_some(self.array);
        due.log = (self.log != shelf.log.bytes).then_some(self.log);
        due.list = Some(List::one(self.m, &self.entries).bytes());
    }

    /// The addresses of a stripe.
    fn addresses(&self, stripe: usize) -> Range<usize> {
        stripe * self.m.d..(stripe + 1) * self.m.d
    }

    /// Whether a stripe has a listed block.
    fn waits(&self, stripe: usize) -> bool {
        self.entries.range(self.addresses(stripe)).next().is_some()
    }

    /// Makes the parities of a stripe: P, and Q where there are two.
    fn make_parity(&mut self, stripe: usize) {
        let (members, mut row) = (roles::members(self.m, stripe), Vec::new());
        for &member in &members {
            row.extend_from_slice(&self.array[place(self.m, member, stripe)]);
        }
        let row = made(self.m.d, self.m.parities, self.m.b, &row);
        for (&member, block) in members.iter().zip(row.chunks(self.m.b)).skip(self.m.d) {
            self.array[place(self.m, member, stripe)].copy_from_slice(block);
        }
    }

    /// Drops a stripe's listed blocks. With the last one the log records become free, and mode 2 becomes 0.
    fn drop_listed(&mut self, stripe: usize) {
        for address in self.addresses(stripe) {
            self.entries.remove(&address);
        }
        if self.entries.is_empty() {
            self.record.next = 0;
            if self.record.mode == 2 {
                self.record.mode = 0;
            }
        }
    }

    /// Splits the blocks into stripes, in rising order, and finishes each before the next.
    fn write(&mut self, address: usize, count: usize, data: &[u8]) {
        let Measures { d, b, .. } = self.m;
        let (first, last) = (address / d, (address + count - 1) / d);
        self.events.add(Event::WriteManyStripes, first < last);
        for stripe in first..=last {
            let from = address.max(stripe * d);
            let to = (address + count).min((stripe + 1) * d);
            let written = from - stripe * d..to - stripe * d;
            self.write_part(Part { stripe, written, data: &data[(from - address) * b..] });
        }
    }

    /// Writes a stripe's blocks: through the log if that is to be and can be, else with parity made afresh.
    fn write_part(&mut self, part: Part) {
        let (mut to_write, mut others) = (Vec::new(), Vec::new());
        for index in 0..self.m.d {
            if !self.entries.contains_key(&(part.stripe * self.m.d + index)) {
                if part.written.contains(&index) { &mut to_write } else { &mut others }.push(index);
            }
        }
        let reconstruct = others.len() < to_write.len();
        let pre_read = if reconstruct { &others } else { &to_write };
        let records = pre_read.len() + part.written.len();
        let places = if reconstruct { others.len() + to_write.len() } else { to_write.len() };
        let lacks_records = self.record.next + records > self.m.l;
        let lacks_places = self.entries.len() + places > self.m.e;
        self.note(reconstruct, places, lacks_records, lacks_places);
        if self.record.mode != 1 || lacks_records || lacks_places {
            return self.write_through(part);
        }
        self.note_places(part.stripe, places);
        self.log_part(&part, pre_read);
        self.put(&part);
    }

    /// Notes in which way a stripe is written.
    fn note(&mut self, reconstruct: bool, places: usize, lacks_records: bool, lacks_places: bool) {
        let mode = self.record.mode;
        let logs = mode == 1 && !lacks_records && !lacks_places;
        let again = self.entries.is_empty() && self.record.listed > 0;
        self.events.add(Event::WriteNormal, mode == 0);
        self.events.add(Event::WriteTransitional, mode == 2);
        self.events.add(Event::WriteLacksRecords, mode == 1 && lacks_records && !lacks_places);
        self.events.add(Event::WriteLacksPlaces, mode == 1 && lacks_places && !lacks_records);
        self.events.add(Event::WriteReconstruct, logs && reconstruct);
        self.events.add(Event::WriteReadModify, logs && !reconstruct && places > 0);
        self.events.add(Event::WriteAllListed, logs && places == 0);
        self.events.add(Event::WriteLogsAfterDroppingLast, logs && again);
    }

    /// Notes which others are listed where a stripe's blocks are listed anew: of stripes above it, of stripes below it,
    /// and of its own.
    fn note_places(&mut self, stripe: usize, places: usize) {
        let own = self.addresses(stripe);
        let (below, above) = (self.entries.range(..own.start).count(), self.entries.range(own.end..).count());
        self.events.add(Event::WritePutsBelow, places > 0 && above > 0);
        self.events.add(Event::WritePutsAbove, places > 0 && below > 0);
        self.events.add(Event::WriteAddsToStale, places > 0 && below + above < self.entries.len());
    }

    /// The disks get a stripe's new blocks.
    fn put(&mut self, part: &Part) {
        let members = roles::members(self.m, part.stripe);
        for (index, block) in part.written.clone().zip(part.data.chunks(self.m.b)) {
            self.array[place(self.m, members[index], part.stripe)].copy_from_slice(block);
        }
    }

    /// The disks get the new blocks, P and Q are made afresh, and the stripe's listed blocks are dropped.
    fn write_through(&mut self, part: Part) {
        let (listed, mode) = (self.entries.len(), self.record.mode);
        self.put(&part);
        self.make_parity(part.stripe);
        self.drop_listed(part.stripe);
        let left = self.entries.len();
        let below = self.entries.range(..part.stripe * self.m.d).count();
        self.events.add(Event::WriteDropsAbove, below > 0 && left < listed);
        self.events.add(Event::WriteDropsSome, 0 < left && left < listed);
        self.events.add(Event::WriteDropsLastAccelerating, left == 0 && listed > 0 && mode == 1);
        self.events.add(Event::WriteDropsLastTransitional, left == 0 && listed > 0 && mode == 2);
    }

    /// Appends a block to the log; hands back its record.
    fn append(&mut self, block: &[u8]) -> u32 {
        let record = self.record.next;
        self.log[record * self.m.b..][..self.m.b].copy_from_slice(block);
        self.record.next += 1;
        record as u32
    }

    /// Appends the pre-read values with Ori set, then the new ones with Cur set.
    fn log_part(&mut self, part: &Part, pre_read: &[usize]) {
        let (first, members) = (part.stripe * self.m.d, roles::members(self.m, part.stripe));
        for &index in pre_read {
            let block = self.array[place(self.m, members[index], part.stripe)].to_vec();
            let ori = self.append(&block);
            self.entries.insert(first + index, [ori, NONE]);
        }
        for (index, block) in part.written.clone().zip(part.data.chunks(self.m.b)) {
            let cur = self.append(block);
            self.entries.entry(first + index).or_insert([NONE, NONE])[1] = cur;
        }
    }

    /// Enters mode 2 and makes P and Q of the lowest waiting stripe, or goes to mode 0 if none waits. Tells the stripe.
    fn resync(&mut self) -> usize {
        self.record.mode = 2;
        self.events.add(Event::ResyncWithoutLog, self.record.failed[self.m.log()] != 0);
        let Some(stripe) = (0..self.m.s).find(|&stripe| self.waits(stripe)) else {
            self.record.mode = 0;
            self.events.add(Event::ResyncNone, true);
            return self.m.s;
        };
        self.make_parity(stripe);
        self.drop_listed(stripe);
        self.events.add(Event::ResyncLast, self.entries.is_empty());
        self.events.add(Event::ResyncSome, !self.entries.is_empty());
        stripe
    }

    /// Rebuilds each stripe and clears the array's flags. The mode changes only with the last listed block that is
    /// dropped.
    fn rebuild(&mut self, shelf: &Shelf) {
        let (sight, before) = (Sight::of(shelf), self.entries.len());
        let (mut filled, mut afresh) = (BTreeSet::new(), BTreeSet::new());
        for stripe in 0..self.m.s {
            filled.extend(self.fill(&sight, stripe));
            afresh.extend(self.make_lost_parity(&sight, stripe));
        }
        let (left, mode) = (self.entries.len(), shelf.record.mode);
        self.record.failed[..self.m.log()].fill(0);
        let events = &mut self.events;
        events.add(Event::RebuildWithoutLog, sight.is_failed(self.m.log()));
        events.add(Event::RebuildData, !filled.is_empty() && before == 0);
        events.add(Event::RebuildDataListed, !filled.is_empty() && before > 0);
        events.add(Event::RebuildDataAccelerating, afresh.is_empty() && before == 0 && mode == 1);
        events.add(Event::RebuildParityNormal, !afresh.is_empty() && mode == 0);
        events.add(Event::RebuildParityAccelerating, !afresh.is_empty() && before == 0 && mode == 1);
        events.add(Event::RebuildParityListed, !afresh.is_empty() && before > 0);
        events.add(Event::RebuildDropsNone, before > 0 && left == before);
        events.add(Event::RebuildDropsLastAccelerating, before > 0 && left == 0 && mode == 1);
        events.add(Event::RebuildDropsLastTransitional, before > 0 && left == 0 && mode == 2);
        events.add(Event::RebuildDropsSome, 0 < left && left < before);
        events.add(Event::RebuildBothOfOne, !filled.is_disjoint(&afresh));
    }

    /// Fills the data blocks of a stripe that are on failed members with what a recovering read would give; hands back
    /// the members.
    fn fill(&mut self, sight: &Sight, stripe: usize) -> Vec<usize> {
        let lost = |&(_, member): &(usize, usize)| sight.is_failed(member);
        let data = roles::members(self.m, stripe).into_iter().take(self.m.d).enumerate();
        data.filter(lost)
            .map(|(index, member)| {
                let block = sight.block(stripe * self.m.d + index, &mut Events::default());
                self.array[place(self.m, member, stripe)].copy_from_slice(&block);
                member
            })
            .collect()
    }

    /// Makes P and Q of a stripe and drops its listed blocks, if one of the two was on a failed member; hands back the
    /// failed members of the two.
    fn make_lost_parity(&mut self, sight: &Sight, stripe: usize) -> Vec<usize> {
        let parity = roles::members(self.m, stripe).into_iter().skip(self.m.d);
        let lost: Vec<usize> = parity.filter(|&member| sight.is_failed(member)).collect();
        if !lost.is_empty() {
            self.make_parity(stripe);
            self.drop_listed(stripe);
        }
        lost
    }

    /// Makes P and Q of every stripe, empties the list, and sets both counts and the mode to 0.
    fn full_resync(&mut self) {
        self.events.add(Event::FullResyncFresh, self.record.listed == 0);
        self.events.add(Event::FullResyncListed, self.record.listed > 0);
        self.events.add(Event::FullResyncWithoutLog, self.record.failed[self.m.log()] != 0);
        (0..self.m.s).for_each(|stripe| self.make_parity(stripe));
        (self.record.mode, self.record.next) = (0, 0);
    }
}
