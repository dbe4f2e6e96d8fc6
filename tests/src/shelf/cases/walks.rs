//! Walks of tiny shelves: from a fresh one and from one in mode 2 on, every call is made on every shelf that is
//! reached, the nearest first, against the model and against the book.

use std::collections::{HashMap, HashSet, VecDeque};

use crate::shelf::harness::calls::{fetch, read, write, Buffer, Call, Measures, Record};
use crate::shelf::harness::pair::Pair;
use crate::shelf::harness::reports::Reports;
use crate::shelf::harness::stand::Stand;
use crate::shelf::model::book::Book;
use crate::shelf::model::layout::{Entries, List};
use crate::Outcome;

/// The measures of the shelves: room in log and list for all, for some, and for next to nothing. Those whose parity
/// rotates have as few stripes, or enough for a member to have data of one, P of another and Q, if there is one, of a
/// third.
const MEASURES: [[usize; 8]; 20] = [
    [2, 1, 1, 3, 1, 2, 0, 2],
    [2, 1, 1, 9, 2, 1, 0, 2],
    [2, 2, 1, 4, 2, 4, 0, 2],
    [2, 2, 1, 9, 1, 3, 0, 2],
    [3, 1, 1, 5, 3, 3, 0, 2],
    [3, 2, 1, 7, 2, 4, 0, 2],
    [4, 1, 1, 6, 1, 4, 0, 2],
    [2, 2, 1, 4, 2, 4, 1, 2],
    [2, 3, 1, 9, 1, 3, 1, 2],
    [2, 5, 1, 6, 3, 4, 1, 2],
    [3, 1, 1, 5, 3, 3, 1, 2],
    [3, 3, 1, 7, 2, 4, 1, 2],
    [2, 1, 1, 3, 1, 2, 0, 1],
    [2, 2, 1, 9, 1, 3, 0, 1],
    [3, 1, 1, 5, 3, 3, 0, 1],
    [3, 2, 1, 7, 2, 4, 0, 1],
    [2, 2, 1, 4, 2, 4, 1, 1],
    [2, 4, 1, 6, 3, 4, 1, 1],
    [3, 1, 1, 5, 3, 3, 1, 1],
    [3, 3, 1, 7, 2, 4, 1, 1],
];

/// The most shelves of the same measures on which calls are made.
const MOST: usize = 1_800;

/// What tells two shelves apart: the record's mode, next and flags, array, log, list, the book's blocks, and what was
/// reported.
type Key = ([usize; 2], [u8; 19], Vec<u8>, Vec<u8>, Vec<u8>, Vec<u8>, Reports);

/// The calls that are made: each member fails and is put back; each block alone, each stripe and all blocks are
/// written, and read by both reads.
fn calls(m: Measures) -> Vec<Call> {
    let blocks = m.d * m.s;
    let mut calls = vec![Call::Start, Call::NewLog, Call::Resync, Call::Rebuild, Call::FullResync];
    calls.extend((0..=m.log()).flat_map(|member| [Call::Fail(member), Call::PutBack(member)]));
    let single = (0..blocks).map(|address| (address, 1));
    let ranges = single.chain((0..m.s).map(|stripe| (stripe * m.d, m.d))).chain([(0, blocks - 1), (1, blocks - 1)]);
    for (address, count) in ranges.chain((m.s > 1).then_some((0, blocks))) {
        calls.extend([write(address, count), read(address, count), fetch(address, count)]);
    }
    calls
}

/// The caller's data: of two values for each address a write takes another one than the book has.
fn data(call: Call, book: &Book) -> Vec<u8> {
    let value = |address: usize| {
        let first = 16 + address as u8;
        if book.block(address)[0] == first {
            first + 100
        } else {
            first
        }
    };
    match call {
        Call::Write { address, count } => (address..address + count).map(value).collect(),
        Call::Read { count, .. } | Call::Fetch { count, .. } => vec![231; count],
        _ => Vec::new(),
    }
}

/// The key of a shelf beside its book.
fn key(pair: &Pair) -> Key {
    let Record { measures: m, mode, next, failed, .. } = pair.shelf.record;
    let [array, log, list] = [&pair.shelf.array, &pair.shelf.log, &pair.shelf.list].map(|buffer| buffer.bytes.clone());
    let blocks = (0..m.d * m.s).map(|address| pair.book.block(address)[0]).collect();
    ([mode, next], failed, array, log, list, blocks, pair.reports().clone())
}

/// The list in bytes for what was listed so far, and how often calls led to what another one had led to.
#[derive(Default)]
struct Lists {
    bytes: HashMap<Entries, Vec<u8>>,
    again: usize,
}

impl Lists {
    /// Takes in the list that a call altered. Fails if it says what another one said, and has other bytes.
    fn take(&mut self, before: &Pair, after: &Pair) -> Result<(), String> {
        let bytes = &after.shelf.list.bytes;
        let entries = List::of(after.shelf.record.measures, bytes).entries();
        if entries.is_empty() || *bytes == before.shelf.list.bytes {
            return Ok(());
        }
        match self.bytes.get(&entries) {
            Some(other) if other != bytes => Err(format!("{entries:?} are listed in two ways: {}", after.shelf)),
            Some(_) => {
                self.again += 1;
                Ok(())
            }
            None => {
                self.bytes.insert(entries, bytes.clone());
                Ok(())
            }
        }
    }
}

/// The shelves from which a walk begins: a fresh one and, of more stripes than one, one of which two were stale and the
/// first is resynced.
fn starts(m: Measures, stand: &mut Stand) -> Result<Vec<Pair>, String> {
    let fresh = Pair::fresh(m, 99, stand)?;
    if m.s == 1 {
        return Ok(vec![fresh]);
    }
    let mut transitional = fresh.clone();
    for call in [Call::Start, write(0, 1), write(m.d, 1), Call::Resync] {
        let data = Buffer::of(data(call, &transitional.book));
        transitional.step(call, data, stand)?;
    }
    match transitional.book.counts().0 == 2 {
        true => Ok(vec![fresh, transitional]),
        false => Err(format!("the walk does not begin in mode 2; the shelf: {}", transitional.shelf)),
    }
}

/// Walks the shelves of these measures; hands back how many were reached, and how often the same was listed again.
fn walk([d, s, b, l, h, e, layout, parities]: [usize; 8], stand: &mut Stand) -> Result<[usize; 2], String> {
    let m = Measures { d, s, b, l, h, e, layout, parities };
    let starts = starts(m, stand)?;
    let mut reached: HashSet<Key> = starts.iter().map(key).collect();
    let mut lists = Lists::default();
    let mut waiting = VecDeque::from(starts);
    while let Some(pair) = waiting.pop_front() {
        for call in calls(m) {
            let mut next = pair.clone();
            let data = Buffer::of(data(call, &next.book));
            if next.step(call, data, stand)? != 0 {
                continue;
            }
            next.holds()?;
            next.takes_back(call, &pair.shelf.record, stand)?;
            lists.take(&pair, &next)?;
            next.spoil();
            if reached.len() < MOST && reached.insert(key(&next)) {
                waiting.push_back(next);
            }
        }
    }
    Ok([reached.len(), lists.again])
}

/// Makes the walks.
pub fn group(_seed: u64) -> Outcome {
    let stand = &mut Stand::default();
    let (mut reached, mut again) = (0, usize::MAX);
    for measures in MEASURES {
        let [shelves, lists] = walk(measures, stand)?;
        (reached, again) = (reached + shelves, again.min(lists));
    }
    let least = stand.seen.complete(20)?;
    if again < 20 {
        return Err(format!("the same was listed in {again} more ways, not 20"));
    }
    Ok(format!(
        "{} calls, every one on each of {reached} shelves near fresh ones, and near ones in mode 2, of both layouts \
         and both counts of parities; each way of their work {least} times at least; the same was listed {again} times \
         more at least, in the same bytes",
        stand.calls
    ))
}
