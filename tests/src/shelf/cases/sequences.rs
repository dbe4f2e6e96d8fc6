//! Random sequences of calls from a fresh shelf, against the model and against the book. Each call gets the record and
//! the buffers as the one before left them, save that the bytes of failed members change at will, and that a member
//! which is put back holds what it held when it was reported. Some sequences end with calls after a member was put back
//! with other bytes: then the blocks are the model's, and the book has the numbers alone. Now and then the list is
//! arranged in another way that says the same: the call is first made on that list, and must be refused with 3. Each
//! plain read is made beside a recovering one too.

use crate::random::Random;
use crate::shelf::harness::calls::{fetch, read, write, Buffer, Call, Measures, Record, Shelf};
use crate::shelf::harness::lists::{self, one_of, pick};
use crate::shelf::harness::pair::Pair;
use crate::shelf::harness::reads;
use crate::shelf::harness::records;
use crate::shelf::harness::requests::{self, Request};
use crate::shelf::harness::stand::Stand;
use crate::shelf::harness::tally::{self, CALLS, CODES};
use crate::shelf::model::book::Book;
use crate::shelf::model::layout::List;
use crate::shelf::model::numbers::NONE;
use crate::shelf::model::roles;
use crate::Outcome;

/// How many sequences are made, and the most calls of one.
const SEQUENCES: usize = 15_000;
const LONGEST: usize = 96;

/// The most calls after a member was put back with other bytes than it had.
const LAST: usize = 12;

/// The most bytes of an array of which all blocks are compared with the book's after every call.
const SMALL: usize = 600;

/// A random number from 1 to the limit, often near 1 or the limit.
fn up_to(limit: usize, random: &mut Random) -> usize {
    match random.below(8) {
        0..=3 => limit,
        4 | 5 => 1 + pick(limit, random),
        _ => 1 + pick(limit.min(8), random),
    }
}

/// The size of blocks: mostly a few bytes, at times at the limits of what is handled at once.
fn block_size(random: &mut Random) -> usize {
    match random.below(200) {
        0 => [4095, 4096][pick(2, random)],
        1..=3 => [63, 64, 65, 127, 128, 129, 200, 513][pick(8, random)],
        4..=9 => 1 + pick(40, random),
        _ => 1 + pick(3, random),
    }
}

/// Random measures, of either layout and with either count of parities: a log and a list with room for one block, for a
/// stripe, for some, or for all.
pub fn measures(random: &mut Random) -> Measures {
    let b = block_size(random);
    let d = match random.below(9) {
        0 => 16,
        1 | 2 => 2 + pick(15, random),
        _ => 2 + pick(4, random),
    };
    let most = if b > 100 { 2 } else { 1 + [1, 2, 4, 12, 40][pick(5, random)] };
    let s = 1 + pick(most, random);
    let rooms = [1, d, 3 * d, d * s, 2 * d * s, 4 * d * s];
    let l = up_to(rooms[pick(6, random)], random);
    let e = up_to(rooms[pick(6, random)], random).min(4096);
    let h = if random.below(4) == 0 { 1 + pick(256, random) } else { [1, 2, d, 7, 256][pick(5, random)] };
    Measures { d, s, b, l: l.min(65536), h, e, layout: pick(2, random), parities: 1 + pick(2, random) }
}

/// A member to fail: the log, one that has a parity of a stripe with a listed block or a block that is listed with an
/// Ori only, any other one, one that is no member or has failed already.
fn member(shelf: &Shelf, random: &mut Random) -> usize {
    let m = shelf.record.measures;
    let entries = List::of(m, &shelf.list.bytes).entries();
    let listed: Vec<usize> = entries.keys().copied().collect();
    let in_ori: Vec<usize> = listed.iter().copied().filter(|at| entries[at][1] == NONE).collect();
    let some_of = |address: usize, role: usize| roles::members(m, address / m.d)[role];
    match (random.below(12), one_of(&listed, random), one_of(&in_ori, random)) {
        (0, ..) => records::above(m.log(), random),
        (1..=3, ..) => m.log(),
        (4..=6, Some(address), _) => some_of(address, m.d + pick(m.parities, random)),
        (7 | 8, _, Some(address)) => some_of(address, address % m.d),
        _ => pick(m.log(), random),
    }
}

/// A member to put back: mostly one that has failed, the log too; else any, or one that is none of the array.
fn member_back(shelf: &Shelf, random: &mut Random) -> usize {
    let log = shelf.record.measures.log();
    match (random.below(8), one_of(&shelf.failed(), random)) {
        (0, _) => records::above(log - 1, random),
        (1, _) | (_, None) => pick(log, random),
        (_, Some(member)) => member,
    }
}

/// How often each call is made in the record's condition: start, fail, put back, new log, write, read, fetch, resync,
/// rebuild, full resync. A busy shelf has few failures, a poor one many.
fn weights(r: &Record, busy: bool) -> [u64; 10] {
    let array_failed = r.failed[..r.measures.log()].contains(&1);
    let fails = if busy { 1 } else { 6 };
    match (array_failed, r.mode) {
        (true, _) => [1, 4, 4, 2, 2, 14, 14, 1, if busy { 8 } else { 3 }, 1],
        (false, 0) => [14, fails, 1, if r.failed.contains(&1) { 8 } else { 1 }, 6, 3, 3, 1, 1, 1],
        (false, 1) => [1, fails, 1, 1, 24, 3, 4, if busy { 1 } else { 3 }, 1, u64::from(!busy)],
        (false, _) => [1, 3 + fails, 1, 1, 5, 4, 4, 5, 1, 1],
    }
}

/// A request: anywhere and at times wrong; right in a stripe with a listed block; or right at a block on a failed member
/// that is listed with an Ori only.
fn request(shelf: &Shelf, random: &mut Random) -> Request {
    let m = shelf.record.measures;
    let entries = List::of(m, &shelf.list.bytes).entries();
    let is_lost = |address: usize| shelf.record.failed[roles::members(m, address / m.d)[address % m.d]] != 0;
    let listed: Vec<usize> = entries.keys().copied().collect();
    let in_ori: Vec<usize> = listed.iter().copied().filter(|at| entries[at][1] == NONE && is_lost(*at)).collect();
    match (one_of(&in_ori, random), one_of(&listed, random)) {
        (Some(address), _) if random.below(2) == 0 => requests::at(address, m, random),
        (_, Some(address)) if random.below(3) == 0 => requests::at(address / m.d * m.d + pick(m.d, random), m, random),
        _ => requests::some(m, 1, random),
    }
}

/// The next call, with the caller's data.
pub fn next_call(shelf: &Shelf, busy: bool, random: &mut Random) -> (Call, Buffer) {
    let (m, weights) = (shelf.record.measures, weights(&shelf.record, busy));
    let (mut at, mut left) = (0, random.below(weights.iter().sum()));
    while left >= weights[at] {
        left -= weights[at];
        at += 1;
    }
    let kinds: [fn(usize, usize) -> Call; 3] = [write, read, fetch];
    let call = match at {
        0 => Call::Start,
        1 => Call::Fail(member(shelf, random)),
        2 => Call::PutBack(member_back(shelf, random)),
        3 => Call::NewLog,
        4..=6 => {
            let request = request(shelf, random);
            return (request.call(kinds[at - 4]), request.data(m, random));
        }
        7 => Call::Resync,
        8 => Call::Rebuild,
        _ => Call::FullResync,
    };
    (call, Buffer::empty())
}

/// Has a write store what is there already.
fn same_again(call: Call, book: &Book, data: &mut Buffer) {
    if let Call::Write { address, .. } = call {
        if book.number(call, data.told) == 0 {
            let blocks = data.bytes.len() / book.block(address).len();
            data.bytes = (address..address + blocks).flat_map(|address| book.block(address)).copied().collect();
        }
    }
}

/// Changes bytes of the failed members: all of them, a few, or none.
fn garble(shelf: &mut Shelf, random: &mut Random) {
    for member in shelf.failed() {
        let bytes = shelf.member(member);
        match random.below(4) {
            0 => random.fill(bytes),
            1 => {
                let at = pick(bytes.len(), random);
                bytes[at] = random.next() as u8;
            }
            2 => bytes.fill(0),
            _ => {}
        }
    }
}

/// Makes a call on the shelf with its list arranged in another way that says the same. Fails unless it gets 3, or is
/// full resync, which does not look at the list. Hands back the number; none where no other arrangement was found.
fn rearranged(call: Call, shelf: &Shelf, stand: &mut Stand, random: &mut Random) -> Result<Option<usize>, String> {
    let (mut shelf, m) = (shelf.clone(), shelf.record.measures);
    let entries = List::of(m, &shelf.list.bytes).entries();
    let bytes = lists::shuffled(m, &entries, random).bytes();
    if bytes == shelf.list.bytes {
        return Ok(None);
    }
    shelf.list.bytes = bytes;
    match stand.as_model(call, &shelf)?.code() {
        code if code == 3 || call == Call::FullResync => Ok(Some(code)),
        code => Err(format!("the list is in another arrangement, but {call:?} answers {code}; the shelf: {shelf}")),
    }
}

/// Resyncs a shelf without failed array members to the end: as many calls as stripes wait, and no fewer.
pub fn resynced(pair: &mut Pair, stand: &mut Stand) -> Result<(), String> {
    let waiting = pair.book.awaiting();
    for left in (0..waiting).rev() {
        let code = pair.step(Call::Resync, Buffer::empty(), stand)?;
        if code != 0 || (pair.shelf.record.mode == 0) != (left == 0) {
            return Err(format!("of {waiting} resyncs {left} are left, {code} was given; the shelf: {}", pair.shelf));
        }
    }
    Ok(())
}

/// Puts a failed member of the array back, if there is one, with other bytes than it had when it was reported, and
/// makes some calls after it. Fails unless they do as the model does, with the numbers, counts, members and marks of
/// the book. Hands back whether there was such a member.
fn unlike(pair: &mut Pair, busy: bool, stand: &mut Stand, random: &mut Random) -> Result<bool, String> {
    let log = pair.shelf.record.measures.log();
    let failed: Vec<usize> = pair.shelf.failed().into_iter().filter(|&member| member < log).collect();
    let Some(member) = one_of(&failed, random) else {
        return Ok(false);
    };
    random.fill(pair.shelf.member(member));
    if !pair.is_changed(member) {
        pair.shelf.member(member)[0] ^= 1;
    }
    pair.numbered(Call::PutBack(member), Buffer::empty(), stand)?;
    for _ in 0..pick(LAST, random) {
        garble(&mut pair.shelf, random);
        let (call, data) = next_call(&pair.shelf, busy, random);
        pair.numbered(call, data, stand)?;
    }
    Ok(true)
}

/// What the sequences of a layout and a count of parities came through: each call by number, how many of each kind were
/// refused for the arrangement of the list, how often each member was noted as failed, and put back, with d 2 and with
/// d 16, and how many were put back after their bytes had changed and were given back, and with other bytes.
#[derive(Default)]
struct Counts {
    given: [[usize; CODES]; CALLS],
    rearranged: [usize; CALLS],
    noted: [[[usize; 19]; 2]; 2],
    returned: usize,
    unlike: usize,
}

impl Counts {
    /// Counts a call on a shelf of so many data disks: each member that is noted as failed or put back where d is the
    /// least or the greatest.
    fn count(&mut self, d: usize, call: Call, code: usize) {
        self.given[tally::index(call)][code] += 1;
        match (call, [2, 16].iter().position(|&limit| limit == d), code) {
            (Call::Fail(member), Some(at), 0) => self.noted[0][at][member] += 1,
            (Call::PutBack(member), Some(at), 0) => self.noted[1][at][member] += 1,
            _ => {}
        }
    }

    /// How often a call got a number.
    fn times(&self, call: Call, code: usize) -> usize {
        self.given[tally::index(call)][code]
    }

    /// Counts a call on a list in another arrangement.
    fn count_rearranged(&mut self, call: Call, code: Option<usize>) {
        self.rearranged[tally::index(call)] += usize::from(code == Some(3));
    }

    /// Fails unless each call but format was accepted and got each number from 4 on that it can answer with so many
    /// parities, each so many times, and no other; each call that tests the list got 3 for its arrangement; members
    /// were put back with the bytes that they had and with others; and each was noted as failed, and put back.
    fn complete(&self, parities: usize, at_least: usize) -> Result<(), String> {
        let tests_list = |call: usize| tally::answers(call, 3, parities);
        if let Some(call) = (0..CALLS).find(|&call| tests_list(call) && self.rearranged[call] < at_least) {
            let (name, count) = (tally::name(call), self.rearranged[call]);
            return Err(format!("{name} was refused {count} times for the arrangement of the list, not {at_least}"));
        }
        let format = tally::index(Call::Format);
        for (call, code) in (0..CALLS).flat_map(|call| (0..CODES).map(move |code| (call, code))) {
            let can_be = call != format && (code == 0 || code > 3 && tally::answers(call, code, parities));
            let (name, count, due) = (tally::name(call), self.given[call][code], if can_be { at_least } else { 0 });
            if count < due || count > 0 && !can_be {
                return Err(format!("{name} got {code} {count} times, not {due}"));
            }
        }
        if self.returned.min(self.unlike) < at_least {
            let counts = [self.returned, self.unlike];
            return Err(format!("{counts:?} members were put back as they were and with other bytes, not {at_least}"));
        }
        self.all_noted(parities)
    }

    /// Fails unless each member was noted as failed, the log too, each was put back, the log not, and no other was,
    /// with d 2 and with d 16.
    fn all_noted(&self, parities: usize) -> Result<(), String> {
        for ((calls, noted), what) in self.noted.iter().enumerate().zip(["noted as failed", "put back"]) {
            for (d, noted) in [2, 16].into_iter().zip(noted) {
                let is_due = |member: usize| member + calls <= d + parities;
                if let Some(member) = (0..19).find(|&member| (noted[member] > 0) != is_due(member)) {
                    return Err(format!("with d {d} member {member} was {what} {} times", noted[member]));
                }
            }
        }
        Ok(())
    }
}

/// Makes one sequence; its calls are counted by its layout and its parities.
fn sequence(stand: &mut Stand, counts: &mut [[Counts; 2]; 2], random: &mut Random) -> Result<(), String> {
    let m = measures(random);
    let counts = &mut counts[m.layout][m.parities - 1];
    let mut pair = Pair::fresh(m, random.next() as u8, stand)?;
    let (is_busy, is_small) = (random.below(2) == 0, pair.shelf.array.told <= SMALL);
    for _ in 0..pick(LONGEST, random) {
        garble(&mut pair.shelf, random);
        let (call, mut data) = next_call(&pair.shelf, is_busy, random);
        pair.shelf.data = data.clone();
        if random.below(4) == 0 {
            counts.count_rearranged(call, rearranged(call, &pair.shelf, stand, random)?);
        }
        reads::compare(call, &pair.shelf, stand, random)?;
        if random.below(8) == 0 {
            same_again(call, &pair.book, &mut data);
        }
        counts.returned += usize::from(matches!(call, Call::PutBack(member) if pair.is_changed(member)));
        let before = pair.shelf.record;
        let code = pair.step(call, data, stand)?;
        counts.count(m.d, call, code);
        if is_small || random.below(16) == 0 {
            pair.holds()?;
        }
        if code == 0 && random.below(4) == 0 {
            pair.takes_back(call, &before, stand)?;
        }
    }
    if random.below(4) == 0 && unlike(&mut pair, is_busy, stand, random)? {
        counts.unlike += 1;
        return Ok(());
    }
    if !pair.shelf.record.failed[..m.log()].contains(&1) {
        resynced(&mut pair, stand)?;
    }
    pair.holds()
}

/// Makes the random sequences.
pub fn group(seed: u64) -> Outcome {
    let random = &mut Random::new(seed, 8);
    let (mut stand, mut counts) = (Stand::default(), <[[Counts; 2]; 2]>::default());
    for _ in 0..SEQUENCES {
        sequence(&mut stand, &mut counts, random)?;
    }
    for (layout, parities) in [(0, 1), (0, 2), (1, 1), (1, 2)] {
        let fault = |fault| format!("layout {layout}, parities {parities}: {fault}");
        counts[layout][parities - 1].complete(parities, 20).map_err(fault)?;
    }
    let sum = |of: fn(&Counts) -> usize| counts.iter().flatten().map(of).sum::<usize>();
    let least = stand.seen.complete(10)?;
    Ok(format!(
        "{} calls in {SEQUENCES} sequences of both layouts and both counts of parities as the model and the book have \
         them, {} accepted, {} plain reads of lost blocks refused, {} fetches and {} rebuilds withheld, none with one \
         parity, {} refused for the arrangement of the list; {} members put back, {} of them after their bytes had \
         changed and were given back, and {} more with other bytes; each plain read as it goes with a fetch; each way \
         of their work {least} times at least; seed {seed}",
        stand.calls,
        sum(|counts| counts.given.iter().map(|codes| codes[0]).sum()),
        sum(|counts| counts.times(read(0, 0), 16)),
        sum(|counts| counts.times(fetch(0, 0), 14)),
        sum(|counts| counts.times(Call::Rebuild, 14)),
        sum(|counts| counts.rearranged.iter().sum()),
        sum(|counts| counts.times(Call::PutBack(0), 0)),
        sum(|counts| counts.returned),
        sum(|counts| counts.unlike)
    ))
}
