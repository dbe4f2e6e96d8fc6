//! Calls that are cut short, and the ways back from them. A cut is made by mixing: each byte of the array, the log and
//! the list is one that it had before the call or has after it, at random, block by block, or up to a stripe. The
//! driver has the record from before the call and, where a way back asks for it, the list. What is left after the way
//! back is compared with the book's blocks from before and after.

use std::cmp::Ordering;
use std::collections::BTreeMap;

use super::sequences;
use super::trails::Kind::{self, *};
use super::trails::{budget, member_of, reached, some_members, trail, Trail, KINDS};
use crate::random::Random;
use crate::shelf::harness::calls::{fetch, write, Buffer, Call, Measures, Record, Shelf};
use crate::shelf::harness::lists::pick;
use crate::shelf::harness::pair::Pair;
use crate::shelf::harness::stand::Stand;
use crate::shelf::model::book::Book;
use crate::shelf::model::roles;
use crate::Outcome;

/// How many shelves there are, on each of which a call of every kind is cut.
const SHELVES: usize = 2_000;

/// How often each kind of cut is due, by layout, parities, mode and whether the log has failed.
const AT_LEAST: usize = 5;

/// Each byte from one of the buffers, which are of the same length.
fn mixed_bytes(states: &[&[u8]], random: &mut Random) -> Vec<u8> {
    (0..states[0].len()).map(|at| states[pick(states.len(), random)][at]).collect()
}

/// Each byte of an array from one of the arrays: any, one for each block, or the last below a stripe, any in it and
/// the first above it.
fn mixed_array(m: Measures, states: &[&[u8]], random: &mut Random) -> Vec<u8> {
    let (first, last) = (states[0], states[states.len() - 1]);
    match random.below(3) {
        0 => mixed_bytes(states, random),
        1 => {
            let blocks = (0..first.len()).step_by(m.b);
            blocks.flat_map(|at| &states[pick(states.len(), random)][at..at + m.b]).copied().collect()
        }
        _ => {
            let (any, stripe) = (mixed_bytes(states, random), pick(m.s, random));
            let from = |at: usize| match (at / m.b % m.s).cmp(&stripe) {
                Ordering::Less => last,
                Ordering::Equal => &any,
                Ordering::Greater => first,
            };
            (0..first.len()).map(|at| from(at)[at]).collect()
        }
    }
}

/// The shelf that a cut leaves of a trail, a shelf before some calls and after each of them: the record from before,
/// all bytes mixed.
fn cut(trail: &[Pair], random: &mut Random) -> Shelf {
    let mut shelf = trail[0].shelf.clone();
    let of = |buffer: fn(&Shelf) -> &Buffer| -> Vec<&[u8]> {
        trail.iter().map(|pair| buffer(&pair.shelf).bytes.as_slice()).collect()
    };
    shelf.array.bytes = mixed_array(shelf.record.measures, &of(|shelf| &shelf.array), random);
    shelf.log.bytes = mixed_bytes(&of(|shelf| &shelf.log), random);
    shelf.list.bytes = mixed_bytes(&of(|shelf| &shelf.list), random);
    shelf
}

/// A shelf as a cut left it, beside the book of its data blocks as they stand. Its record is the one from before, or one
/// of which the geometry and the log's flag alone are known.
fn as_found(mut shelf: Shelf, random: &mut Random) -> Pair {
    let Record { measures: m, mut failed, .. } = shelf.record;
    let mut book = Book::fresh(m);
    failed[..m.log()].fill(0);
    if random.below(2) == 0 {
        shelf.record = Record { measures: m, mode: 0, next: 0, listed: 0, failed };
    }
    if failed[m.log()] != 0 {
        book.enter(Call::Fail(m.log()), &[]);
    }
    let mut pair = Pair::of(shelf, book);
    let blocks: Vec<u8> = (0..m.d * m.s).flat_map(|address| block(&pair, address).to_vec()).collect();
    pair.book.enter(write(0, m.d * m.s), &blocks);
    pair
}

/// A data block as it stands in the array.
fn block(pair: &Pair, address: usize) -> &[u8] {
    let m = pair.shelf.record.measures;
    pair.stored(member_of(m, address), address / m.d)
}

/// Whether each byte of a block is one that the block had on the trail.
fn is_of(trail: &[Pair], address: usize, block: &[u8]) -> bool {
    (0..block.len()).all(|at| trail.iter().any(|pair| pair.book.block(address)[at] == block[at]))
}

/// The full resync of a shelf as it is found. Fails unless it is accepted and stores parity alone.
fn resynced(shelf: Shelf, stand: &mut Stand, random: &mut Random) -> Result<Pair, String> {
    let mut pair = as_found(shelf, random);
    pair.accepted(Call::FullResync, Buffer::empty(), stand)?;
    pair.holds()?;
    Ok(pair)
}

/// The way back by a full resync. Fails unless each byte of every data block is one that it had on the trail, so that
/// a block that was not written is as it was; and unless then as many members as may fail can be lost and rebuilt.
fn by_full_resync(trail: &[Pair], stand: &mut Stand, random: &mut Random) -> Result<(), String> {
    let mut pair = resynced(cut(trail, random), stand, random)?;
    let m = pair.shelf.record.measures;
    if let Some(address) = (0..m.d * m.s).find(|&address| !is_of(trail, address, block(&pair, address))) {
        return Err(format!("block {address} has bytes that it never had; the shelf: {}", pair.shelf));
    }
    let lost = some_members(&pair, budget(&pair.shelf.record), random);
    if lost.is_empty() {
        return Ok(());
    }
    for &member in &lost {
        pair.accepted(Call::Fail(member), Buffer::empty(), stand)?;
    }
    pair.spoil();
    let data = Buffer::of(vec![231; m.d * m.s * m.b]);
    pair.accepted(fetch(0, m.d * m.s), data, stand)?;
    pair.accepted(Call::Rebuild, Buffer::empty(), stand)?;
    pair.holds()
}

/// Makes a call that the model accepts; hands back its number, and hands the shelf on.
fn made(call: Call, shelf: &mut Shelf, stand: &mut Stand) -> Result<usize, String> {
    shelf.data = Buffer::empty();
    let code = stand.as_model(call, shelf)?.code();
    stand.hand_on(shelf);
    Ok(code)
}

/// Notes the failure of a member. Fails unless it is accepted.
fn note(member: usize, shelf: &mut Shelf, stand: &mut Stand) -> Result<(), String> {
    match made(Call::Fail(member), shelf, stand)? {
        0 => Ok(()),
        code => Err(format!("the failure of {member} gets {code}; the shelf: {shelf}")),
    }
}

/// The way back where members fail besides: their failures with record and list from before the call, a rebuild, and a
/// full resync. Hands back how many blocks are lost; none where the rebuild is withheld. Fails unless these are blocks
/// of those members in the stripes that the calls store into, and unlisted ones where there is no write among them.
fn with_failures(trail: &Trail, stand: &mut Stand, random: &mut Random) -> Result<Option<usize>, String> {
    let Trail { states, stored, has_write, .. } = trail;
    let mut shelf = Shelf { list: states[0].shelf.list.clone(), ..cut(states, random) };
    let count = 1 + pick(budget(&shelf.record), random);
    let failed = some_members(&states[0], count, random);
    for &member in &failed {
        note(member, &mut shelf, stand)?;
    }
    let mut pair = Pair::of(shelf, states[0].book.clone());
    pair.spoil();
    match made(Call::Rebuild, &mut pair.shelf, stand)? {
        0 => {}
        14 if pair.shelf.record.failed[pair.shelf.record.measures.log()] != 0 => return Ok(None),
        code => return Err(format!("the rebuild gets {code}; the shelf: {}", pair.shelf)),
    }
    let (pair, mut lost) = (resynced(pair.shelf, stand, random)?, 0);
    let m = pair.shelf.record.measures;
    let may_be_lost = |address: usize| {
        let is_open = *has_write || !states[0].book.marks().contains(&address);
        is_open && stored.contains(&(address / m.d)) && failed.contains(&member_of(m, address))
    };
    for address in (0..m.d * m.s).filter(|&address| !is_of(states, address, block(&pair, address))) {
        if !may_be_lost(address) {
            return Err(format!("{address} is lost with {failed:?} of {stored:?}; the shelf: {}", pair.shelf));
        }
        lost += 1;
    }
    Ok(Some(lost))
}

/// Whether a rebuild that is cut and repeated may lose a block of a stripe: the stripe is stale, has a parity on a
/// failed member, and an unlisted data block on another.
fn may_lose(pair: &Pair, stripe: usize) -> bool {
    let Record { measures: m, failed, .. } = pair.shelf.record;
    let members = roles::members(m, stripe);
    let is_lost = |index: usize| failed[members[index]] != 0 && !pair.book.marks().contains(&(stripe * m.d + index));
    let parity_failed = members[m.d..].iter().any(|&member| failed[member] != 0);
    pair.book.awaits(stripe) && parity_failed && (0..m.d).any(is_lost)
}

/// The stripes in which two arrays differ.
fn differing(m: Measures, one: &[u8], other: &[u8]) -> Vec<usize> {
    let blocks = |stripe: usize| (0..m.log()).map(move |member| (member * m.s + stripe) * m.b);
    let differs = |at: usize| one[at..at + m.b] != other[at..at + m.b];
    (0..m.s).filter(|&stripe| blocks(stripe).any(differs)).collect()
}

/// A shelf with the parity of the stale stripes as it was before.
fn with_parity(before: &Pair, mut shelf: Shelf) -> Shelf {
    let m = shelf.record.measures;
    let of = |stripe: usize| roles::members(m, stripe).into_iter().skip(m.d).map(move |member| (member, stripe));
    for (member, stripe) in (0..m.s).filter(|&stripe| before.book.awaits(stripe)).flat_map(of) {
        let at = (member * m.s + stripe) * m.b;
        shelf.array.bytes[at..at + m.b].copy_from_slice(before.stored(member, stripe));
    }
    shelf
}

/// A rebuild that is cut and repeated with record and list from before it: what it leaves must be what the whole one
/// left, but in the stripes that may lose a block. Hands back how many such stripes there are, and how many differ.
/// Where the parity of the stale stripes is put back before it is repeated, nothing differs.
fn repeated(trail: &[Pair], stand: &mut Stand, random: &mut Random) -> Result<[usize; 2], String> {
    let [before, after] = [&trail[0], &trail[1]];
    let m = before.shelf.record.measures;
    let mut again = Shelf { list: before.shelf.list.clone(), ..cut(trail, random) };
    let mut put_back = with_parity(before, again.clone());
    let numbers = [made(Call::Rebuild, &mut again, stand)?, made(Call::Rebuild, &mut put_back, stand)?];
    let rest = |shelf: &Shelf| (shelf.record, shelf.log.clone(), shelf.list.clone());
    let is_rest = rest(&again) == rest(&after.shelf) && rest(&put_back) == rest(&after.shelf);
    if numbers != [0, 0] || !is_rest || put_back.array != after.shelf.array {
        return Err(format!("a repeated rebuild is another one; before it the shelf was {}", before.shelf));
    }
    let differ = differing(m, &again.array.bytes, &after.shelf.array.bytes);
    match differ.iter().find(|&&stripe| !may_lose(before, stripe)) {
        Some(stripe) => Err(format!("a repeated rebuild has another stripe {stripe}; before it: {}", before.shelf)),
        None => Ok([(0..m.s).filter(|&stripe| may_lose(before, stripe)).count(), differ.len()]),
    }
}

/// A rebuild that is cut, and repeated after one member more has failed: every data block must be the last one
/// written, but in the stripes that may lose a block. Hands back how many are lost.
fn with_another(trail: &[Pair], stand: &mut Stand, random: &mut Random) -> Result<usize, String> {
    let shelf = Shelf { list: trail[0].shelf.list.clone(), ..cut(trail, random) };
    let mut pair = Pair::of(shelf, trail[0].book.clone());
    let m = pair.shelf.record.measures;
    let member = some_members(&pair, 1, random)[0];
    note(member, &mut pair.shelf, stand)?;
    pair.shelf.member(member).fill(231);
    let may: Vec<bool> = (0..m.s).map(|stripe| may_lose(&pair, stripe)).collect();
    if made(Call::Rebuild, &mut pair.shelf, stand)? != 0 {
        return Err(format!("the rebuild is refused; before it the shelf was {}", trail[0].shelf));
    }
    let lost: Vec<usize> = (0..m.d * m.s).filter(|&a| block(&pair, a) != pair.book.block(a)).collect();
    match lost.iter().find(|&&address| !may[address / m.d]) {
        Some(address) => Err(format!("block {address} is lost; before it the shelf was {}", trail[0].shelf)),
        None => Ok(lost.len()),
    }
}

/// How many cuts there were, by layout, parities, kind, mode and whether the log had failed. Then by layout and the
/// parities less one: how many blocks were lost because members failed besides; and how many stripes may lose a block
/// in a repeated rebuild, and did. Then how many blocks were lost where one member more failed before it was repeated.
#[derive(Default)]
struct Counts {
    cuts: BTreeMap<(usize, usize, Kind, usize, bool), usize>,
    lost: [[usize; 2]; 2],
    repeated: [[[usize; 2]; 2]; 2],
    besides: usize,
}

impl Counts {
    /// Fails unless there were so many cuts of each kind that can be, blocks were lost and stripes differed where that
    /// can be, and none where it can't. Hands back the least count of a kind.
    fn complete(&self) -> Result<usize, String> {
        let mut least = usize::MAX;
        for at in 0..KINDS.len() * 24 {
            let (layout, parities, mode, log_failed) = (at % 2, 1 + at / 2 % 2, at / 4 % 3, at / 12 % 2 == 1);
            let kind = KINDS[at / 24];
            let count = self.cuts.get(&(layout, parities, kind, mode, log_failed)).copied().unwrap_or(0);
            if kind.can_be(parities, mode, log_failed) && count < AT_LEAST {
                let of = format!("layout {layout}, parities {parities}, mode {mode}, log failed {log_failed}");
                return Err(format!("{count} cuts of {kind:?} with {of}, not {AT_LEAST}"));
            }
            least = if kind.can_be(parities, mode, log_failed) { least.min(count) } else { least };
        }
        let is_real = |counts: [usize; 2]| counts.iter().all(|&count| count >= AT_LEAST);
        let is_right = |[one, two]: [[usize; 2]; 2]| one == [0, 0] && is_real(two);
        if self.besides < AT_LEAST || !self.lost.into_iter().all(is_real) || !self.repeated.into_iter().all(is_right) {
            return Err(format!("{:?} blocks lost, {:?} stripes of repeated rebuilds", self.lost, self.repeated));
        }
        Ok(least)
    }
}

/// Cuts a call of a kind, and takes the way back.
fn tried(kind: Kind, pair: &Pair, stand: &mut Stand, counts: &mut Counts, random: &mut Random) -> Result<(), String> {
    let Some(trail) = trail(kind, pair, stand, random)? else {
        return Ok(());
    };
    let states = &trail.states;
    let Record { measures: m, mode, failed, .. } = states[0].shelf.record;
    match kind {
        Write | Resync | FullResync | Several => by_full_resync(states, stand, random)?,
        FailingWrite | FailingResync | FailingFullResync | FailingSeveral => {
            match with_failures(&trail, stand, random)? {
                Some(lost) => counts.lost[m.layout][m.parities - 1] += lost,
                None => return Ok(()),
            }
        }
        Rebuild => {
            let [may_lose, differ] = repeated(states, stand, random)?;
            let sums = &mut counts.repeated[m.layout][m.parities - 1];
            *sums = [sums[0] + may_lose, sums[1] + differ];
        }
        FailingRebuild => counts.besides += with_another(states, stand, random)?,
    }
    *counts.cuts.entry((m.layout, m.parities, kind, mode, failed[m.log()] != 0)).or_default() += 1;
    Ok(())
}

/// Makes the cuts.
pub fn group(seed: u64) -> Outcome {
    let random = &mut Random::new(seed, 12);
    let (mut stand, mut counts) = (Stand::default(), Counts::default());
    for _ in 0..SHELVES {
        let pair = reached(sequences::measures(random), &mut stand, random)?;
        for kind in KINDS.into_iter().chain([Rebuild; 2]) {
            tried(kind, &pair, &mut stand, &mut counts, random).map_err(|fault| format!("{kind:?}: {fault}"))?;
        }
    }
    let least = counts.complete()?;
    let [may_lose, differ] = [0, 1].map(|at| counts.repeated[0][1][at] + counts.repeated[1][1][at]);
    Ok(format!(
        "{} cuts of writes, resyncs and rebuilds on {SHELVES} shelves, each kind {least} times at least by layout, \
         parities, mode and log; no block but those of a cut write has changed after a full resync; where members fail \
         besides, {} of their blocks in stripes stored into are lost, and no other; a repeated rebuild leaves what the \
         whole one left, but in {differ} of {may_lose} stripes that are stale and have parity and an unlisted block on \
         failed members, and {} blocks of such where one member more fails; {} calls; seed {seed}",
        counts.cuts.values().sum::<usize>(),
        counts.lost.iter().flatten().sum::<usize>(),
        counts.besides,
        stand.calls
    ))
}
