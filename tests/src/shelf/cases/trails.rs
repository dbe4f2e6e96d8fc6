//! Trails: a shelf that a random sequence of calls reached, before a call that is to be cut and after it, or after
//! each of some calls.

use std::collections::BTreeSet;

use super::sequences;
use crate::random::Random;
use crate::shelf::harness::calls::{write, Buffer, Call, Measures, Record};
use crate::shelf::harness::lists::{one_of, pick};
use crate::shelf::harness::pair::Pair;
use crate::shelf::harness::requests;
use crate::shelf::harness::stand::Stand;
use crate::shelf::model::roles;

/// The most calls that lead to a shelf before the last few.
const LONGEST: usize = 24;

/// What is cut: a call, some one after another, or a call while members fail.
#[derive(Clone, Copy, Debug, PartialEq, Eq, PartialOrd, Ord)]
pub enum Kind {
    Write,
    Resync,
    FullResync,
    Several,
    FailingWrite,
    FailingResync,
    FailingFullResync,
    FailingSeveral,
    Rebuild,
    FailingRebuild,
}

use Kind::*;

/// All kinds.
pub const KINDS: [Kind; 10] = [
    Write,
    Resync,
    FullResync,
    Several,
    FailingWrite,
    FailingResync,
    FailingFullResync,
    FailingSeveral,
    Rebuild,
    FailingRebuild,
];

impl Kind {
    /// Whether array members are failed when the way back is taken.
    fn has_failures(self) -> bool {
        !matches!(self, Write | Resync | FullResync | Several)
    }

    /// Whether a cut of this kind can be on a shelf with so many parities, in this mode, with the log failed or not.
    pub fn can_be(self, parities: usize, mode: usize, log_failed: bool) -> bool {
        let is_accepted = mode != 0 || !matches!(self, Resync | FailingResync);
        let is_noted = self != FailingRebuild || parities == 2 && !log_failed;
        is_accepted && is_noted && !(log_failed && mode == 1) && !(log_failed && parities == 1 && self.has_failures())
    }
}

/// The member that has a block.
pub fn member_of(m: Measures, address: usize) -> usize {
    roles::members(m, address / m.d)[address % m.d]
}

/// How many more array members may fail.
pub fn budget(record: &Record) -> usize {
    record.measures.parities - record.failed.iter().filter(|&&flag| flag != 0).count()
}

/// So many sound array members, at times such as have a parity of a stripe with a listed block.
pub fn some_members(pair: &Pair, count: usize, random: &mut Random) -> Vec<usize> {
    let (m, marks) = (pair.shelf.record.measures, pair.book.marks().iter().copied().collect::<Vec<usize>>());
    let mut members: Vec<usize> = (0..m.log()).filter(|&member| pair.shelf.record.failed[member] == 0).collect();
    let mut chosen = Vec::new();
    for _ in 0..count {
        let parity = one_of(&marks, random).map(|mark| roles::members(m, mark / m.d)[m.d + pick(m.parities, random)]);
        let wanted = parity.filter(|member| random.below(2) == 0 && members.contains(member));
        let member = wanted.unwrap_or_else(|| members[pick(members.len(), random)]);
        members.retain(|&other| other != member);
        chosen.push(member);
    }
    chosen
}

/// A shelf that a random sequence of calls reached, which end at times with writes that are put off.
pub fn reached(m: Measures, stand: &mut Stand, random: &mut Random) -> Result<Pair, String> {
    let (mut pair, is_busy) = (Pair::fresh(m, random.next() as u8, stand)?, random.below(4) != 0);
    for _ in 0..pick(LONGEST, random) {
        let (call, data) = sequences::next_call(&pair.shelf, is_busy, random);
        pair.step(call, data, stand)?;
        pair.spoil();
    }
    pair.step(if random.below(2) == 0 { Call::Start } else { Call::NewLog }, Buffer::empty(), stand)?;
    for _ in 0..pick(5, random) {
        let (call, data) = call_of(Write, m, random);
        pair.step(call, data, stand)?;
    }
    Ok(pair)
}

/// Whether an array member has failed.
fn array_failed(pair: &Pair) -> bool {
    let m = pair.shelf.record.measures;
    pair.shelf.record.failed[..m.log()].contains(&1)
}

/// A right call of a kind, with its data.
fn call_of(kind: Kind, m: Measures, random: &mut Random) -> (Call, Buffer) {
    let kind = match kind {
        Several | FailingSeveral if random.below(4) == 0 => return (Call::Start, Buffer::empty()),
        Several => [Write, Write, Resync, FullResync][pick(4, random)],
        FailingSeveral => [Write, Write, Resync][pick(3, random)],
        _ => kind,
    };
    match kind {
        Resync | FailingResync => (Call::Resync, Buffer::empty()),
        FullResync | FailingFullResync => (Call::FullResync, Buffer::empty()),
        Rebuild | FailingRebuild => (Call::Rebuild, Buffer::empty()),
        _ => {
            let request = requests::at(pick(m.d * m.s, random), m, random);
            (request.call(write), request.data(m, random))
        }
    }
}

/// Leads a shelf to where calls of a kind may be made, in another mode or without its log at times: for a rebuild
/// members fail, for all else they are rebuilt.
fn lead(kind: Kind, pair: &mut Pair, stand: &mut Stand, random: &mut Random) -> Result<(), String> {
    if kind != Rebuild && array_failed(pair) {
        pair.step(Call::Rebuild, Buffer::empty(), stand)?;
    }
    let log = pair.shelf.record.measures.log();
    let call = match random.below(8) {
        0 | 1 => Some(Call::Fail(log)),
        2..=5 => Some(Call::Resync),
        6 => Some(Call::Start),
        _ => None,
    };
    if let Some(call) = call.filter(|_| !array_failed(pair)) {
        pair.step(call, Buffer::empty(), stand)?;
    }
    let most = match kind {
        Rebuild => budget(&pair.shelf.record),
        FailingRebuild => budget(&pair.shelf.record).min(1),
        _ => 0,
    };
    let least = if array_failed(pair) { 0 } else { most.min(1) };
    for member in some_members(pair, least + pick(most - least + 1, random), random) {
        pair.step(Call::Fail(member), Buffer::empty(), stand)?;
    }
    pair.spoil();
    Ok(())
}

/// A shelf before some calls and after each of them, the last call, the stripes in which they store other bytes than
/// there were, and whether one of them is a write. The data of a call is with the shelf after it.
pub struct Trail {
    pub states: Vec<Pair>,
    pub call: Call,
    pub stored: BTreeSet<usize>,
    pub has_write: bool,
}

/// The trail of a call of a kind, or of those of some calls that are accepted. None where none is, or the way back from
/// such a cut can't be.
pub fn trail(kind: Kind, pair: &Pair, stand: &mut Stand, random: &mut Random) -> Result<Option<Trail>, String> {
    let mut trail = Trail { states: vec![pair.clone()], call: Call::Format, stored: BTreeSet::new(), has_write: false };
    lead(kind, &mut trail.states[0], stand, random)?;
    let mut next = trail.states[0].clone();
    let Record { measures: m, mode, failed, .. } = next.shelf.record;
    if !kind.can_be(m.parities, mode, failed[m.log()] != 0) {
        return Ok(None);
    }
    for _ in 0..if matches!(kind, Several | FailingSeveral) { 2 + pick(5, random) } else { 1 } {
        let (call, data) = call_of(kind, m, random);
        if next.book.number(call, data.told) != 0 {
            continue;
        }
        let stale = next.book.marks().iter().map(|mark| mark / m.d);
        match (call, call.blocks()) {
            (_, Some((address, count))) => trail.stored.extend(address / m.d..(address + count).div_ceil(m.d)),
            (Call::Start, None) => {}
            (Call::Resync, None) => trail.stored.extend(stale.take(1)),
            _ => trail.stored.extend(stale),
        }
        trail.has_write |= call.blocks().is_some();
        trail.call = call;
        next.step(call, data, stand)?;
        trail.states.push(next.clone());
    }
    Ok(Some(trail).filter(|trail| trail.states.len() > 1))
}
