//! Random shelves against the model: sound ones, ones damaged in one or two ways, ones whose record names the other
//! count of parities, and nonsense.

use crate::random::Random;
use crate::shelf::harness::calls::{fetch, read, write, Buffer, Call, Measures, Record, Shelf};
use crate::shelf::harness::damage::damage_list;
use crate::shelf::harness::lists::{self, pick};
use crate::shelf::harness::reads;
use crate::shelf::harness::records;
use crate::shelf::harness::requests;
use crate::shelf::harness::stand::Stand;
use crate::shelf::harness::tally::{Tally, CALLS};
use crate::shelf::model::layout::List;
use crate::shelf::model::numbers::{self, Fault, OF_LENGTHS, OF_LIST, OF_MEASURES, OF_RECORD};
use crate::Outcome;

/// How many shelves are tried; each is lent to every call.
const SHELVES: usize = 80_000;

/// How many of those that name the other count of parities are tried besides.
const MISCOUNTED: usize = 2_000;

/// The most bytes that a buffer has which is lent whole: a little more than the longest list.
const WHOLE: usize = 70_000;

/// The most bytes of a buffer of which more is told than there is: the call must refuse it unseen.
const PART: usize = 512;

/// A shelf before its array and log are filled: the record, the list, and the lengths of the buffers to be told.
struct Plan {
    record: Record,
    list: List,
    told: [usize; 3],
}

/// The lengths that the plan's measures ask for, modulo 2^64.
fn right(plan: &Plan) -> [usize; 3] {
    numbers::lengths(plan.record.measures).map(|length| length as usize)
}

/// A sound shelf.
fn sound(random: &mut Random) -> Plan {
    let record = records::valid(records::measures(random), random);
    let mut plan = Plan { record, list: lists::valid(&record, random), told: [0; 3] };
    plan.told = right(&plan);
    plan
}

/// Tells another length of one buffer: a neighbour, one that 8, 16 or 32 bits take for it, nothing, or anything.
fn wrong_length(fault: Fault, plan: &mut Plan, random: &mut Random) -> Option<()> {
    let at = OF_LENGTHS.iter().position(|&other| other == fault)?;
    let length = plan.told[at];
    let other = match random.below(6) {
        0 => length.wrapping_add(1),
        1 => length.wrapping_sub(1),
        2 => length.wrapping_add(1 << [8, 16, 32][pick(3, random)]),
        3 => 0,
        4 => length.wrapping_add(plan.record.measures.b),
        _ => random.next() as usize,
    };
    plan.told[at] = other;
    (other != length).then_some(())
}

/// Damages a sound shelf in the way named, if it allows it. After a damage of the measures the lengths mostly fit them.
fn damage(fault: Fault, plan: &mut Plan, random: &mut Random) -> Option<()> {
    if OF_LENGTHS.contains(&fault) {
        return wrong_length(fault, plan, random);
    }
    if OF_LIST.contains(&fault) {
        return damage_list(fault, &mut plan.list, &mut plan.record, random);
    }
    records::damage(fault, &mut plan.record, random)?;
    if OF_MEASURES.contains(&fault) && random.below(8) != 0 {
        plan.told = right(plan);
    }
    Some(())
}

/// One of the faults, as often of the list as of all else.
fn some_fault(random: &mut Random) -> Fault {
    match random.below(8) {
        0 => OF_MEASURES[pick(OF_MEASURES.len(), random)],
        1 | 2 => OF_RECORD[pick(OF_RECORD.len(), random)],
        3 => OF_LENGTHS[pick(OF_LENGTHS.len(), random)],
        _ => OF_LIST[pick(OF_LIST.len(), random)],
    }
}

/// A sound shelf damaged in the way named: another one is taken until one allows it, which few don't.
fn damaged(fault: Fault, random: &mut Random) -> Result<Plan, String> {
    for _ in 0..10_000 {
        let mut plan = sound(random);
        if damage(fault, &mut plan, random).is_some() {
            return Ok(plan);
        }
    }
    Err(format!("no sound shelf can be damaged to have {fault:?}"))
}

/// A sound shelf whose record names the other count of parities than its array has; the flags and the list stay.
fn miscounted(random: &mut Random) -> Plan {
    let mut plan = sound(random);
    plan.record.measures.parities = 3 - plan.record.measures.parities;
    plan
}

/// Fails unless such a shelf gets 1 by its flags, else 2 by the array's length: a record that names one parity may have
/// no two flags, none above d + 1, and not that of d + 1 in mode 1.
fn told_apart(shelf: &Shelf, stand: &mut Stand, counts: &mut Miscounts) -> Result<(), String> {
    let (Record { measures: m, mode, .. }, members) = (shelf.record, shelf.failed());
    let is_wrong = |&member: &usize| member > m.d + 1 || member == m.d + 1 && mode == 1;
    let due = if m.parities == 1 && (members.len() > 1 || members.iter().any(is_wrong)) { 1 } else { 2 };
    counts[m.layout][m.parities - 1][due - 1] += 1;
    match stand.answer(Call::Start, shelf)? {
        code if code == due => Ok(()),
        code => Err(format!("start answers {code}, not {due}, where the other count is named; the shelf: {shelf}")),
    }
}

/// How often 1 and 2 were due of such shelves, by layout and by the count that is named, less one.
type Miscounts = [[[usize; 2]; 2]; 2];

/// A sound shelf damaged in the way named and, where its measures are still sound, once more in record or lengths.
fn damaged_twice(fault: Fault, random: &mut Random) -> Result<Plan, String> {
    let mut plan = damaged(fault, random)?;
    let faults = [&OF_RECORD[..], &OF_LENGTHS][pick(2, random)];
    let second = faults[pick(faults.len(), random)];
    if numbers::in_ranges(plan.record.measures) {
        damage(second, &mut plan, random);
    }
    Ok(plan)
}

/// A shelf with measures that are nonsense, and lengths that fit them or fit what they were. One that might be accepted
/// and is too long to be lent whole is not taken.
fn nonsense(random: &mut Random) -> Plan {
    loop {
        let mut plan = sound(random);
        records::garble(&mut plan.record, random);
        if random.below(2) == 0 {
            plan.told = right(&plan);
        }
        if !numbers::in_ranges(plan.record.measures) || right(&plan).into_iter().all(|length| length <= WHOLE) {
            return plan;
        }
    }
}

/// The shelf of a plan: random bytes in array and log. A buffer has as many bytes as are told of it; one of which more
/// is told than any that may be accepted has a part.
fn shelf(plan: Plan, random: &mut Random) -> Shelf {
    let lent = |told: usize| if told <= WHOLE { told } else { PART };
    let [array, log, list] = plan.told;
    let mut bytes = plan.list.bytes();
    bytes.resize(lent(list), 0xff);
    Shelf {
        record: plan.record,
        array: Buffer { bytes: random.bytes(lent(array)), told: array },
        log: Buffer { bytes: random.bytes(lent(log)), told: log },
        list: Buffer { bytes, told: list },
        data: Buffer::empty(),
    }
}

/// A member to fail or to put back: mostly one that is there, else next to the last one or nonsense.
fn some_member(m: Measures, random: &mut Random) -> usize {
    match random.below(8) {
        0 => m.log().wrapping_add(1),
        1 => m.log(),
        2 => records::above(m.log().min(18), random),
        3 => pick(20, random),
        _ => pick(m.log().min(18) + 1, random),
    }
}

/// A member to put back: one that has failed, the log at times, or any.
fn some_failed(shelf: &Shelf, random: &mut Random) -> usize {
    let failed = lists::one_of(&shelf.failed(), random).filter(|_| random.below(4) != 0);
    failed.unwrap_or_else(|| some_member(shelf.record.measures, random))
}

/// The calls in the order in which a shelf is lent to them. Those that store come last: if one of them took what it must
/// refuse, the others would most likely have told so before it stores anything.
fn every_call(shelf: &Shelf, random: &mut Random) -> [(Call, Buffer); CALLS] {
    let m = shelf.record.measures;
    let kinds: [fn(usize, usize) -> Call; 3] = [read, fetch, write];
    let [read, fetch, write] = kinds.map(|kind| some_request(kind, m, random));
    let alone = |call: Call| (call, Buffer::empty());
    [
        alone(Call::Start),
        alone(Call::Fail(some_member(m, random))),
        alone(Call::PutBack(some_failed(shelf, random))),
        alone(Call::NewLog),
        read,
        fetch,
        write,
        alone(Call::Resync),
        alone(Call::Rebuild),
        alone(Call::FullResync),
        alone(Call::Format),
    ]
}

/// A request as a call of this kind, with the caller's data.
fn some_request(kind: fn(usize, usize) -> Call, m: Measures, random: &mut Random) -> (Call, Buffer) {
    let request = requests::some(m, 6, random);
    (request.call(kind), request.data(m, random))
}

/// Lends a shelf to every call, then to some one after another but to format, all but the data being handed on.
fn tried(shelf: &mut Shelf, stand: &mut Stand, tally: &mut Tally, random: &mut Random) -> Result<(), String> {
    for (call, data) in every_call(shelf, random) {
        shelf.data = data;
        reads::compare(call, shelf, stand, random)?;
        tally.count(call, shelf, &stand.as_model(call, shelf)?);
    }
    for _ in 0..4 {
        let mut calls = every_call(shelf, random);
        let (call, data) = &mut calls[pick(CALLS - 1, random)];
        std::mem::swap(&mut shelf.data, data);
        tally.count(*call, shelf, &stand.as_model(*call, shelf)?);
        stand.hand_on(shelf);
    }
    Ok(())
}

/// A random plan: sound, damaged once (then with the fault that the model is to find), damaged twice, or nonsense.
fn plan(random: &mut Random) -> Result<(Plan, Option<Fault>), String> {
    let fault = some_fault(random);
    Ok(match random.below(8) {
        0 | 1 => (sound(random), None),
        2..=5 => (damaged(fault, random)?, Some(fault)),
        6 => (damaged_twice(fault, random)?, None),
        _ => (nonsense(random), None),
    })
}

/// Tries shelves whose record names the other count of parities. Fails unless both numbers were due where one parity is
/// named for two, and 2 where two are for one: such a record passes. Hands back how often at least.
fn all_told_apart(stand: &mut Stand, tally: &mut Tally, random: &mut Random) -> Result<usize, String> {
    let mut counts = Miscounts::default();
    for _ in 0..MISCOUNTED {
        let mut shelf = shelf(miscounted(random), random);
        told_apart(&shelf, stand, &mut counts)?;
        tried(&mut shelf, stand, tally, random)?;
    }
    let [fixed, rotating] = counts;
    let kinds = [fixed[0][0], fixed[0][1], fixed[1][1], rotating[0][0], rotating[0][1], rotating[1][1]];
    match kinds.into_iter().min().filter(|&least| least > 0) {
        Some(least) => Ok(least),
        None => Err(format!("of the other count {counts:?} were tried, by layout, count and number")),
    }
}

/// Tries the random shelves.
pub fn group(seed: u64) -> Outcome {
    let random = &mut Random::new(seed, 6);
    let (mut stand, mut tally) = (Stand::default(), Tally::new());
    for _ in 0..SHELVES {
        let (plan, fault) = plan(random)?;
        let mut shelf = shelf(plan, random);
        if let Some(fault) = fault {
            if !numbers::findings(Call::Start, &shelf).faults.iter().any(|faults| faults.has(fault)) {
                return Err(format!("the model does not find {fault:?} in a shelf of {shelf}"));
            }
        }
        tried(&mut shelf, &mut stand, &mut tally, random)?;
    }
    let miscounted = all_told_apart(&mut stand, &mut tally, random)?;
    let least = tally.complete()?;
    stand.seen.complete(1)?;
    Ok(format!(
        "{} calls on {SHELVES} shelves of both layouts and both counts of parities, sound, damaged and nonsense; in \
         each layout and with each count each call with each fault of rows 1 to 3 alone, {least} times at least; \
         {MISCOUNTED} that name the other count, 1 and 2 {miscounted} times at least; seed {seed}",
        stand.calls
    ))
}
