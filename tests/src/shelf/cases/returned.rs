//! Put back, by hand: members that are reported, overwritten and put back with the bytes that they had, in every mode,
//! in whatever order, beside the log's failure, after a rebuild, and again with newer bytes; the model is not asked.
//! Then every two members of shelves of both layouts fail, or every one with one parity, and are put back, against the
//! model and the book. At last a member is put back with other bytes than it had: they are served as they stand, and a
//! report and a rebuild put that right.

use super::marked::LOGGED;
use super::sequences::resynced;
use super::single::{fetched, stale, LOGGED as LOGGED_OF_ONE};
use crate::shelf::harness::calls::{fetch, read, write, Buffer, Call, Measures};
use crate::shelf::harness::pair::Pair;
use crate::shelf::harness::script::Left::{Array, Data, List, Log, Stripe};
use crate::shelf::harness::script::{Script, Step};
use crate::shelf::harness::stand::Stand;
use crate::shelf::model::numbers::NONE as N;
use crate::shelf::model::roles;
use crate::Outcome;

/// K4's stripe with block 1 logged as 7, with nothing failed and with disk 0: the log's number gets 6, and a sound
/// member's 12. Disk 0 is put back, once.
const NUMBERS: [Step; 12] = [
    (Call::PutBack(0), &[], [12, 1, 1, 2], &[], &[]),
    (Call::PutBack(4), &[], [12, 1, 1, 2], &[], &[]),
    (Call::PutBack(5), &[], [6, 1, 1, 2], &[], &[]),
    (Call::PutBack(6), &[], [6, 1, 1, 2], &[], &[]),
    (Call::PutBack(usize::MAX), &[], [6, 1, 1, 2], &[], &[]),
    (Call::Fail(0), &[], [0, 1, 1, 2], &[0], &[]),
    (Call::PutBack(1), &[], [12, 1, 1, 2], &[0], &[]),
    (Call::PutBack(5), &[], [6, 1, 1, 2], &[0], &[]),
    (Call::PutBack(256), &[], [6, 1, 1, 2], &[0], &[]),
    (Call::PutBack(0), &[], [0, 1, 1, 2], &[], &[Array(&[1, 7, 3, 0, 9])]),
    (Call::PutBack(0), &[], [12, 1, 1, 2], &[], &[]),
    (read(0, 3), &[99; 3], [0, 1, 1, 2], &[], &[Data(&[1, 7, 3])]),
];

/// Disk 0 is reported, and once more, which is refused: it has the bytes of the first report. Then block 0 is logged as
/// 5, and disk 0 is reported and put back with that.
const NEWER: [Step; 8] = [
    (Call::Fail(0), &[], [0, 1, 1, 2], &[0], &[]),
    (Call::Fail(0), &[], [10, 1, 1, 2], &[0], &[]),
    (Call::PutBack(0), &[], [0, 1, 1, 2], &[], &[Array(&[1, 7, 3, 0, 9])]),
    (
        write(0, 1),
        &[5],
        [0, 1, 2, 4],
        &[],
        &[Array(&[5, 7, 3, 0, 9]), Log(&[2, 7, 1, 5]), List(&[0, 1, 0, 2, 3, N, 1, 0, 1, N])],
    ),
    (Call::Fail(0), &[], [0, 1, 2, 4], &[0], &[]),
    (fetch(0, 3), &[99; 3], [0, 1, 2, 4], &[0], &[Data(&[5, 7, 3])]),
    (Call::PutBack(0), &[], [0, 1, 2, 4], &[], &[Array(&[5, 7, 3, 0, 9])]),
    (read(0, 3), &[99; 3], [0, 1, 2, 4], &[], &[Data(&[5, 7, 3])]),
];

/// Then disk 2 and P: block 2 comes from Q. After them the stripe has the P of the originals still, which gives block
/// 2. The stripe is resynced, and both parities fail and are put back.
const NEWER_GOES_ON: [Step; 14] = [
    (Call::Fail(3), &[], [0, 1, 2, 4], &[3], &[]),
    (Call::Fail(2), &[], [0, 1, 2, 4], &[2, 3], &[]),
    (fetch(0, 3), &[99; 3], [0, 1, 2, 4], &[2, 3], &[Data(&[5, 7, 3])]),
    (Call::PutBack(2), &[], [0, 1, 2, 4], &[3], &[]),
    (read(0, 3), &[99; 3], [0, 1, 2, 4], &[3], &[Data(&[5, 7, 3])]),
    (Call::PutBack(3), &[], [0, 1, 2, 4], &[], &[Array(&[5, 7, 3, 0, 9])]),
    (Call::Fail(2), &[], [0, 1, 2, 4], &[2], &[]),
    (fetch(2, 1), &[99], [0, 1, 2, 4], &[2], &[Data(&[3])]),
    (Call::PutBack(2), &[], [0, 1, 2, 4], &[], &[Array(&[5, 7, 3, 0, 9])]),
    (Call::Resync, &[], [0, 0, 0, 0], &[], &[Array(&[5, 7, 3, 1, 7]), List(&[]), Stripe(0)]),
    (Call::Fail(4), &[], [0, 0, 0, 0], &[4], &[]),
    (Call::Fail(3), &[], [0, 0, 0, 0], &[3, 4], &[]),
    (Call::PutBack(4), &[], [0, 0, 0, 0], &[3], &[]),
    (Call::PutBack(3), &[], [0, 0, 0, 0], &[], &[Array(&[5, 7, 3, 1, 7])]),
];

/// Disks 0 and 1 fail as in K8. Disk 0 is put back, then disk 1; or disk 1, and block 0 comes from parity, then disk 0.
const BOTH_FAIL: [Step; 2] =
    [(Call::Fail(0), &[], [0, 1, 1, 2], &[0], &[]), (Call::Fail(1), &[], [0, 1, 1, 2], &[0, 1], &[])];
const FIRST_BACK: [Step; 5] = [
    (Call::PutBack(0), &[], [0, 1, 1, 2], &[1], &[]),
    (read(0, 1), &[99], [0, 1, 1, 2], &[1], &[Data(&[1])]),
    (read(1, 1), &[99], [16, 1, 1, 2], &[1], &[]),
    (fetch(0, 3), &[99; 3], [0, 1, 1, 2], &[1], &[Data(&[1, 7, 3])]),
    (Call::PutBack(1), &[], [0, 1, 1, 2], &[], &[Array(&[1, 7, 3, 0, 9])]),
];
const SECOND_BACK: [Step; 5] = [
    (Call::PutBack(1), &[], [0, 1, 1, 2], &[0], &[]),
    (read(1, 1), &[99], [0, 1, 1, 2], &[0], &[Data(&[7])]),
    (read(0, 1), &[99], [16, 1, 1, 2], &[0], &[]),
    (fetch(0, 3), &[99; 3], [0, 1, 1, 2], &[0], &[Data(&[1, 7, 3])]),
    (Call::PutBack(0), &[], [0, 1, 1, 2], &[], &[Array(&[1, 7, 3, 0, 9])]),
];

/// Or the one is put back and the other rebuilt: then neither is put back again.
const ONE_REBUILT: [Step; 4] = [
    (Call::PutBack(0), &[], [0, 1, 1, 2], &[1], &[]),
    (Call::Rebuild, &[], [0, 1, 1, 2], &[], &[Array(&[1, 7, 3, 0, 9])]),
    (Call::PutBack(1), &[], [12, 1, 1, 2], &[], &[]),
    (Call::PutBack(0), &[], [12, 1, 1, 2], &[], &[]),
];

/// After a rebuild of disk 0 and Q neither is put back. Disk 0 fails again and is put back: there is nothing to
/// rebuild.
const AFTER_REBUILD: [Step; 8] = [
    (Call::Fail(0), &[], [0, 1, 1, 2], &[0], &[]),
    (Call::Fail(4), &[], [0, 1, 1, 2], &[0, 4], &[]),
    (Call::Rebuild, &[], [0, 1, 0, 0], &[], &[Array(&[1, 7, 3, 5, 3]), List(&[])]),
    (Call::PutBack(0), &[], [12, 1, 0, 0], &[], &[]),
    (Call::PutBack(4), &[], [12, 1, 0, 0], &[], &[]),
    (Call::Fail(0), &[], [0, 1, 0, 0], &[0], &[]),
    (Call::PutBack(0), &[], [0, 1, 0, 0], &[], &[Array(&[1, 7, 3, 5, 3])]),
    (Call::Rebuild, &[], [12, 1, 0, 0], &[], &[]),
];

/// K9, the log and then disk 0 gone: block 0 is withheld until disk 0 is put back. The log is not put back; a resync
/// and a new log lead on.
const AFTER_LOG: [Step; 12] = [
    (Call::Fail(5), &[], [0, 2, 1, 2], &[5], &[]),
    (Call::Fail(0), &[], [0, 2, 1, 2], &[0, 5], &[]),
    (fetch(0, 1), &[99], [14, 2, 1, 2], &[0, 5], &[]),
    (Call::Rebuild, &[], [14, 2, 1, 2], &[0, 5], &[]),
    (Call::PutBack(5), &[], [6, 2, 1, 2], &[0, 5], &[]),
    (Call::PutBack(1), &[], [12, 2, 1, 2], &[0, 5], &[]),
    (Call::PutBack(0), &[], [0, 2, 1, 2], &[5], &[Array(&[1, 7, 3, 0, 9])]),
    (fetch(0, 3), &[99; 3], [0, 2, 1, 2], &[5], &[Data(&[1, 7, 3])]),
    (Call::PutBack(5), &[], [6, 2, 1, 2], &[5], &[]),
    (Call::Resync, &[], [0, 0, 0, 0], &[5], &[Array(&[1, 7, 3, 5, 3]), List(&[]), Stripe(0)]),
    (Call::NewLog, &[], [0, 0, 0, 0], &[], &[]),
    (Call::Start, &[], [0, 1, 0, 0], &[], &[]),
];

/// Disk 0 and then the log: mode 1 became 2, and that remains when disk 0 is put back. Block 0 is written with parity.
const BEFORE_LOG: [Step; 8] = [
    (Call::Fail(0), &[], [0, 1, 1, 2], &[0], &[]),
    (Call::Fail(5), &[], [0, 2, 1, 2], &[0, 5], &[]),
    (Call::PutBack(0), &[], [0, 2, 1, 2], &[5], &[Array(&[1, 7, 3, 0, 9])]),
    (write(0, 1), &[4], [0, 0, 0, 0], &[5], &[Array(&[4, 7, 3, 0, 6]), List(&[])]),
    (Call::NewLog, &[], [0, 0, 0, 0], &[], &[]),
    (Call::Fail(1), &[], [0, 0, 0, 0], &[1], &[]),
    (fetch(0, 3), &[99; 3], [0, 0, 0, 0], &[1], &[Data(&[4, 7, 3])]),
    (Call::PutBack(1), &[], [0, 0, 0, 0], &[], &[Array(&[4, 7, 3, 0, 6])]),
];

/// With one parity the log is member 4. P is put back with the P of the originals, which gives block 0. A member that
/// is put back leaves room for another failure.
const OF_ONE: [Step; 17] = [
    (Call::PutBack(3), &[], [12, 1, 1, 2], &[], &[]),
    (Call::PutBack(4), &[], [6, 1, 1, 2], &[], &[]),
    (Call::Fail(3), &[], [0, 1, 1, 2], &[3], &[]),
    (Call::PutBack(4), &[], [6, 1, 1, 2], &[3], &[]),
    (Call::PutBack(3), &[], [0, 1, 1, 2], &[], &[Array(&[1, 7, 3, 0])]),
    (Call::Fail(1), &[], [0, 1, 1, 2], &[1], &[]),
    (Call::Fail(0), &[], [11, 1, 1, 2], &[1], &[]),
    (fetch(0, 3), &[99; 3], [0, 1, 1, 2], &[1], &[Data(&[1, 7, 3])]),
    (Call::PutBack(1), &[], [0, 1, 1, 2], &[], &[Array(&[1, 7, 3, 0])]),
    (Call::Fail(0), &[], [0, 1, 1, 2], &[0], &[]),
    (fetch(0, 3), &[99; 3], [0, 1, 1, 2], &[0], &[Data(&[1, 7, 3])]),
    (Call::Rebuild, &[], [0, 1, 1, 2], &[], &[Array(&[1, 7, 3, 0])]),
    (Call::PutBack(0), &[], [12, 1, 1, 2], &[], &[]),
    (Call::Fail(4), &[], [0, 2, 1, 2], &[4], &[]),
    (Call::PutBack(4), &[], [6, 2, 1, 2], &[4], &[]),
    (Call::PutBack(0), &[], [12, 2, 1, 2], &[4], &[]),
    (Call::Resync, &[], [0, 0, 0, 0], &[4], &[Array(&[1, 7, 3, 5]), List(&[]), Stripe(0)]),
];

/// Where parity rotates, stripe 0 has Q on member 0, its data on members 1 to 3 and P on member 4; stripe 1 has its
/// data on members 0 to 2, P on member 3 and Q on member 4. Block 1 is logged as 21; members 0 and 1 fail and are put
/// back.
const ROTATING: [Step; 10] = [
    (write(0, 6), &[1, 2, 3, 4, 5, 6], [0, 0, 0, 0], &[], &[Array(&[9, 4, 1, 5, 2, 6, 3, 7, 0, 22])]),
    (Call::Start, &[], [0, 1, 0, 0], &[], &[]),
    (
        write(1, 1),
        &[21],
        [0, 1, 1, 2],
        &[],
        &[Array(&[9, 4, 1, 5, 21, 6, 3, 7, 0, 22]), Log(&[2, 21, 0, 0]), List(&[N, 0, 1, 0, 1, N])],
    ),
    (Call::Fail(0), &[], [0, 1, 1, 2], &[0], &[]),
    (Call::Fail(1), &[], [0, 1, 1, 2], &[0, 1], &[]),
    (fetch(0, 6), &[99; 6], [0, 1, 1, 2], &[0, 1], &[Data(&[1, 21, 3, 4, 5, 6])]),
    (Call::PutBack(0), &[], [0, 1, 1, 2], &[1], &[]),
    (read(3, 1), &[99], [0, 1, 1, 2], &[1], &[Data(&[4])]),
    (fetch(0, 6), &[99; 6], [0, 1, 1, 2], &[1], &[Data(&[1, 21, 3, 4, 5, 6])]),
    (Call::PutBack(1), &[], [0, 1, 1, 2], &[], &[Array(&[9, 4, 1, 5, 21, 6, 3, 7, 0, 22])]),
];

/// Then block 3 is logged as 24 and stripe 0 resynced, so that stripe 1 alone is stale. Member 3 fails and is put back,
/// with block 2 and the P of stripe 1; member 1 fails, whose block 4 that P gives.
const ROTATING_GOES_ON: [Step; 7] = [
    (
        write(3, 1),
        &[24],
        [0, 1, 2, 4],
        &[],
        &[Array(&[9, 24, 1, 5, 21, 6, 3, 7, 0, 22]), Log(&[2, 21, 4, 24]), List(&[N, 0, 1, 0, 1, 1, 3, 2, 3, N])],
    ),
    (
        Call::Resync,
        &[],
        [0, 2, 1, 4],
        &[],
        &[Array(&[39, 24, 1, 5, 21, 6, 3, 7, 23, 22]), List(&[N, 0, 3, 2, 3, N]), Stripe(0)],
    ),
    (Call::Fail(3), &[], [0, 2, 1, 4], &[3], &[]),
    (Call::PutBack(3), &[], [0, 2, 1, 4], &[], &[Array(&[39, 24, 1, 5, 21, 6, 3, 7, 23, 22])]),
    (Call::Fail(1), &[], [0, 2, 1, 4], &[1], &[]),
    (fetch(0, 6), &[99; 6], [0, 2, 1, 4], &[1], &[Data(&[1, 21, 3, 24, 5, 6])]),
    (Call::Rebuild, &[], [0, 2, 1, 4], &[], &[Array(&[39, 24, 1, 5, 21, 6, 3, 7, 23, 22])]),
];

/// Plays the scripts.
fn scripts(stand: &mut Stand) -> Result<(), String> {
    let endings = [
        NUMBERS.to_vec(),
        [&NEWER[..], &NEWER_GOES_ON].concat(),
        [&BOTH_FAIL[..], &FIRST_BACK].concat(),
        [&BOTH_FAIL[..], &SECOND_BACK].concat(),
        [&BOTH_FAIL[..], &ONE_REBUILT].concat(),
        AFTER_REBUILD.to_vec(),
        AFTER_LOG.to_vec(),
        BEFORE_LOG.to_vec(),
    ];
    for ending in endings {
        Script::fresh(3, 1, 1, [4, 2, 3], stand)?.play(&[&LOGGED[..], &ending].concat(), stand)?;
    }
    for layout in [0, 1] {
        let m = Measures { d: 3, s: 1, b: 1, l: 4, h: 2, e: 3, layout, parities: 1 };
        Script::of(m, stand)?.play(&[&LOGGED_OF_ONE[..], &OF_ONE].concat(), stand)?;
    }
    Script::rotating(3, 2, 1, [4, 2, 4], stand)?.play(&[&ROTATING[..], &ROTATING_GOES_ON].concat(), stand)
}

/// Goes on with a shelf whose disks are all sound: writes in the first stripe and in the last one; as many disks as may
/// be fail, are fetched and put back; the stale stripes are resynced; the disks fail again and are rebuilt.
fn goes_on(pair: &mut Pair, stand: &mut Stand) -> Result<(), String> {
    let (m, failed) = (pair.shelf.record.measures, pair.shelf.failed().len());
    for address in [0, m.d * m.s - 1] {
        pair.accepted(write(address, 1), Buffer::of(vec![77; m.b]), stand)?;
    }
    let lost = 0..m.parities - failed;
    let fail = |pair: &mut Pair, stand: &mut Stand| {
        lost.clone().try_for_each(|member| pair.accepted(Call::Fail(member), Buffer::empty(), stand))?;
        pair.spoil();
        fetched(pair, stand).map(|_| ())
    };
    fail(pair, stand)?;
    lost.clone().try_for_each(|member| pair.accepted(Call::PutBack(member), Buffer::empty(), stand))?;
    resynced(pair, stand)?;
    fail(pair, stand)?;
    if !lost.is_empty() {
        pair.accepted(Call::Rebuild, Buffer::empty(), stand)?;
    }
    pair.holds()
}

/// Has these members of a shelf fail, and put back in this order, each block being fetched after each. Fails unless the
/// log gets 6, each other one is put back, and the record then is what it was, but for the log's failure. The shelf
/// goes on.
fn put_back(stale: &Pair, failed: &[usize], back: &[usize], stand: &mut Stand) -> Result<(), String> {
    let (mut pair, log) = (stale.clone(), stale.shelf.record.measures.log());
    for &member in failed {
        pair.accepted(Call::Fail(member), Buffer::empty(), stand)?;
        pair.spoil();
    }
    for &member in back {
        let (code, due) =
            (pair.step(Call::PutBack(member), Buffer::empty(), stand)?, if member == log { 6 } else { 0 });
        if code != due {
            return Err(format!("of {failed:?} {member} gets {code}, not {due}; the shelf: {}", pair.shelf));
        }
        fetched(&mut pair, stand)?;
    }
    let mut due = stale.shelf.record;
    if failed.contains(&log) {
        (due.mode, due.failed[log]) = (2, 1);
    }
    if pair.shelf.record != due {
        return Err(format!("{failed:?} leave {:?}, not {due:?}, when {back:?} are put back", pair.shelf.record));
    }
    pair.holds()?;
    goes_on(&mut pair, stand)
}

/// Has every two members of a shelf of these measures fail, the log too, and put back in either order; or every one
/// with one parity. Hands back in how many ways.
fn each_two(m: Measures, stand: &mut Stand) -> Result<usize, String> {
    let (pair, log, mut ways) = (stale(m, stand)?, m.log(), 0);
    let all = (0..=log).flat_map(|x| (0..=log).map(move |y| [x, y]));
    for [x, y] in all.filter(|[x, y]| (x == y) == (m.parities == 1)) {
        let (failed, orders) = (&[x, y][..m.parities], &[[x, y], [y, x]][..m.parities]);
        for back in orders {
            put_back(&pair, failed, &back[..m.parities], stand)?;
            ways += 1;
        }
    }
    Ok(ways)
}

/// Puts a member back with other bytes than it had when it was reported. Fails unless the call is accepted, the record
/// is what it was, and a plain read and a fetch give those bytes; and unless all is as before once the member is
/// reported and rebuilt.
fn unlike(m: Measures, stand: &mut Stand) -> Result<(), String> {
    let (mut pair, member) = (stale(m, stand)?, roles::members(m, 1)[0]);
    let before = pair.shelf.record;
    pair.accepted(Call::Fail(member), Buffer::empty(), stand)?;
    pair.shelf.member(member).fill(213);
    let code = pair.numbered(Call::PutBack(member), Buffer::empty(), stand)?;
    if code != 0 || pair.shelf.record != before {
        return Err(format!("{member} is put back with {code}; the shelf: {}", pair.shelf));
    }
    for call in [read(m.d, 1), fetch(m.d, 1)] {
        pair.numbered(call, Buffer::of(vec![99; m.b]), stand)?;
        if stand.data() != vec![213; m.b] {
            return Err(format!("{call:?} gives {:?}; the shelf: {}", stand.data(), pair.shelf));
        }
    }
    for call in [Call::Fail(member), Call::Rebuild] {
        pair.accepted(call, Buffer::empty(), stand)?;
    }
    pair.holds()
}

/// Plays the scripts, has members of shelves of either layout and count fail and put back, with d at its limits and
/// between, and puts members back with other bytes.
pub fn group(_seed: u64) -> Outcome {
    let stand = &mut Stand::default();
    scripts(stand)?;
    let (by_hand, mut ways) = (stand.calls, 0);
    for (d, s) in [(2, 5), (3, 6), (5, 8), (16, 2)] {
        for [layout, parities] in [[0, 1], [0, 2], [1, 1], [1, 2]] {
            let m = Measures { d, s, b: 2, l: 2 * s, h: 3, e: s, layout, parities };
            ways += each_two(m, stand)?;
            unlike(m, stand)?;
        }
    }
    Ok(format!(
        "{by_hand} calls by hand; every two members failed and put back in either order, or every one with one parity, \
         in {ways} ways, after which the shelf goes on; members put back with other bytes; {} calls",
        stand.calls
    ))
}
