//! Shelves at the limits of their measures: lists of 4,096 places, logs of 65,536 records, lengths past 2^32.

use crate::random::Random;
use crate::shelf::harness::calls::{fetch, read, write, Buffer, Call, Measures, Record, Shelf};
use crate::shelf::harness::damage::damage_list;
use crate::shelf::harness::lists::{self, pick};
use crate::shelf::harness::stand::Stand;
use crate::shelf::model::layout::List;
use crate::shelf::model::numbers::{lengths, OF_LIST};
use crate::shelf::model::roles;
use crate::Outcome;

/// Measures of shelves whose buffers are lent whole: the greatest and the least of each.
const WHOLE: [[usize; 6]; 9] = [
    [16, 65536, 1, 65536, 256, 4096],
    [2, 65536, 1, 65536, 1, 4096],
    [16, 256, 64, 1, 256, 4096],
    [16, 3, 4096, 16, 255, 48],
    [5, 2, 4096, 60, 4, 10],
    [2, 1, 4096, 1, 256, 1],
    [3, 1, 1, 1, 1, 1],
    [2, 1, 1, 65536, 1, 4096],
    [16, 256, 1, 65536, 60, 4096],
];

/// Measures of shelves that only calls get which look at no byte of array and log; of these one byte is lent.
const TOLD: [[usize; 6]; 5] = [
    [16, 65536, 4096, 65536, 256, 4096],
    [14, 65536, 4096, 65536, 7, 4095],
    [15, 65536, 4096, 1, 256, 4096],
    [2, 65536, 4096, 65535, 1, 9],
    [16, 65535, 4095, 65536, 256, 1],
];

/// How much of a shelf is used: nothing in mode 0; all that can be in mode 2; in mode 1 all but room for a few blocks.
#[derive(Clone, Copy, PartialEq)]
enum Used {
    Nothing,
    All,
    Most,
}

/// A shelf of this layout and with so many parities of which so much is used.
fn shelf(measures: [usize; 6], [layout, parities]: [usize; 2], used: Used, random: &mut Random) -> Shelf {
    let [d, s, b, l, h, e] = measures;
    let most = e.min(d * s);
    let (listed, next, mode) = match used {
        Used::Nothing => (0, 0, 0),
        Used::All => (most, l, 2),
        Used::Most => (most.saturating_sub(5).max(1), l.saturating_sub(9).max(1), 1),
    };
    let measures = Measures { d, s, b, l, h, e, layout, parities };
    let record = Record { measures, mode, next, listed, failed: [0; 19] };
    let lent = |length: u128| Buffer { bytes: filled(length), told: length as usize };
    let [array, log, _] = lengths(record.measures).map(lent);
    let list = Buffer::of(lists::valid(&record, random).bytes());
    Shelf { record, array, log, list, data: Buffer::empty() }
}

/// So many bytes that count up, none of them 0; one byte where they would be more than 2^25.
fn filled(length: u128) -> Vec<u8> {
    let count = if length > 1 << 25 { 1 } else { length as usize };
    (0..count).map(|at| (at % 251) as u8 + 1).collect()
}

/// How often a list was damaged in each way.
type Damaged = [usize; OF_LIST.len()];

/// Fails unless a call on the shelf with a list damaged in each way gets 3. Each way is tried some times, until a list
/// allows it.
fn damaged(shelf: &Shelf, counts: &mut Damaged, stand: &mut Stand, random: &mut Random) -> Result<(), String> {
    for (fault, count) in OF_LIST.into_iter().zip(counts) {
        for _ in 0..8 {
            let mut damaged = shelf.clone();
            let mut list = lists::valid(&shelf.record, random);
            if damage_list(fault, &mut list, &mut damaged.record, random).is_some() {
                damaged.list = Buffer::of(list.bytes());
                if stand.as_model(Call::Fail(0), &damaged)?.code() != 3 {
                    return Err(format!("the model takes a list with {fault:?}; the shelf: {damaged}"));
                }
                *count += 1;
                break;
            }
        }
    }
    Ok(())
}

/// Fails unless the calls on a shelf, on the shelf with the last disk or with as many members failed as may be, with
/// one more or with a flag above the log, with wrong lengths told, and with a layout or a count of parities that is
/// none, or is the other one, do as the model does.
fn tried(shelf: &Shelf, stand: &mut Stand) -> Result<(), String> {
    let m = shelf.record.measures;
    let log = m.log();
    let sets = [&[][..], &[log - 1], &[log, 0][..m.parities], &[log, 0, 1][..m.parities + 1], &[(log + 1).min(18)]];
    let named = [log, log + 1, 1].map(Call::Fail).into_iter().chain([0, log - 1, log, log + 1].map(Call::PutBack));
    let calls: Vec<Call> = named.chain([Call::Start, Call::NewLog]).collect();
    for shelf in sets.map(|members| with_failed(shelf, members)) {
        calls.iter().try_for_each(|&call| stand.as_model(call, &shelf).map(|_| ()))?;
    }
    for wrong in [1, 1 << 31, 1 << 32, 1 << 33] {
        let mut damaged = shelf.clone();
        damaged.array.told = damaged.array.told.wrapping_sub(wrong);
        stand.as_model(Call::Start, &damaged)?;
        stand.as_model(Call::Format, &damaged)?;
    }
    let layouts = [2, 3, 1 << 32, (1 << 32) + 1, usize::MAX].map(|layout| Measures { layout, ..m });
    let counts = [0, 3, 255, 258, (1 << 32) + 1, usize::MAX, 3 - m.parities].map(|parities| Measures { parities, ..m });
    for measures in layouts.into_iter().chain(counts) {
        let mut damaged = shelf.clone();
        damaged.record.measures = measures;
        stand.as_model(Call::Start, &damaged)?;
        stand.as_model(Call::Format, &damaged)?;
    }
    Ok(())
}

/// The shelf with other members failed.
fn with_failed(shelf: &Shelf, members: &[usize]) -> Shelf {
    let mut after = shelf.clone();
    after.record.failed = [0; 19];
    members.iter().for_each(|&member| after.record.failed[member] = 1);
    after
}

/// Makes a write or a read as the model does it.
fn request(call: Call, shelf: &mut Shelf, stand: &mut Stand) -> Result<(), String> {
    let (_, count) = call.blocks().unwrap_or((0, 0));
    shelf.data = Buffer::of(filled((count * shelf.record.measures.b) as u128));
    stand.as_model(call, shelf).map(|_| ())
}

/// The blocks that are written and read: the first, the last, and some stripes at each end.
fn ranges(m: Measures) -> [(usize, usize); 4] {
    let (all, some) = (m.d * m.s, (3 * m.d + 1).min(m.d * m.s));
    [(0, 1), (all - some, some), (all - 1, 1), (0, some)]
}

/// The sets of failed members with which blocks are served. Where parity rotates once round or more, each member has
/// every role, so that a few sets serve for the others.
fn failed_sets(m: Measures) -> Vec<Vec<usize>> {
    let (last, p, q, log) = (m.d - 1, m.d, m.d + 1, m.log());
    match (m.parities, m.layout) {
        (1, 1) if m.s >= log => vec![vec![], vec![p], vec![log]],
        (1, _) => vec![vec![], vec![0], vec![last], vec![p], vec![log]],
        (_, 1) if m.s >= log => vec![vec![], vec![0, log], vec![0, last], vec![p, q]],
        _ => vec![vec![], vec![0, log], vec![0, last], vec![last, p], vec![0, q], vec![p, log]],
    }
}

/// Whether a rebuild is slow: one slot, and the most stripes; none is made then.
fn is_slow(m: Measures) -> bool {
    m.h == 1 && m.s == 65536
}

/// Fails unless the calls that serve blocks and bring parity up to date do as the model does on a shelf lent whole.
fn served(shelf: &Shelf, stand: &mut Stand) -> Result<(), String> {
    let m = shelf.record.measures;
    for members in failed_sets(m) {
        if shelf.record.mode == 1 && members.contains(&m.log()) {
            continue;
        }
        let mut shelf = with_failed(shelf, &members);
        for (address, count) in ranges(m) {
            for call in [read(address, count), fetch(address, count), write(address, count)] {
                request(call, &mut shelf, stand)?;
            }
        }
        stand.as_model(Call::Resync, &shelf)?;
        stand.as_model(Call::FullResync, &shelf)?;
        if !is_slow(m) {
            stand.as_model(Call::Rebuild, &shelf)?;
        }
    }
    Ok(())
}

/// Makes writes at the end of the log, one after another, then resyncs, as the model does them.
fn worn_out(mut shelf: Shelf, stand: &mut Stand, random: &mut Random) -> Result<(), String> {
    let m = shelf.record.measures;
    for turn in 0..24 {
        let (address, count) = if turn % 2 == 0 { (pick(m.d * m.s, random), 1) } else { ranges(m)[turn / 2 % 4] };
        request(write(address, count), &mut shelf, stand)?;
        stand.hand_on(&mut shelf);
    }
    for _ in 0..3 {
        stand.as_model(Call::Resync, &shelf)?;
        stand.hand_on(&mut shelf);
    }
    Ok(())
}

/// The member that has the first listed block; 0 if none is listed.
fn of_first_listed(shelf: &Shelf) -> usize {
    let m = shelf.record.measures;
    let listed = List::of(m, &shelf.list.bytes).entries();
    listed.keys().next().map_or(0, |address| roles::members(m, address / m.d)[address % m.d])
}

/// Fails unless calls on a shelf of which one byte is lent are refused unseen, as the model does: for an address past
/// the end, data of which 32 bits tell the right length, a failed member, a stripe that waits, or nothing to do. With
/// one parity the log has not failed too, and nothing is withheld.
fn refused(shelf: &Shelf, stand: &mut Stand) -> Result<(), String> {
    let m = shelf.record.measures;
    let (all, is_withheld) = (m.d * m.s, m.parities == 2 && shelf.record.listed > 0);
    let mut shelf = with_failed(shelf, &[of_first_listed(shelf), m.log()][..m.parities]);
    shelf.data = Buffer { bytes: vec![1], told: all * m.b };
    for (address, count) in [(0, all), (1, all), (all, all), (usize::MAX - all + 2, all)] {
        stand.as_model(write(address, count), &shelf)?;
        stand.as_model(read(address, count), &shelf)?;
        if is_withheld || address > 0 {
            stand.as_model(fetch(address, count), &shelf)?;
        }
    }
    for call in [Call::Resync, Call::FullResync] {
        stand.as_model(call, &shelf)?;
    }
    if is_withheld {
        stand.as_model(Call::Rebuild, &shelf)?;
    }
    let mut sound = with_failed(&shelf, &[]);
    stand.as_model(Call::Rebuild, &sound)?;
    for told in [all * m.b + 1, (all * m.b) as u32 as usize, all * m.b + (1 << 32), all * m.b + (1 << 63)] {
        sound.data.told = told;
        if told != all * m.b {
            for call in [write(0, all), read(0, all), fetch(0, all)] {
                stand.as_model(call, &sound)?;
            }
        }
    }
    Ok(())
}

/// The shelves to be tried in this layout and with so many parities: these measures, with so much used. Each is tried
/// in one layout with one parity and in the other one with two, and those next to it the other way about.
fn cases(all: &[[usize; 6]], used: &[Used], [layout, parities]: [usize; 2]) -> Vec<([usize; 6], Used)> {
    let indices = (0..all.len()).flat_map(|measures| (0..used.len()).map(move |used| (measures, used)));
    let is_tried = |&(measures, used): &(usize, usize)| (measures + used + layout + parities) % 2 == 0;
    indices.filter(is_tried).map(|(at, how)| (all[at], used[how])).collect()
}

/// Tries the shelves at the limits in this layout and with so many parities. Hands back how many there are.
fn all(kind: [usize; 2], counts: &mut Damaged, stand: &mut Stand, random: &mut Random) -> Result<usize, String> {
    let whole = cases(&WHOLE, &[Used::Nothing, Used::All, Used::Most], kind);
    let told = cases(&TOLD, &[Used::Nothing, Used::All], kind);
    let shelves = whole.len() + told.len();
    for (measures, used) in whole {
        let shelf = shelf(measures, kind, used, random);
        damaged(&shelf, counts, stand, random)?;
        if used != Used::Most {
            tried(&shelf, stand)?;
            stand.as_model(Call::Format, &shelf)?;
        }
        served(&shelf, stand)?;
        worn_out(shelf, stand, random)?;
    }
    for (measures, used) in told {
        let shelf = shelf(measures, kind, used, random);
        damaged(&shelf, counts, stand, random)?;
        tried(&shelf, stand)?;
        refused(&shelf, stand)?;
    }
    Ok(shelves)
}

/// Tries the shelves in both layouts and with both counts of parities. Fails unless a list was damaged in each way in
/// either layout.
pub fn group(seed: u64) -> Outcome {
    let random = &mut Random::new(seed, 7);
    let stand = &mut Stand::default();
    let (mut least, mut shelves) = (usize::MAX, 0);
    for layout in [0, 1] {
        let mut counts = [0; OF_LIST.len()];
        for parities in [1, 2] {
            shelves += all([layout, parities], &mut counts, stand, random)?;
        }
        if let Some(at) = counts.iter().position(|&count| count == 0) {
            return Err(format!("no list was damaged to have {:?} in layout {layout}", OF_LIST[at]));
        }
        least = counts.into_iter().fold(least, usize::min);
    }
    Ok(format!(
        "{} calls on {shelves} shelves at the limits in both layouts with both counts of parities, {least} lists at \
         least damaged in each way; seed {seed}",
        stand.calls
    ))
}
