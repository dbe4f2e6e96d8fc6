//! Random records: valid ones, ones damaged in a named way, and nonsense.

use super::calls::{Measures, Record};
use super::lists::{one_of, pick};
use crate::random::Random;
use crate::shelf::model::numbers::{self, failures, Fault, OF_MEASURES, RANGES};

/// Random measures of a small shelf, within the ranges.
pub fn measures(random: &mut Random) -> Measures {
    let most = if random.below(2) == 0 { 3 } else { 15 };
    Measures {
        d: 2 + pick(most, random),
        s: 1 + pick(6, random),
        b: 1 + pick(if random.below(10) == 0 { 40 } else { 3 }, random),
        l: 1 + pick(12, random),
        h: 1 + pick(5, random),
        e: 1 + pick(16, random),
        layout: pick(2, random),
        parities: 1 + pick(2, random),
    }
}

/// A number above the limit: next to it, one that 8, 16 or 32 bits would take for a small one, or far off.
pub fn above(limit: usize, random: &mut Random) -> usize {
    let number = match random.below(8) {
        0..=2 => limit + 1,
        3 => limit + 1 + pick(4, random),
        4 => (1 << [8, 16, 31, 32, 63][pick(5, random)]) + pick(limit + 1, random),
        5 => usize::MAX - pick(4, random),
        6 => (pick(limit + 1, random)).wrapping_sub(1 << [8, 16, 32][pick(3, random)]),
        _ => random.next() as usize,
    };
    if number > limit {
        number
    } else {
        limit + 1
    }
}

/// Sets the flags of some members.
fn set_flags(r: &mut Record, count: usize, members: &[usize], random: &mut Random) {
    for _ in 0..count {
        if let Some(member) = one_of(members, random) {
            r.failed[member] = 1;
        }
    }
}

/// The members of which a flag may be set in the record's mode; the log, if it may, thrice.
fn members(r: &Record) -> Vec<usize> {
    let log = r.measures.log();
    let logs = if r.mode == 1 { 0 } else { 3 };
    (0..log).chain([log; 3].into_iter().take(logs)).collect()
}

/// A random valid record with these measures.
pub fn valid(m: Measures, random: &mut Random) -> Record {
    let mode = pick(3, random);
    let listed = match mode {
        0 => 0,
        1 if random.below(3) == 0 => 0,
        _ => 1 + pick(m.e.min(m.d * m.s), random),
    };
    let next = if listed == 0 { 0 } else { 1 + pick(m.l, random) };
    let mut record = Record { measures: m, mode, next, listed, failed: [0; 19] };
    let count = pick(6, random).saturating_sub(2).min(m.parities);
    let members = members(&record);
    set_flags(&mut record, count, &members, random);
    record
}

/// Puts a value in the place of a measure.
pub fn put_measure(m: &mut Measures, at: usize, value: usize) {
    *[&mut m.d, &mut m.s, &mut m.b, &mut m.l, &mut m.h, &mut m.e, &mut m.layout, &mut m.parities][at] = value;
}

/// Damages a valid record so that the fault applies, if possible alone; none where this record does not allow it.
pub fn damage(fault: Fault, r: &mut Record, random: &mut Random) -> Option<()> {
    if let Some(index) = OF_MEASURES.iter().position(|&other| other == fault) {
        let (at, is_high) = numbers::side(index);
        let (low, high) = RANGES[at];
        let value = if is_high { above(high, random) } else { pick(low, random) };
        put_measure(&mut r.measures, at, value);
        return Some(());
    }
    let (log, limit, listed) = (r.measures.log(), r.measures.parities, r.listed > 0);
    let applies = match fault {
        Fault::FlagAboveLog => log < 18 && failures(r) < limit,
        Fault::NextAboveL | Fault::NormalWithListed => listed,
        Fault::NextWithoutListed | Fault::TransitionalWithoutListed => !listed,
        Fault::AcceleratingWithoutLog => r.mode == 1 && failures(r) < limit,
        Fault::ListedAboveE => r.mode != 0,
        _ => true,
    };
    match fault {
        _ if !applies => return None,
        Fault::ModeAbove2 => r.mode = above(2, random),
        Fault::FlagAboveLog => r.failed[log + 1 + pick(18 - log, random)] = 1,
        Fault::TooManyFlags => set_flags(r, limit + 1 + pick(3, random), &members(r), random),
        Fault::NextAboveL => r.next = above(r.measures.l, random),
        Fault::ListedAboveE => r.listed = above(r.measures.e, random),
        Fault::NextWithoutListed => r.next = 1 + pick(r.measures.l, random),
        Fault::NormalWithListed => r.mode = 0,
        Fault::TransitionalWithoutListed => r.mode = 2,
        Fault::AcceleratingWithoutLog => r.failed[log] = 1,
        _ => return None,
    }
    (fault != Fault::TooManyFlags || failures(r) > limit).then_some(())
}

/// Makes some measures, and sometimes the other numbers, anything.
pub fn garble(r: &mut Record, random: &mut Random) {
    for at in 0..RANGES.len() {
        if random.below(3) == 0 {
            let value = match random.below(4) {
                0 => 0,
                1 => numbers::values(r.measures)[at].wrapping_add(1 << [8, 16, 32, 63][pick(4, random)]),
                _ => above(pick(20, random), random),
            };
            put_measure(&mut r.measures, at, value);
        }
    }
    for number in [&mut r.mode, &mut r.next, &mut r.listed] {
        if random.below(6) == 0 {
            *number = above(pick(4, random), random);
        }
    }
}
