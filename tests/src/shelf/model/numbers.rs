//! What the calls on a shelf are to answer, written anew from the table of numbers: every row that applies is found,
//! and every fault for which one of the rows 1 to 3 applies.

use super::clauses::list_walk;
use super::conditions::conditions;
use super::layout;
use crate::shelf::harness::calls::{Call, Measures, Record, Shelf};

/// The word of the list that means none.
pub const NONE: u32 = 0xffff_ffff;

/// The faults of rows 1, 2 and 3, one for each clause of the table; where a clause has two sides, one for each.
#[derive(Clone, Copy, Debug, PartialEq)]
pub enum Fault {
    LowD,
    HighD,
    LowS,
    HighS,
    LowB,
    HighB,
    LowL,
    HighL,
    LowH,
    HighH,
    LowE,
    HighE,
    HighLayout,
    HighParities,
    LowParities,
    ModeAbove2,
    FlagAboveLog,
    TooManyFlags,
    NextAboveL,
    ListedAboveE,
    NextWithoutListed,
    NormalWithListed,
    TransitionalWithoutListed,
    AcceleratingWithoutLog,
    ArrayLength,
    LogLength,
    ListLength,
    ChainRepeats,
    HeadMeets,
    NextMeets,
    HeadLeaves,
    NextLeaves,
    HeadToUnused,
    NextToUnused,
    ChainSkips,
    FewerThanListed,
    MoreThanListed,
    AddressAbove,
    WrongSlot,
    AddressTwice,
    OriAboveNext,
    CurAboveNext,
    BothNone,
    StripeNotWhole,
    GapAtStart,
    GapBetween,
    PlacesFall,
    ChainFalls,
    UnusedAddress,
    UnusedOri,
    UnusedCur,
    UnusedNext,
}

use Fault::*;

/// The faults of the measures in the order of the record: each can be too high or too low, the layout too high only.
pub const OF_MEASURES: [Fault; 15] = [
    HighD,
    LowD,
    HighS,
    LowS,
    HighB,
    LowB,
    HighL,
    LowL,
    HighH,
    LowH,
    HighE,
    LowE,
    HighLayout,
    HighParities,
    LowParities,
];

/// The index of the layout's fault.
const OF_LAYOUT: usize = 12;

/// The faults of the rest of the record.
pub const OF_RECORD: [Fault; 9] = [
    ModeAbove2,
    FlagAboveLog,
    TooManyFlags,
    NextAboveL,
    ListedAboveE,
    NextWithoutListed,
    NormalWithListed,
    TransitionalWithoutListed,
    AcceleratingWithoutLog,
];

/// The faults of the lengths.
pub const OF_LENGTHS: [Fault; 3] = [ArrayLength, LogLength, ListLength];

/// The faults of the list: of what it says, and of its arrangement.
pub const OF_LIST: [Fault; 25] = [
    ChainRepeats,
    HeadMeets,
    NextMeets,
    HeadLeaves,
    NextLeaves,
    HeadToUnused,
    NextToUnused,
    ChainSkips,
    FewerThanListed,
    MoreThanListed,
    AddressAbove,
    WrongSlot,
    AddressTwice,
    OriAboveNext,
    CurAboveNext,
    BothNone,
    StripeNotWhole,
    GapAtStart,
    GapBetween,
    PlacesFall,
    ChainFalls,
    UnusedAddress,
    UnusedOri,
    UnusedCur,
    UnusedNext,
];

/// The least and the greatest value of each measure, in the order of the record.
pub const RANGES: [(usize, usize); 8] =
    [(2, 16), (1, 65536), (1, 4096), (1, 65536), (1, 256), (1, 4096), (0, 1), (1, 2)];

/// A set of faults.
#[derive(Clone, Copy, Default, PartialEq)]
pub struct Faults(u64);

impl Faults {
    /// Adds a fault where it applies.
    pub fn add(&mut self, fault: Fault, applies: bool) {
        self.0 |= u64::from(applies) << fault as u32;
    }

    /// Whether there is none.
    pub fn none(self) -> bool {
        self.0 == 0
    }

    /// Whether this one is there.
    pub fn has(self, fault: Fault) -> bool {
        self.0 >> fault as u32 & 1 == 1
    }

    /// The names of those that are there.
    pub fn names(self) -> String {
        let all = OF_MEASURES.iter().chain(&OF_RECORD).chain(&OF_LENGTHS).chain(&OF_LIST);
        let names: Vec<String> = all.filter(|&&fault| self.has(fault)).map(|fault| format!("{fault:?}")).collect();
        names.join(", ")
    }

    /// How many there are.
    pub fn count(self) -> u32 {
        self.0.count_ones()
    }

    /// Whether this one is there and no other.
    pub fn only(self, fault: Fault) -> bool {
        self.0 == 1 << fault as u32
    }
}

/// What applies to a call: the faults of each of the rows 1 to 3, and the numbers of all rows, bit n for number n. That
/// row 3 applies is found without the faults, by laying the list out anew.
pub struct Findings {
    pub faults: [Faults; 3],
    pub numbers: u32,
}

impl Findings {
    /// The number that is answered: that of the first row.
    pub fn code(&self) -> usize {
        match self.numbers {
            0 => 0,
            numbers => numbers.trailing_zeros() as usize,
        }
    }

    /// Whether row 3 applies just where one of its faults is found.
    pub fn agree(&self) -> bool {
        self.faults[2].none() == (self.numbers & 1 << 3 == 0)
    }
}

/// The measures as a list, in the order of the record.
pub fn values(m: Measures) -> [usize; 8] {
    [m.d, m.s, m.b, m.l, m.h, m.e, m.layout, m.parities]
}

/// The measure that the fault with this index among those of the measures is of, by its place in the record, and
/// whether it is too high. Each has a fault of this kind first, then one of the other, but the layout is never too low.
pub fn side(index: usize) -> (usize, bool) {
    let index = if index > OF_LAYOUT { index + 1 } else { index };
    (index / 2, index % 2 == 0)
}

/// The faults of the measures.
fn measure_faults(m: Measures) -> Faults {
    let mut faults = Faults::default();
    for (index, fault) in OF_MEASURES.into_iter().enumerate() {
        let (at, is_high) = side(index);
        let (value, (low, high)) = (values(m)[at], RANGES[at]);
        faults.add(fault, if is_high { value > high } else { value < low });
    }
    faults
}

/// Whether all measures are within their ranges.
pub fn in_ranges(m: Measures) -> bool {
    measure_faults(m).none()
}

/// Whether a member's flag is set; no flag is past the last one.
pub fn failed(record: &Record, member: usize) -> bool {
    record.failed.get(member).is_some_and(|&flag| flag != 0)
}

/// How many members have failed.
pub fn failures(record: &Record) -> usize {
    record.failed.iter().filter(|&&flag| flag != 0).count()
}

/// Adds the faults of the rest of the record. As many members may be failed as there are parities.
fn record_faults(r: &Record, faults: &mut Faults) {
    let log = r.measures.log();
    faults.add(ModeAbove2, r.mode > 2);
    faults.add(FlagAboveLog, (0..19).any(|member| member > log && failed(r, member)));
    faults.add(TooManyFlags, failures(r) > r.measures.parities);
    faults.add(NextAboveL, r.next > r.measures.l);
    faults.add(ListedAboveE, r.listed > r.measures.e);
    faults.add(NextWithoutListed, r.listed == 0 && r.next > 0);
    faults.add(NormalWithListed, r.mode == 0 && r.listed > 0);
    faults.add(TransitionalWithoutListed, r.mode == 2 && r.listed == 0);
    faults.add(AcceleratingWithoutLog, r.mode == 1 && failed(r, log));
}

/// The lengths of array, log and list that the measures ask for.
pub fn lengths(m: Measures) -> [u128; 3] {
    let [d, s, b, l, h, e, _, parities] = values(m).map(|value| value as u128);
    [(d + parities).saturating_mul(s).saturating_mul(b), l * b, 4 * h + 16 * e]
}

/// The faults of the lengths.
fn length_faults(shelf: &Shelf) -> Faults {
    let mut faults = Faults::default();
    let told = [shelf.array.told, shelf.log.told, shelf.list.told];
    for (fault, (told, right)) in OF_LENGTHS.into_iter().zip(told.into_iter().zip(lengths(shelf.record.measures))) {
        faults.add(fault, told as u128 != right);
    }
    faults
}

/// Finds all that applies to a call. Row 3 is looked for only where there is a list of the right length; a stripe waits
/// if a walk over that list, be it sound or not, comes to a block of it.
pub fn findings(call: Call, shelf: &Shelf) -> Findings {
    let r = &shelf.record;
    let measures = measure_faults(r.measures);
    let mut faults = [measures, length_faults(shelf), Faults::default()];
    let (mut is_listed, mut is_right) = (Vec::new(), true);
    if call != Call::Format {
        record_faults(r, &mut faults[0]);
        if call != Call::FullResync && measures.none() && !faults[1].has(ListLength) {
            let walk = list_walk(r, &shelf.list.bytes);
            (faults[2], is_listed) = (walk.faults, walk.is_listed);
            is_right = layout::is_right(r, &shelf.list.bytes);
        }
    }
    let mut numbers = conditions(call, shelf, &is_listed) | u32::from(!is_right) << 3;
    for (row, found) in faults.iter().take(2).enumerate() {
        numbers |= u32::from(!found.none()) << (row + 1);
    }
    Findings { faults, numbers }
}
