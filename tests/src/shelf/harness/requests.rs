//! Random requests: the address, the count of blocks and the length of the caller's data that a write or either read
//! gets.

use super::calls::{Buffer, Call, Measures};
use super::lists::pick;
use super::records::above;
use crate::random::Random;

/// The most bytes of data that are lent whole where the request must be refused.
const WHOLE: usize = 4096;

/// The bytes that are lent of longer data: the call must refuse it unseen.
const PART: usize = 64;

/// An address, a count of blocks, and the length of data to be told.
#[derive(Clone, Copy)]
pub struct Request {
    pub address: usize,
    pub count: usize,
    pub told: usize,
}

impl Request {
    /// A request with the length that it asks for, modulo 2^64.
    fn of(address: usize, count: usize, m: Measures) -> Request {
        Request { address, count, told: count.wrapping_mul(m.b) }
    }

    /// Whether neither address nor length is wrong.
    fn is_right(self, m: Measures) -> bool {
        let wide = |number: usize| number as u128;
        let (d, s, b) = (wide(m.d), wide(m.s), wide(m.b));
        0 < self.count && wide(self.address) + wide(self.count) <= d * s && wide(self.told) == wide(self.count) * b
    }

    /// Random data for the request: whole where it may be accepted.
    pub fn data(self, m: Measures, random: &mut Random) -> Buffer {
        let most = m.d.saturating_mul(m.s).saturating_mul(m.b);
        let whole = self.told <= WHOLE || self.is_right(m) && most < 1 << 24;
        Buffer { bytes: random.bytes(if whole { self.told } else { PART }), told: self.told }
    }

    /// The request as a call of this kind.
    pub fn call(self, kind: fn(usize, usize) -> Call) -> Call {
        kind(self.address, self.count)
    }
}

/// The count of blocks that a shelf has, within 1 and 2^24; measures may be anything.
fn blocks(m: Measures) -> usize {
    m.d.saturating_mul(m.s).clamp(1, 1 << 24)
}

/// A right request anywhere.
fn right(m: Measures, random: &mut Random) -> Request {
    at(pick(blocks(m), random), m, random)
}

/// A right request at or near an address: a block, some of a stripe, a whole stripe, some stripes, or all that is left.
pub fn at(address: usize, m: Measures, random: &mut Random) -> Request {
    let (total, d) = (blocks(m), m.d.clamp(1, 16));
    let (address, most) = match random.below(12) {
        0..=3 => (address, 1),
        4..=6 => (address, 1 + pick(d - address % d, random)),
        7 => (address / d * d, d),
        8 | 9 => (address, 1 + pick(3 * d, random)),
        10 => (address, total),
        _ => (0, 1 + pick(total, random)),
    };
    Request::of(address, most.min(total - address).max(1), m)
}

/// A request whose address or count is wrong: nothing, past the end by little or by far, or a sum that wraps round.
fn bad_address(m: Measures, random: &mut Random) -> Request {
    let (total, few) = (blocks(m), pick(4, random));
    let (address, count) = match random.below(10) {
        0 => (pick(total + 1, random), 0),
        1 => (usize::MAX, random.below(2) as usize),
        2 => (total, 1 + few),
        3 => (total - pick(total, random), total + 1),
        4 => (usize::MAX, 1 + few),
        5 => (usize::MAX - few, few + 1 + pick(total, random)),
        6 => (pick(total, random) + (1 << [8, 16, 32, 63][few]), 1),
        7 => (pick(total, random), 1 + (1 << [8, 16, 32, 63][few])),
        8 => (above(total, random), above(total, random)),
        _ => (u32::MAX as usize - few, 1 + pick(total, random)),
    };
    Request::of(address, count, m)
}

/// Tells another length of data: a neighbour, a block more or less, one that 8, 16 or 32 bits take for it, or nothing.
fn bad_length(right: Request, m: Measures, random: &mut Random) -> Request {
    let told = match random.below(8) {
        0 => right.told.wrapping_add(1),
        1 => right.told.wrapping_sub(1),
        2 => right.told.wrapping_add(m.b),
        3 => right.told.wrapping_sub(m.b),
        4 => right.told.wrapping_add(1 << [8, 16, 32, 63][pick(4, random)]),
        5 => 0,
        6 => right.count,
        _ => random.next() as usize,
    };
    Request { told, ..right }
}

/// A random request, right in all but some `wrong` of sixteen times.
pub fn some(m: Measures, wrong: u64, random: &mut Random) -> Request {
    if random.below(16) >= wrong {
        return right(m, random);
    }
    match random.below(4) {
        0 => bad_length(right(m, random), m, random),
        1 => bad_length(bad_address(m, random), m, random),
        _ => bad_address(m, random),
    }
}
