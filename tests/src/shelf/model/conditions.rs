//! Rows 4 to 16 of the table of numbers, each tried on its own.

use super::numbers::{failed, failures, in_ranges};
use super::roles;
use crate::shelf::harness::calls::{Call, Record, Shelf};

/// The bit of a number where it applies.
fn is(number: u32, applies: bool) -> u32 {
    u32::from(applies) << number
}

/// The numbers of rows 4 to 16 that apply to a call, bit n for number n. The flags tell for each address whether it is
/// listed; there are none where nothing can be said of the list.
pub fn conditions(call: Call, shelf: &Shelf, is_listed: &[bool]) -> u32 {
    let r = &shelf.record;
    let log = r.measures.log();
    let array_failed = (0..19).any(|member| member < log && failed(r, member));
    match call {
        Call::Format => 0,
        Call::Start => is(7, r.mode != 0) | is(8, array_failed) | is(9, failed(r, log)),
        Call::Fail(member) => {
            is(6, member > log) | is(10, failed(r, member)) | is(11, failures(r) >= r.measures.parities)
        }
        Call::PutBack(member) => is(6, member >= log) | is(12, !failed(r, member)),
        Call::NewLog => is(12, !failed(r, log)) | is(13, r.listed > 0),
        Call::Write { address, count } => request(shelf, address, count) | is(8, array_failed),
        Call::Read { address, count } => request(shelf, address, count) | is(16, lost(r, address, count)),
        Call::Fetch { address, count } => {
            let wanted = address..address.saturating_add(count);
            request(shelf, address, count) | is(14, withheld(shelf, is_listed, |block| wanted.contains(&block)))
        }
        Call::Resync => is(7, r.mode == 0) | is(8, array_failed),
        Call::Rebuild => is(12, !array_failed) | is(14, withheld(shelf, is_listed, |_| true)),
        Call::FullResync => is(8, array_failed),
    }
}

/// The numbers of a bad address and of bad data that apply to a request.
fn request(shelf: &Shelf, address: usize, count: usize) -> u32 {
    let wide = |number: usize| number as u128;
    let m = shelf.record.measures;
    let blocks = wide(m.d) * wide(m.s);
    let bad_address = count == 0 || wide(address) + wide(count) > blocks;
    is(4, bad_address) | is(5, wide(shelf.data.told) != wide(count) * wide(m.b))
}

/// Whether a wanted data block of one of these stripes is on a failed member.
fn on_failed(r: &Record, mut stripes: impl Iterator<Item = usize>, wanted: impl Fn(usize) -> bool) -> bool {
    let d = r.measures.d;
    stripes.any(|stripe| {
        let members = roles::members(r.measures, stripe);
        (0..d).any(|index| wanted(stripe * d + index) && failed(r, members[index]))
    })
}

/// Whether one of these blocks, as far as the shelf has them, is on a failed member. With measures out of their ranges
/// no block has a member.
fn lost(r: &Record, address: usize, count: usize) -> bool {
    let m = r.measures;
    if !in_ranges(m) {
        return false;
    }
    let wanted = address..address.saturating_add(count).min(m.d * m.s);
    on_failed(r, address / m.d..wanted.end.div_ceil(m.d), |block| wanted.contains(&block))
}

/// Whether the log failed and a wanted data block is on a failed member in a waiting stripe.
fn withheld(shelf: &Shelf, is_listed: &[bool], wanted: impl Fn(usize) -> bool) -> bool {
    let (r, d) = (&shelf.record, shelf.record.measures.d);
    if !failed(r, r.measures.log()) {
        return false;
    }
    let waiting = is_listed.chunks(d.max(1)).enumerate().filter(|(_, blocks)| blocks.contains(&true));
    on_failed(r, waiting.map(|(stripe, _)| stripe), wanted)
}
