//! The calls of the archives. Each call on a buffer is made on a copy with guard bytes on both sides, and its answer
//! and its whole buffer are compared with what is expected.

use std::fmt;

/// The functions of the archives: the first two as include/stripe.h declares them, the others exports for tests.
mod archive {
    extern "C" {
        pub fn stripe_make_parity(d: u32, parities: u32, b: u32, stripe: *mut u8, len: usize) -> u32;
        pub fn stripe_recover(d: u32, parities: u32, b: u32, x: u32, y: u32, stripe: *mut u8, len: usize) -> u32;
        pub fn probe_mul(a: u32, b: u32) -> u32;
        pub fn probe_make_parity_all(d: u32, parities: u32, s: u32, b: u32, array: *mut u8, len: usize) -> u32;
    }
}

/// How many guard bytes stand on a side of a buffer: about as many as the largest block has.
const GUARD: usize = 4096;

/// The guard bytes: no two neighbours are alike.
static GUARDS: [u8; GUARD] = guards();

/// Works out the guard bytes.
const fn guards() -> [u8; GUARD] {
    let (mut bytes, mut at) = ([165u8; GUARD], 1);
    while at < GUARD {
        bytes[at] = bytes[at - 1].wrapping_add(89);
        at += 1;
    }
    bytes
}

/// A call and the numbers that it is given.
#[derive(Clone, Copy)]
pub enum Call {
    Make { d: u32, parities: u32, b: u32 },
    Recover { d: u32, parities: u32, b: u32, x: u32, y: u32 },
    MakeAll { d: u32, parities: u32, s: u32, b: u32 },
}

impl fmt::Display for Call {
    /// Writes the call as a failure names it.
    fn fmt(&self, out: &mut fmt::Formatter) -> fmt::Result {
        match self {
            Call::Make { d, parities, b } => write!(out, "stripe_make_parity(d {d}, parities {parities}, b {b}"),
            Call::Recover { d, parities, b, x, y } => {
                write!(out, "stripe_recover(d {d}, parities {parities}, b {b}, x {x}, y {y}")
            }
            Call::MakeAll { d, parities, s, b } => {
                write!(out, "probe_make_parity_all(d {d}, parities {parities}, s {s}, b {b}")
            }
        }
    }
}

impl Call {
    /// The call that makes the parity of a stripe.
    pub fn make(d: usize, parities: usize, b: usize) -> Call {
        Call::Make { d: d as u32, parities: parities as u32, b: b as u32 }
    }

    /// The call that recovers members x and y of a stripe.
    pub fn recover(d: usize, parities: usize, b: usize, x: usize, y: usize) -> Call {
        Call::Recover { d: d as u32, parities: parities as u32, b: b as u32, x: x as u32, y: y as u32 }
    }

    /// The call that makes the parity of every stripe of an array kept by member.
    pub fn make_all(d: usize, parities: usize, s: usize, b: usize) -> Call {
        Call::MakeAll { d: d as u32, parities: parities as u32, s: s as u32, b: b as u32 }
    }

    /// The d, parities, s and b that the call is given; s is 1 for a call on one stripe.
    pub fn measures(self) -> [u32; 4] {
        match self {
            Call::Make { d, parities, b } | Call::Recover { d, parities, b, .. } => [d, parities, 1, b],
            Call::MakeAll { d, parities, s, b } => [d, parities, s, b],
        }
    }

    /// A number from 0 to 15 by which the buffer is moved, so that calls get buffers at every alignment.
    fn shift(self) -> usize {
        let sum = match self {
            Call::Make { d, b, .. } => d.wrapping_add(b),
            Call::Recover { d, b, x, y, .. } => d.wrapping_add(b).wrapping_add(x.wrapping_mul(5)).wrapping_add(y),
            Call::MakeAll { d, s, b, .. } => d.wrapping_add(s.wrapping_mul(3)).wrapping_add(b),
        };
        sum as usize % 16
    }

    /// Makes the call on the bytes at an address.
    fn made_on(self, bytes: *mut u8, len: usize) -> u32 {
        // SAFETY: the address is that of a buffer of len bytes, or len is one that the call must refuse unseen.
        unsafe {
            match self {
                Call::Make { d, parities, b } => archive::stripe_make_parity(d, parities, b, bytes, len),
                Call::Recover { d, parities, b, x, y } => archive::stripe_recover(d, parities, b, x, y, bytes, len),
                Call::MakeAll { d, parities, s, b } => archive::probe_make_parity_all(d, parities, s, b, bytes, len),
            }
        }
    }

    /// Fails unless the call on these bytes answers the code and leaves the bytes of `after`.
    pub fn expect(self, before: &[u8], code: u32, after: &[u8]) -> Result<(), String> {
        self.expect_with_length(before, before.len(), code, after)
    }

    /// The same with another length than that of the bytes told to the call.
    pub fn expect_with_length(self, before: &[u8], len: usize, code: u32, after: &[u8]) -> Result<(), String> {
        let fault = |what: String| format!("{self}, len {len}): {what}");
        let (answer, found) = self.run(before, len).map_err(fault)?;
        if answer != code {
            return Err(fault(format!("answers {answer}, not {code}")));
        }
        match difference(self.measures(), &found, after) {
            Some(what) => Err(fault(format!("answers {answer} as it must, but {what}"))),
            None => Ok(()),
        }
    }

    /// Makes the call on a guarded copy of the bytes; hands back its answer and the bytes it left.
    fn run(self, before: &[u8], len: usize) -> Result<(u32, Vec<u8>), String> {
        let start = GUARD - 16 + self.shift();
        let end = start + before.len();
        let mut room = [&GUARDS[..start], before, &GUARDS].concat();
        let answer = self.made_on(room[start..end].as_mut_ptr(), len);
        if let Some(at) = (0..start).rev().find(|&at| room[at] != GUARDS[at]) {
            return Err(format!("the byte {} before the buffer is overwritten", start - at));
        }
        if let Some(at) = (0..GUARD).find(|&at| room[end + at] != GUARDS[at]) {
            return Err(format!("the byte {} after the buffer is overwritten", at + 1));
        }
        Ok((answer, room[start..end].to_vec()))
    }
}

/// What tells two buffers apart, if anything does: the first byte that differs, by its place.
fn difference(measures: [u32; 4], found: &[u8], expected: &[u8]) -> Option<String> {
    if found == expected {
        return None;
    }
    let differs = |at: &usize| found[*at] != expected[*at];
    let first = (0..expected.len()).find(differs)?;
    let count = (first..expected.len()).filter(differs).count();
    let (place, is, not) = (place(measures, first as u64), found[first], expected[first]);
    Some(format!("{place} is {is}, not {not} ({count} of {} bytes differ)", expected.len()))
}

/// The place of a byte as a failure names it: the member it belongs to and, where there are several, the stripe.
fn place([d, parities, s, b]: [u32; 4], at: u64) -> String {
    let (s, b) = (u64::from(s.max(1)), u64::from(b));
    let block = at.checked_div(b).unwrap_or(0);
    let (member, stripe, in_block) = (block / s, block % s, at - block * b);
    let name = match member.checked_sub(u64::from(d)) {
        None => format!("data {member}"),
        Some(0) => "P".into(),
        Some(1) if parities == 2 => "Q".into(),
        Some(_) => format!("block {member}"),
    };
    match s {
        1 => format!("byte {in_block} of {name}"),
        _ => format!("byte {in_block} of {name} of stripe {stripe}"),
    }
}

/// The product of the low bytes of two numbers, as the library's field gives it.
pub fn probe_mul(a: u32, b: u32) -> u32 {
    // SAFETY: the function takes any two numbers and no address.
    unsafe { archive::probe_mul(a, b) }
}
