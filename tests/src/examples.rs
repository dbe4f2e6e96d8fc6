//! The marked examples K1 to K7.

use crate::calls::{probe_mul, Call};
use crate::field::{mul, power};
use crate::Outcome;

/// A byte of a missing block before it is recovered, or of a parity before it is made.
const JUNK: u8 = 0x77;

/// Fails unless a product is as expected by the tests' arithmetic and by the probe.
fn product(name: &str, a: u8, b: u8, expected: u8) -> Result<(), String> {
    let (own, probe) = (mul(a, b), probe_mul(a.into(), b.into()));
    if (own, probe) == (expected, expected.into()) {
        return Ok(());
    }
    Err(format!("{name}: {a} times {b} is {expected}, the tests' arithmetic has {own}, the probe {probe}"))
}

/// Fails unless 2 to the 15th is 38 by the tests' arithmetic and by the probe, which doubles 1 fifteen times.
fn fifteenth_power() -> Result<(), String> {
    let (own, probe) = (power(2, 15), (0..15).fold(1, |a, _| probe_mul(a, 2)));
    if (own, probe) == (38, 38) {
        return Ok(());
    }
    Err(format!("K2: 2 to the 15th is 38, the tests' arithmetic has {own}, the probe {probe}"))
}

/// Fails unless a call on a stripe of one-byte blocks leaves the bytes of `after`.
fn stripe(name: &str, call: Call, before: &[u8], after: &[u8]) -> Result<(), String> {
    call.expect(before, 0, after).map_err(|fault| format!("{name}: {fault}"))
}

/// Replays the seven examples.
pub fn group(_seed: u64) -> Outcome {
    product("K1", 2, 128, 29)?;
    fifteenth_power()?;
    product("K3", 2, 142, 1)?;
    stripe("K4", Call::make(3, 2, 1), &[1, 2, 3, JUNK, JUNK], &[1, 2, 3, 0, 9])?;
    stripe("K5", Call::recover(3, 2, 1, 0, 1), &[JUNK, JUNK, 3, 0, 9], &[1, 2, 3, 0, 9])?;
    stripe("K6", Call::make(2, 2, 1), &[128, 128, JUNK, JUNK], &[128, 128, 0, 157])?;
    stripe("K7", Call::recover(2, 2, 1, 0, 2), &[JUNK, 128, JUNK, 157], &[128, 128, 0, 157])?;
    Ok("K1 to K7".into())
}
