//! Random stripes of every d, with one parity and with two, and of blocks from 1 to 4,096 bytes: parity made, every pair
//! of members recovered, or refused where there is one parity, and stripes whose parity is wrong treated by the rule.

use crate::calls::Call;
use crate::model;
use crate::published::Stripe;
use crate::random::Random;
use crate::stripes::{can_recover, pairs, recovery};
use crate::Outcome;

/// The block sizes: the least, the greatest, and those around the powers of 2 where code that goes by pieces changes.
const SIZES: [usize; 11] = [1, 2, 15, 16, 17, 63, 64, 65, 127, 512, 4096];

/// How many stripes were made, how many pairs of members recovered in sound ones and in as many with wrong parity, and
/// how many pairs were refused.
#[derive(Default)]
struct Counts {
    stripes: usize,
    recoveries: usize,
    refusals: usize,
}

/// A stripe of random data with the parity of the tests' arithmetic; fails unless the library makes the same.
fn made(d: usize, parities: usize, b: usize, random: &mut Random) -> Result<Stripe, String> {
    let before = random.bytes((d + parities) * b);
    let bytes = model::made(d, parities, b, &before);
    Call::make(d, parities, b).expect(&before, 0, &bytes)?;
    Ok(Stripe { d, parities, b, bytes })
}

/// Fails unless the library treats a stripe of these measures and of random bytes, parity too, as the rule says.
fn wrong_parity(stripe: &Stripe, x: usize, y: usize, random: &mut Random) -> Result<(), String> {
    let Stripe { d, parities, b, .. } = *stripe;
    let before = random.bytes((d + parities) * b);
    let after = model::recovered(d, parities, b, x, y, &before);
    Call::recover(d, parities, b, x, y).expect(&before, 0, &after).map_err(|fault| format!("wrong parity: {fault}"))
}

/// Goes through every ordered pair of a stripe's members.
fn recovered(stripe: &Stripe, counts: &mut Counts, random: &mut Random) -> Result<(), String> {
    for (x, y) in pairs(stripe.d + stripe.parities) {
        recovery(stripe, x, y, random)?;
        if can_recover(stripe.parities, x, y) {
            wrong_parity(stripe, x, y, random)?;
            counts.recoveries += 1;
        } else {
            counts.refusals += 1;
        }
    }
    Ok(())
}

/// Goes through every d, both counts of parities and every block size, with one more size at random for each d.
pub fn group(seed: u64) -> Outcome {
    let random = &mut Random::new(seed, 3);
    let mut counts = Counts::default();
    for d in 2..=16 {
        let any = 1 + random.below(4096) as usize;
        for b in SIZES.into_iter().chain([any]) {
            for parities in [1, 2] {
                let stripe = made(d, parities, b, random)?;
                counts.stripes += 1;
                recovered(&stripe, &mut counts, random)?;
            }
        }
    }
    let Counts { stripes, recoveries, refusals } = counts;
    let sound = format!("{recoveries} recoveries of sound stripes and as many with wrong parity");
    Ok(format!("{stripes} stripes made, {sound}, {refusals} pairs with 11; seed {seed}"))
}
