//! The published stripes, with P and Q and without Q: made again by the library, and recovered from the loss of every
//! member and, with two parities, of every pair.

use crate::calls::Call;
use crate::model;
use crate::published::{stripes, Stripe};
use crate::random::Random;
use crate::Outcome;

/// Fails unless the published parity is that of the tests' own arithmetic and that of the library.
fn parity(stripe: &Stripe, random: &mut Random) -> Result<(), String> {
    let Stripe { d, parities, b, bytes } = stripe;
    let mut before = bytes.clone();
    random.fill(&mut before[d * b..]);
    if model::made(*d, *parities, *b, &before) != *bytes {
        return Err(format!("the tests' arithmetic makes another parity than the published one of d {d}, b {b}"));
    }
    Call::make(*d, *parities, *b).expect(&before, 0, bytes)
}

/// Fails unless the stripe is whole again after members x and y were overwritten and recovered; or, where one parity is
/// to recover two, the call gets 11 and stores nothing.
pub fn recovery(stripe: &Stripe, x: usize, y: usize, random: &mut Random) -> Result<(), String> {
    let Stripe { d, parities, b, bytes } = stripe;
    let mut before = bytes.clone();
    for member in [x, y] {
        random.fill(&mut before[member * b..][..*b]);
    }
    let call = Call::recover(*d, *parities, *b, x, y);
    match can_recover(*parities, x, y) {
        true => call.expect(&before, 0, bytes),
        false => call.expect(&before, 11, &before),
    }
}

/// Whether so many parities give members x and y back.
pub fn can_recover(parities: usize, x: usize, y: usize) -> bool {
    parities == 2 || x == y
}

/// Every ordered pair of so many members, also of a member with itself.
pub fn pairs(members: usize) -> impl Iterator<Item = (usize, usize)> {
    (0..members).flat_map(move |x| (0..members).map(move |y| (x, y)))
}

/// Replays every published stripe; hands back how many recoveries were made and how many were refused.
fn replayed(all: &[Stripe], random: &mut Random) -> Result<[usize; 2], String> {
    let mut counts = [0; 2];
    for stripe in all {
        parity(stripe, random)?;
        for (x, y) in pairs(stripe.d + stripe.parities) {
            recovery(stripe, x, y, random)?;
            counts[usize::from(!can_recover(stripe.parities, x, y))] += 1;
        }
    }
    Ok(counts)
}

/// Replays the published stripes as they are, and each without its Q.
pub fn group(seed: u64) -> Outcome {
    let random = &mut Random::new(seed, 2);
    let all = stripes()?;
    let single: Vec<Stripe> = all.iter().map(Stripe::without_q).collect();
    let [pairs, _] = replayed(&all, random)?;
    let [members, refused] = replayed(&single, random)?;
    let two = format!("{} published stripes made, {pairs} recoveries of a pair of members", all.len());
    Ok(format!("{two}; without Q as many made, {members} recoveries of a member, {refused} pairs with 11; seed {seed}"))
}
