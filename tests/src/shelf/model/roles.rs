//! The roles of the members: which of them has which block of a stripe. The order is that of a stripe by itself: data 0
//! to d-1, then P, then Q where there are two parities.

use std::iter::successors;

use crate::shelf::harness::calls::Measures;

/// The members that have the blocks of a stripe, in the order of these. Where parity is fixed this is the order of
/// their numbers. Where it rotates, stripe 0 has P on the last member, and each later one on the member before, the
/// last again after the first; a walk from there up comes to Q, if there is one, to the data, and once round to the
/// parities again.
pub fn members(m: Measures, stripe: usize) -> Vec<usize> {
    let (all, last) = (m.log(), m.log() - 1);
    if m.layout == 0 {
        return (0..all).collect();
    }
    let after = |&member: &usize| Some(if member == last { 0 } else { member + 1 });
    let from_p = successors(Some(last - stripe % all), after);
    from_p.skip(m.parities).take(all).collect()
}
