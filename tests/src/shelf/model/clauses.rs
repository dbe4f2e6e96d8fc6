//! The faults for which row 3 applies to a list, found on a walk over its chains and a look at its places.

use super::layout::List;
use super::numbers::Fault::{self, *};
use super::numbers::{Faults, NONE};
use crate::shelf::harness::calls::{Measures, Record};

/// What a walk over the chains of a list gathers: the faults, the listed ones of the addresses below d times S, in which
/// chain each place is, and the listed addresses that lack Ori.
pub struct Walk {
    pub faults: Faults,
    pub is_listed: Vec<bool>,
    chain_of: Vec<Option<usize>>,
    lack_ori: Vec<usize>,
}

/// Walks a list of the right length, with measures in their ranges.
pub fn list_walk(r: &Record, bytes: &[u8]) -> Walk {
    let Measures { d, s, h, e, .. } = r.measures;
    let list = List::of(r.measures, bytes);
    let mut walk = Walk {
        faults: Faults::default(),
        is_listed: vec![false; d * s],
        chain_of: vec![None; e],
        lack_ori: Vec::new(),
    };
    for slot in 0..h {
        walk.chain(r, &list, slot);
    }
    let is_whole = |address: usize| walk.is_listed[address / d * d..][..d].iter().all(|&listed| listed);
    let all_whole = walk.lack_ori.iter().all(|&address| is_whole(address));
    walk.faults.add(StripeNotWhole, !all_whole);
    walk.places(r, &list);
    walk
}

impl Walk {
    /// Follows the chain of a slot.
    fn chain(&mut self, r: &Record, list: &List, slot: usize) {
        let (mut at, mut is_head, mut last) = (list.heads[slot], true, 0);
        while at != NONE && self.goes_on(list, slot, at as usize, is_head) {
            let [address, ori, cur, next] = list.places[at as usize];
            self.entry(r, slot, [address, ori, cur]);
            self.faults.add(ChainFalls, address < last);
            (at, is_head, last) = (next, false, address);
        }
    }

    /// Comes to a place from a slot's head or from a Next; whether the chain can be followed further.
    fn goes_on(&mut self, list: &List, slot: usize, place: usize, is_head: bool) -> bool {
        let either = |head: Fault, next: Fault| if is_head { head } else { next };
        let fault = match self.chain_of.get(place) {
            None => either(HeadLeaves, NextLeaves),
            Some(Some(chain)) if *chain == slot => ChainRepeats,
            Some(Some(_)) => either(HeadMeets, NextMeets),
            Some(None) if list.places[place] == [NONE; 4] => either(HeadToUnused, NextToUnused),
            Some(None) => {
                self.chain_of[place] = Some(slot);
                return true;
            }
        };
        self.faults.add(fault, true);
        false
    }

    /// Adds the faults of an entry in a slot's chain: its address, Ori and Cur.
    fn entry(&mut self, r: &Record, slot: usize, [address, ori, cur]: [u32; 3]) {
        let block = address as usize;
        let bad = |record: u32| record != NONE && record as usize >= r.next;
        self.faults.add(WrongSlot, block % r.measures.h != slot);
        self.faults.add(OriAboveNext, bad(ori));
        self.faults.add(CurAboveNext, bad(cur));
        self.faults.add(BothNone, ori == NONE && cur == NONE);
        match self.is_listed.get(block) {
            None => self.faults.add(AddressAbove, true),
            Some(&listed) => {
                self.faults.add(AddressTwice, listed);
                self.is_listed[block] = true;
                if ori == NONE {
                    self.lack_ori.push(block);
                }
            }
        }
    }

    /// Adds the faults of the count and of the places. A place below the count that has an address and is in no chain
    /// is skipped by its chain; any other that is in no chain is unused.
    fn places(&mut self, r: &Record, list: &List) {
        let is_reached = |place: usize| self.chain_of[place].is_some();
        let is_skipped = |place: usize| !is_reached(place) && place < r.listed && list.places[place][0] != NONE;
        let all = 0..list.places.len();
        let reached: Vec<usize> = all.clone().filter(|&place| is_reached(place)).collect();
        let skipped = all.clone().filter(|&place| is_skipped(place)).count();
        let unused: Vec<usize> = all.filter(|&place| !is_reached(place) && !is_skipped(place)).collect();
        let span = reached.first().copied().unwrap_or(0)..reached.last().copied().unwrap_or(0);
        let faults = &mut self.faults;
        faults.add(ChainSkips, skipped > 0);
        faults.add(FewerThanListed, reached.len() + skipped < r.listed);
        faults.add(MoreThanListed, reached.len() > r.listed);
        faults.add(GapAtStart, !reached.is_empty() && unused.first() == Some(&0));
        faults.add(GapBetween, unused.iter().any(|place| span.contains(place)));
        faults.add(PlacesFall, reached.windows(2).any(|pair| list.places[pair[0]][0] > list.places[pair[1]][0]));
        for (at, fault) in [UnusedAddress, UnusedOri, UnusedCur, UnusedNext].into_iter().enumerate() {
            faults.add(fault, unused.iter().any(|&place| list.places[place][at] != NONE));
        }
    }
}
