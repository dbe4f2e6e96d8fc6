//! Damage to a valid list, or to the counts of its record, in ways that are named by the fault that they make. Apart from
//! that fault the list mostly stays in order.

use super::calls::{Measures, Record};
use super::lists::pick;
use crate::random::Random;
use crate::shelf::model::layout::{Entries, List};
use crate::shelf::model::numbers::{Fault, NONE};

/// A word next to none, none of 8, 16 or 31 bits, or none but for a bit.
fn near_none(random: &mut Random) -> u32 {
    match random.below(3) {
        0 => NONE - 1,
        1 => NONE >> [24, 16, 1][pick(3, random)],
        _ => NONE ^ 1 << pick(32, random),
    }
}

/// A word that is not below the limit and not none: often the limit itself, one that 8, 16 or 31 bits take for it, or
/// one that is near none.
fn word_from(limit: usize, random: &mut Random) -> u32 {
    let limit = limit as u32;
    let word = match random.below(7) {
        0 | 1 => limit,
        2 => limit + random.below(4) as u32,
        3 => limit.wrapping_add(1 << [8, 16, 31][pick(3, random)]),
        4 | 5 => near_none(random),
        _ => random.next() as u32,
    };
    if word < limit || word == NONE {
        limit
    } else {
        word
    }
}

/// A valid list under damage, with its record.
struct Damage<'a> {
    list: &'a mut List,
    record: &'a mut Record,
    random: &'a mut Random,
}

/// Damages a valid list, or the counts of its record, so that the fault applies; none where this list does not allow
/// it.
pub fn damage_list(fault: Fault, list: &mut List, record: &mut Record, random: &mut Random) -> Option<()> {
    let mut damage = Damage { list, record, random };
    match fault {
        Fault::ChainRepeats => damage.repeat(),
        Fault::HeadMeets => damage.meet(true),
        Fault::NextMeets => damage.meet(false),
        Fault::HeadLeaves => damage.leave(true),
        Fault::NextLeaves => damage.leave(false),
        Fault::HeadToUnused => damage.lead_to_unused(true),
        Fault::NextToUnused => damage.lead_to_unused(false),
        Fault::ChainSkips => damage.skip(),
        Fault::FewerThanListed => damage.fewer(),
        Fault::MoreThanListed => damage.more(),
        Fault::AddressAbove => damage.address_above(),
        Fault::WrongSlot => damage.wrong_slot(),
        Fault::AddressTwice => damage.twice(),
        Fault::OriAboveNext => damage.record_above(1),
        Fault::CurAboveNext => damage.record_above(2),
        Fault::BothNone => damage.both_none(),
        Fault::StripeNotWhole => damage.not_whole(),
        Fault::GapAtStart => damage.gap(true),
        Fault::GapBetween => damage.gap(false),
        Fault::PlacesFall => damage.places_fall(),
        Fault::ChainFalls => damage.chain_falls(),
        Fault::UnusedAddress => damage.unused(0),
        Fault::UnusedOri => damage.unused(1),
        Fault::UnusedCur => damage.unused(2),
        Fault::UnusedNext => damage.unused(3),
        _ => None,
    }
}

impl Damage<'_> {
    /// The measures of the shelf.
    fn measures(&self) -> Measures {
        self.record.measures
    }

    /// The slot to which a place's address belongs.
    fn slot(&self, place: usize) -> usize {
        self.list.places[place][0] as usize % self.measures().h
    }

    /// The places that belong to a slot, in rising address.
    fn chain(&self, slot: usize) -> Vec<usize> {
        let has_address = |&place: &usize| self.list.places[place][0] != NONE;
        let mut chain: Vec<usize> = (0..self.measures().e).filter(has_address).collect();
        chain.retain(|&place| self.slot(place) == slot);
        chain.sort_by_key(|&place| self.list.places[place][0]);
        chain
    }

    /// A place that is listed.
    fn some_place(&mut self) -> Option<usize> {
        (self.record.listed > 0).then(|| pick(self.record.listed, self.random))
    }

    /// A place that is not listed.
    fn unused_place(&mut self) -> Option<usize> {
        let unused = self.measures().e - self.record.listed;
        (unused > 0).then(|| self.record.listed + pick(unused, self.random))
    }

    /// Puts a word at the end of a slot's chain, in place of none.
    fn end_with(&mut self, slot: usize, word: usize) -> Option<()> {
        match self.chain(slot).last() {
            None => self.list.heads[slot] = word as u32,
            Some(&place) => self.list.places[place][3] = word as u32,
        }
        Some(())
    }

    /// Links the places with an address anew, each chain in rising address.
    fn link_all(&mut self) -> Option<()> {
        for slot in 0..self.measures().h {
            self.list.link(slot, &self.chain(slot));
        }
        Some(())
    }

    /// Makes the list the one for these entries.
    fn lay_out(&mut self, entries: &Entries) -> Option<()> {
        *self.list = List::one(self.measures(), entries);
        Some(())
    }

    /// A chain's end leads to a place of the same chain.
    fn repeat(&mut self) -> Option<()> {
        let place = self.some_place()?;
        self.end_with(self.slot(place), place)
    }

    /// The head of an empty slot, or a chain's end, leads to a place of another chain, so that a walk over the slots in
    /// rising order finds the fault at a head, or at a Next, as asked.
    fn meet(&mut self, head: bool) -> Option<()> {
        let place = self.some_place()?;
        let (slot, other) = (self.slot(place), pick(self.measures().h, self.random));
        let is_first = self.list.heads[slot] == place as u32;
        let meets = other > slot || other < slot && is_first == head;
        (meets && self.chain(other).is_empty() == head).then(|| self.end_with(other, place))?
    }

    /// A head or a Next leads to no place.
    fn leave(&mut self, head: bool) -> Option<()> {
        let (slot, word) = (pick(self.measures().h, self.random), word_from(self.measures().e, self.random));
        if head && self.random.below(4) == 0 {
            self.list.heads[slot] = word;
            return Some(());
        }
        (self.chain(slot).is_empty() == head).then(|| self.end_with(slot, word as usize))?
    }

    /// The head of an empty slot, or a chain's end, leads to an unused place.
    fn lead_to_unused(&mut self, head: bool) -> Option<()> {
        let (slot, place) = (pick(self.measures().h, self.random), self.unused_place()?);
        (self.chain(slot).is_empty() == head).then(|| self.end_with(slot, place))?
    }

    /// A head or a Next leads past one or more places of its chain.
    fn skip(&mut self) -> Option<()> {
        let place = self.some_place()?;
        let slot = self.slot(place);
        let chain = self.chain(slot);
        let at = pick(chain.len(), self.random);
        let to = at + 1 + pick(chain.len() - at, self.random);
        let word = chain.get(to).map_or(NONE, |&place| place as u32);
        match at {
            0 => self.list.heads[slot] = word,
            _ => self.list.places[chain[at - 1]][3] = word,
        }
        Some(())
    }

    /// An entry is taken out, or the count is raised.
    fn fewer(&mut self) -> Option<()> {
        if self.random.below(2) == 0 && 0 < self.record.listed && self.record.listed < self.measures().e {
            self.record.listed += 1;
            return Some(());
        }
        let place = self.some_place()?;
        let mut entries = self.list.entries();
        entries.remove(&(self.list.places[place][0] as usize));
        self.lay_out(&entries)
    }

    /// An entry is put in, or the count is lowered.
    fn more(&mut self) -> Option<()> {
        if self.random.below(2) == 0 && self.record.listed > 1 {
            self.record.listed -= 1;
            return Some(());
        }
        let Measures { d, s, e, .. } = self.measures();
        let (address, mut entries) = (pick(d * s, self.random), self.list.entries());
        let is_new = entries.insert(address, [0, NONE]).is_none();
        (is_new && entries.len() <= e).then(|| self.lay_out(&entries))?
    }

    /// A listed address, often the last one, becomes one that is not below d times S, if possible of the same slot.
    fn address_above(&mut self) -> Option<()> {
        let place = self.some_place()?;
        let place = if self.random.below(2) == 0 { self.record.listed - 1 } else { place };
        let Measures { d, s, h, .. } = self.measures();
        let (limit, slot) = (d * s, self.slot(place));
        self.list.places[place][0] = match self.random.below(4) {
            0 => NONE,
            1 => word_from(limit, self.random),
            _ => (limit + (h + slot - limit % h) % h) as u32,
        };
        Some(())
    }

    /// A place is put into another slot's chain, as the order of the addresses asks.
    fn wrong_slot(&mut self) -> Option<()> {
        let place = self.some_place()?;
        let (slot, other) = (self.slot(place), pick(self.measures().h, self.random));
        let (mut chain, mut wrong) = (self.chain(slot), self.chain(other));
        if other == slot {
            return None;
        }
        chain.retain(|&other| other != place);
        wrong.push(place);
        wrong.sort_unstable();
        self.list.link(slot, &chain);
        self.list.link(other, &wrong);
        Some(())
    }

    /// An address is listed a second time: at one more place next to its own, or at the next place, which had another.
    fn twice(&mut self) -> Option<()> {
        let place = self.some_place()?;
        if self.random.below(2) == 0 && self.record.listed < self.measures().e {
            let copy = self.list.places[place];
            self.list.places.pop();
            self.list.places.insert(place, copy);
            self.record.listed += 1;
        } else if place + 1 < self.record.listed {
            self.list.places[place + 1][0] = self.list.places[place][0];
        } else {
            return None;
        }
        self.link_all()
    }

    /// Ori (1) or Cur (2) becomes a record that is not below next.
    fn record_above(&mut self, at: usize) -> Option<()> {
        let place = self.some_place()?;
        self.list.places[place][at] = word_from(self.record.next, self.random);
        Some(())
    }

    /// Ori and Cur become none.
    fn both_none(&mut self) -> Option<()> {
        let place = self.some_place()?;
        (self.list.places[place][1], self.list.places[place][2]) = (NONE, NONE);
        Some(())
    }

    /// A block that lacks Ori stands in a stripe with an unlisted one: Ori goes, or another block of the stripe does.
    fn not_whole(&mut self) -> Option<()> {
        let place = self.some_place()?;
        let (d, mut entries) = (self.measures().d, self.list.entries());
        let address = self.list.places[place][0] as usize;
        let stripe = address / d * d..address / d * d + d;
        let of_stripe = entries.range(stripe).map(|(&other, &[ori, _])| (other, ori)).collect::<Vec<_>>();
        if of_stripe.len() < d {
            self.list.places[place][1] = NONE;
            self.list.places[place][2] = self.random.below(self.record.next as u64) as u32;
            return Some(());
        }
        entries.remove(&address);
        if !of_stripe.iter().any(|&(other, ori)| other != address && ori == NONE) {
            return None;
        }
        self.record.listed -= 1;
        self.lay_out(&entries)
    }

    /// The entries move up by one or more places, all of them or those from a later one on.
    fn gap(&mut self, at_start: bool) -> Option<()> {
        let (listed, unused) = (self.record.listed, self.measures().e - self.record.listed);
        let from = if at_start { 0 } else { 1 + self.some_place()? };
        if from >= listed || unused == 0 {
            return None;
        }
        let by = 1 + pick(unused, self.random);
        self.list.places[from..listed + by].rotate_right(by);
        self.link_all()
    }

    /// Two entries change places.
    fn places_fall(&mut self) -> Option<()> {
        let (place, other) = (self.some_place()?, self.some_place()?);
        self.list.places.swap(place, other);
        (place != other).then(|| self.link_all())?
    }

    /// Two places of a chain change their turns.
    fn chain_falls(&mut self) -> Option<()> {
        let (place, other) = (self.some_place()?, self.some_place()?);
        let slot = self.slot(place);
        let mut chain = self.chain(slot);
        let turns = [place, other].map(|place| chain.iter().position(|&other| other == place));
        let [Some(turn), Some(other)] = turns else {
            return None;
        };
        chain.swap(turn, other);
        self.list.link(slot, &chain);
        (turn != other).then_some(())
    }

    /// A word of an unused place becomes another than none.
    fn unused(&mut self, at: usize) -> Option<()> {
        let place = self.unused_place()?;
        let word = match self.random.below(4) {
            0 => 0,
            1 => self.random.below(5) as u32,
            2 => near_none(self.random),
            _ => self.random.next() as u32,
        };
        self.list.places[place][at] = word;
        (word != NONE).then_some(())
    }
}
