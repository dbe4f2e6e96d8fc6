//! A list in words, and the one list for what is listed.

use std::collections::BTreeMap;

use super::numbers::NONE;
use crate::shelf::harness::calls::{Measures, Record};

/// What a list says: Ori and Cur of each listed address.
pub type Entries = BTreeMap<usize, [u32; 2]>;

/// A list: the heads, and the places of four words: address, Ori, Cur, Next.
#[derive(Clone)]
pub struct List {
    pub heads: Vec<u32>,
    pub places: Vec<[u32; 4]>,
}

impl List {
    /// A list of these measures from its bytes.
    pub fn of(m: Measures, bytes: &[u8]) -> List {
        let words: Vec<u32> =
            bytes.chunks_exact(4).map(|word| u32::from_le_bytes([word[0], word[1], word[2], word[3]])).collect();
        let places = words[m.h..].chunks_exact(4).map(|place| [place[0], place[1], place[2], place[3]]).collect();
        List { heads: words[..m.h].to_vec(), places }
    }

    /// The one list for these entries: they fill places 0 upward in rising address, and each chain rises in address;
    /// every other word is none.
    pub fn one(m: Measures, entries: &Entries) -> List {
        let mut list = List { heads: vec![NONE; m.h], places: vec![[NONE; 4]; m.e] };
        for (place, (&address, &[ori, cur])) in entries.iter().enumerate().rev() {
            let head = &mut list.heads[address % m.h];
            list.places[place] = [address as u32, ori, cur, *head];
            *head = place as u32;
        }
        list
    }

    /// What the list says of the places that have an address.
    pub fn entries(&self) -> Entries {
        let listed = self.places.iter().filter(|place| place[0] != NONE);
        listed.map(|&[address, ori, cur, _]| (address as usize, [ori, cur])).collect()
    }

    /// The list in bytes.
    pub fn bytes(&self) -> Vec<u8> {
        self.heads.iter().chain(self.places.iter().flatten()).flat_map(|word| word.to_le_bytes()).collect()
    }

    /// Makes the places the chain of a slot, in this order.
    pub fn link(&mut self, slot: usize, chain: &[usize]) {
        let mut next = NONE;
        for &place in chain.iter().rev() {
            self.places[place][3] = next;
            next = place as u32;
        }
        self.heads[slot] = next;
    }
}

/// Whether a list of the right length is the one list for as many entries as the record counts, and for possible ones:
/// what its first places say is laid out anew and compared.
pub fn is_right(r: &Record, bytes: &[u8]) -> bool {
    let list = List::of(r.measures, bytes);
    let Some(first) = list.places.get(..r.listed) else {
        return false;
    };
    let entries = first.iter().map(|&[address, ori, cur, _]| (address as usize, [ori, cur])).collect();
    are_possible(r, &entries) && List::one(r.measures, &entries).bytes() == bytes
}

/// Whether all entries are possible: an address of the shelf; Ori and Cur used records or none; and where Ori is none,
/// Cur is not, and every block of the stripe is listed.
fn are_possible(r: &Record, entries: &Entries) -> bool {
    let Measures { d, s, .. } = r.measures;
    let is_used = |record: u32| record == NONE || (record as usize) < r.next;
    let is_whole = |stripe: usize| entries.range(stripe * d..(stripe + 1) * d).count() == d;
    entries.iter().all(|(&address, &[ori, cur])| {
        let has_original = ori != NONE || cur != NONE && is_whole(address / d);
        address < d * s && is_used(ori) && is_used(cur) && has_original
    })
}
