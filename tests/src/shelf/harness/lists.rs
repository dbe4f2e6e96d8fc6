//! Random lists: valid ones, and ones in other arrangements that say the same.

use super::calls::{Measures, Record};
use crate::random::Random;
use crate::shelf::model::layout::{Entries, List};
use crate::shelf::model::numbers::NONE;

/// A random number below n, which is not 0.
pub fn pick(n: usize, random: &mut Random) -> usize {
    random.below(n as u64) as usize
}

/// One of the values, if there is any.
pub fn one_of<T: Copy>(values: &[T], random: &mut Random) -> Option<T> {
    match values.len() {
        0 => None,
        n => Some(values[pick(n, random)]),
    }
}

/// Puts the values in random order.
fn shuffle<T>(values: &mut [T], random: &mut Random) {
    for at in (1..values.len()).rev() {
        values.swap(at, pick(at + 1, random));
    }
}

/// So many addresses: of whole stripes and single ones, no address twice.
fn addresses(m: Measures, count: usize, random: &mut Random) -> Vec<usize> {
    let (mut taken, mut all) = (vec![false; m.d * m.s], Vec::new());
    let mut tries = 0;
    while all.len() < count {
        let address = pick(m.d * m.s, random);
        let wanted =
            if random.below(2) == 0 { address / m.d * m.d..address / m.d * m.d + m.d } else { address..address + 1 };
        let fresh: Vec<usize> = wanted.filter(|&address| !taken[address]).collect();
        tries += 1;
        let fitting = if tries < 4 * count && all.len() + fresh.len() > count { 0 } else { fresh.len() };
        for &address in fresh.iter().take(fitting.min(count - all.len())) {
            taken[address] = true;
            all.push(address);
        }
    }
    all
}

/// Words for a place that is not listed: none, small numbers, or anything.
fn junk(random: &mut Random) -> [u32; 4] {
    [(); 4].map(|_| match random.below(4) {
        0 => NONE,
        1 => random.next() as u32,
        _ => random.below(5) as u32,
    })
}

/// A valid list for a record whose counts are possible.
pub fn valid(r: &Record, random: &mut Random) -> List {
    let m = r.measures;
    let blocks = addresses(m, r.listed, random);
    let mut in_stripe = vec![0; m.s];
    blocks.iter().for_each(|block| in_stripe[block / m.d] += 1);
    let mut entries = Entries::new();
    for block in blocks {
        let [ori, cur] = [(); 2].map(|_| random.below(r.next as u64) as u32);
        let entry = match random.below(3) {
            0 if in_stripe[block / m.d] == m.d => [NONE, cur],
            1 => [ori, NONE],
            _ => [ori, cur],
        };
        entries.insert(block, entry);
    }
    List::one(m, &entries)
}

/// A list that says this in any arrangement: its blocks on shuffled places, each chain in any order, junk elsewhere.
pub fn shuffled(m: Measures, entries: &Entries, random: &mut Random) -> List {
    let mut list = List { heads: vec![NONE; m.h], places: (0..m.e).map(|_| junk(random)).collect() };
    let mut free: Vec<usize> = (0..m.e).collect();
    shuffle(&mut free, random);
    let mut chains = vec![Vec::new(); m.h];
    for ((&block, &[ori, cur]), &place) in entries.iter().zip(&free) {
        list.places[place] = [block as u32, ori, cur, NONE];
        chains[block % m.h].push(place);
    }
    for (slot, chain) in chains.iter_mut().enumerate() {
        shuffle(chain, random);
        list.link(slot, chain);
    }
    list
}
