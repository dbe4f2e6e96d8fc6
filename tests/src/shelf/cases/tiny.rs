//! Complete walks of tiny shelves: every list of one or two slots and two places over the words that matter, with every
//! call on those that are sound, in both layouts and with both counts of parities; and every choice of these, d, mode,
//! failed members and call, with every member to fail and to put back.

use crate::random::Random;
use crate::shelf::harness::calls::{fetch, read, write, Buffer, Call, Measures, Record, Shelf};
use crate::shelf::harness::lists::pick;
use crate::shelf::harness::stand::Stand;
use crate::shelf::model::numbers::NONE;
use crate::shelf::model::works::outcome;
use crate::Outcome;

/// The words of a list of two places, of a shelf of two blocks where one log record is used: every place and the first
/// number that is no place, every address and the first number that is no address, the record that is used and one that
/// is not; and none.
const PLACES: [u32; 4] = [0, 1, 2, NONE];
const ADDRESSES: [u32; 4] = [0, 1, 2, NONE];
const RECORDS: [u32; 3] = [0, 1, NONE];

/// A shelf of one stripe of blocks of one byte, with P and Q that are fixed.
fn shelf(d: usize, l: usize, h: usize, e: usize, list: Vec<u8>) -> Shelf {
    let measures = Measures { d, s: 1, b: 1, l, h, e, layout: 0, parities: 2 };
    Shelf {
        record: Record { measures, mode: 0, next: 0, listed: 0, failed: [0; 19] },
        array: Buffer::of(array(measures)),
        log: Buffer::of((0..l).map(|at| at as u8 + 200).collect()),
        list: Buffer::of(list),
        data: Buffer::of(vec![33]),
    }
}

/// The array of such a shelf: another byte on each member.
fn array(m: Measures) -> Vec<u8> {
    (0..m.log()).map(|at| at as u8 + 100).collect()
}

/// The layouts, each with each count of parities.
const KINDS: [[usize; 2]; 4] = [[0, 1], [0, 2], [1, 1], [1, 2]];

/// Has the shelf be of this layout, with so many parities.
fn become_kind(shelf: &mut Shelf, [layout, parities]: [usize; 2]) {
    (shelf.record.measures.layout, shelf.record.measures.parities) = (layout, parities);
    shelf.array = Buffer::of(array(shelf.record.measures));
}

/// Takes the next list: the words are counted up like the digits of a number. Whether there is one.
fn next_list(digits: &mut [usize], choices: &[&[u32]], list: &mut [u8]) -> bool {
    for (at, words) in choices.iter().enumerate() {
        digits[at] = (digits[at] + 1) % words.len();
        list[4 * at..4 * at + 4].copy_from_slice(&words[digits[at]].to_le_bytes());
        if digits[at] != 0 {
            return true;
        }
    }
    false
}

/// The calls that test the list. One of them is made on every list, and all on those that have one fault only; full
/// resync, which takes any list, is made on every one too.
const TESTING: [Call; 9] = [
    Call::Start,
    Call::Fail(1),
    Call::PutBack(1),
    Call::NewLog,
    write(0, 1),
    read(1, 1),
    fetch(1, 1),
    Call::Resync,
    Call::Rebuild,
];

/// The calls that are made on every sound list, with each set of failed members.
const ON_SOUND: [Call; 11] = [
    write(0, 1),
    write(1, 1),
    write(0, 2),
    read(0, 1),
    read(1, 1),
    read(0, 2),
    fetch(0, 1),
    fetch(1, 1),
    fetch(0, 2),
    Call::Rebuild,
    Call::Resync,
];

/// The sets of failed members of a shelf with two data disks and two parities; the first five are those with one.
const FAILED: [&[usize]; 16] = [
    &[],
    &[0],
    &[1],
    &[2],
    &[3],
    &[4],
    &[0, 1],
    &[0, 2],
    &[0, 3],
    &[0, 4],
    &[1, 2],
    &[1, 3],
    &[1, 4],
    &[2, 3],
    &[2, 4],
    &[3, 4],
];

/// How many of the lists are sound, for each number of slots: the empty one; for either address alone one with Ori, and
/// one with Cur too; for both addresses each with Ori, with Cur or with both.
const SOUND: usize = 1 + 2 * 2 + 3 * 3;

/// Walks all lists of so many slots, with the counts that are possible, each in either layout and with either count of
/// parities. Fails unless as many as are sound pass.
fn all_lists(h: usize, stand: &mut Stand, random: &mut Random) -> Result<(), String> {
    let place: [&[u32]; 4] = [&ADDRESSES, &RECORDS, &RECORDS, &PLACES];
    let choices: Vec<&[u32]> = [&PLACES[..]].repeat(h).into_iter().chain(place).chain(place).collect();
    let mut shelf = shelf(2, 3, h, 2, vec![0; 4 * choices.len()]);
    let (mut digits, mut passed) = (vec![0; choices.len()], 0);
    loop {
        for (mode, next, listed) in [(0, 0, 0), (1, 1, 1), (2, 1, 2)] {
            (shelf.record.mode, shelf.record.next, shelf.record.listed) = (mode, next, listed);
            become_kind(&mut shelf, KINDS[pick(4, random)]);
            match stand.as_model(TESTING[pick(TESTING.len(), random)], &shelf)?.faults[2].count() {
                0 => {
                    passed += 1;
                    sound_list(&shelf, stand)?;
                }
                1 => TESTING.iter().try_for_each(|&call| stand.as_model(call, &shelf).map(|_| ()))?,
                _ => {}
            }
        }
        stand.as_model(Call::FullResync, &shelf)?;
        if !next_list(&mut digits, &choices, &mut shelf.list.bytes) {
            break;
        }
    }
    match passed == SOUND {
        true => Ok(()),
        false => Err(format!("{passed} lists of {h} slots pass, not {SOUND}")),
    }
}

/// Makes the calls of a sound list, each with each set of failed members, in both layouts and with both counts.
fn sound_list(shelf: &Shelf, stand: &mut Stand) -> Result<(), String> {
    let mut shelf = shelf.clone();
    let sets = |[_, parities]: [usize; 2]| FAILED.into_iter().take(if parities == 1 { 5 } else { 16 });
    let cases = KINDS.into_iter().flat_map(|kind| sets(kind).map(move |failed| (failed, kind)));
    for (call, (failed, kind)) in ON_SOUND.into_iter().flat_map(|call| cases.clone().map(move |case| (call, case))) {
        become_kind(&mut shelf, kind);
        shelf.record.failed = [0; 19];
        failed.iter().for_each(|&member| shelf.record.failed[member] = 1);
        let (_, count) = call.blocks().unwrap_or((0, 0));
        shelf.data = Buffer::of([33, 44][..count].to_vec());
        stand.as_model(call, &shelf)?;
    }
    Ok(())
}

/// All sets of at most three of the nineteen flags.
fn flag_sets() -> Vec<[u8; 19]> {
    let mut sets = Vec::new();
    for x in 0..20 {
        for y in x..20 {
            for z in y..20 {
                let mut set = [0; 20];
                [x, y, z].into_iter().for_each(|member| set[member] = 1);
                let mut flags = [0; 19];
                flags.copy_from_slice(&set[..19]);
                sets.push(flags);
            }
        }
    }
    sets.sort_unstable();
    sets.dedup();
    sets
}

/// The calls that name a member.
const NAMING: [fn(usize) -> Call; 2] = [Call::Fail, Call::PutBack];

/// The members that are named beside 0 to 20: numbers that 8, 16 or 32 bits take for one of those, and the greatest
/// ones.
const FAR: [usize; 6] = [256, 65536 + 3, 1 << 32, (1 << 63) + 1, usize::MAX - 2, usize::MAX];

/// Walks every layout, count of parities, d, set of flags, mode with and without a listed block, and call, with every
/// member to fail and to put back. The sets go up to one flag more than may be set.
fn all_members(stand: &mut Stand) -> Result<(), String> {
    let word = |words: &[u32]| words.iter().flat_map(|word| word.to_le_bytes()).collect::<Vec<u8>>();
    let lists = [word(&[NONE; 5]), word(&[0, 1, 0, NONE, NONE])];
    let sets = flag_sets();
    for (d, kind) in (2..=16).flat_map(|d| KINDS.map(|kind| (d, kind))) {
        for (mode, listed) in (0..4).flat_map(|mode| [(mode, 0), (mode, 1)]) {
            let mut shelf = shelf(d, 1, 1, 1, lists[listed].clone());
            become_kind(&mut shelf, kind);
            (shelf.record.mode, shelf.record.next, shelf.record.listed) = (mode, listed, listed);
            for set in sets.iter().filter(|set| set.iter().sum::<u8>() as usize <= kind[1] + 1) {
                shelf.record.failed = *set;
                every_call(&shelf, stand)?;
            }
        }
    }
    Ok(())
}

/// Makes the calls of the walk over members on a shelf.
fn every_call(shelf: &Shelf, stand: &mut Stand) -> Result<(), String> {
    let started = stand.as_model(Call::Start, shelf)?.code();
    let last = shelf.record.measures.d - 1;
    for call in [Call::NewLog, Call::Resync, Call::Rebuild, Call::FullResync] {
        stand.as_model(call, shelf)?;
    }
    for call in [0, last].into_iter().flat_map(|address| [read(address, 1), fetch(address, 1), write(address, 1)]) {
        stand.as_model(call, shelf)?;
    }
    let some = [shelf.record.mode, shelf.record.measures.log()];
    let members = if started == 1 { some.to_vec() } else { (0..=20).chain(FAR).collect() };
    for call in members.into_iter().flat_map(|member| NAMING.map(|call| call(member))) {
        let found = stand.as_model(call, shelf)?;
        if found.code() == 0 && outcome(call, shelf, 0).0.record == shelf.record {
            return Err(format!("the model does not note {call:?} on a shelf of {shelf}"));
        }
    }
    Ok(())
}

/// Makes all three walks.
pub fn group(seed: u64) -> Outcome {
    let random = &mut Random::new(seed, 9);
    let mut stand = Stand::default();
    all_lists(1, &mut stand, random)?;
    all_lists(2, &mut stand, random)?;
    let lists = stand.calls;
    all_members(&mut stand)?;
    Ok(format!(
        "{lists} calls on all lists of two places, {} of which are sound; {} on every layout, count of parities, d, \
         mode, set of failed members and call, with every member to fail and to put back; seed {seed}",
        2 * SOUND,
        stand.calls - lists
    ))
}
