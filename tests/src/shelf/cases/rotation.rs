//! Rebuilds where parity rotates, by hand: which stripes have their parity made and their listed blocks dropped, which
//! bytes and entries stay, and the mode after it. Beside it the same calls where parity is fixed; and both with one
//! parity.

use crate::shelf::harness::calls::{fetch, write, Buffer, Call, Measures};
use crate::shelf::harness::pair::Pair;
use crate::shelf::harness::stand::Stand;
use crate::shelf::model::layout::List as Words;
use crate::shelf::model::numbers::NONE as N;
use crate::Outcome;

/// The shelf: three data disks, five stripes of blocks of one byte. Where parity rotates, its blocks stand so, with two
/// parities and with one:
///
/// ```text
/// stripe     0   1   2   3   4     0   1   2   3   4
/// member 0   Q   0   1   2   P     0   1   2   P   0
/// member 1   0   1   2   P   Q     1   2   P   0   1
/// member 2   1   2   P   Q   0     2   P   0   1   2
/// member 3   2   P   Q   0   1     P   0   1   2   P
/// member 4   P   Q   0   1   2
/// ```
const fn measures([layout, parities]: Kind) -> Measures {
    Measures { d: 3, s: 5, b: 1, l: 12, h: 2, e: 8, layout, parities }
}

/// A layout and a count of parities.
type Kind = [usize; 2];

/// The log of that shelf with two parities, and the two stripes in which each member has P or Q where they rotate.
const LOG: usize = 5;
const PARITY_OF: [&[usize]; 5] = [&[0, 4], &[3, 4], &[2, 3], &[1, 2], &[0, 1]];

/// The same with one parity: the stripes in which each member has P.
const LOG_OF_ONE: usize = 4;
const P_OF: [&[usize]; 4] = [&[3], &[2], &[1], &[0, 4]];

/// What is written first, in mode 0: the blocks 1 to 15, three a stripe.
const FIRST: [u8; 15] = [1, 2, 3, 4, 5, 6, 7, 8, 9, 10, 11, 12, 13, 14, 15];

/// The write in each stripe that makes it stale: the address of the first block, and the new blocks. In stripe 4 the
/// third block is then listed with an Ori only, and the two others with a Cur only.
const LATER: [(usize, &[u8]); 5] = [(1, &[21]), (3, &[24]), (6, &[27]), (9, &[30]), (12, &[33, 36])];

/// The addresses that this lists in each stripe, and how many log records it takes.
const LISTED: [&[usize]; 5] = [&[1], &[3], &[6], &[9], &[12, 13, 14]];
const RECORDS: [usize; 5] = [2, 2, 2, 2, 3];

/// A stripe: as it was first written; stale, with new data and old parity; or with the parity of the new data.
#[derive(Clone, Copy, PartialEq)]
enum Stripe {
    First,
    Stale,
    Made,
}

use Stripe::{First as F, Made as M, Stale as S};

/// The bytes of each stripe as it is first written, stale, and made, by member: where parity is fixed and where it
/// rotates.
const BYTES: [[[[u8; 5]; 5]; 3]; 2] = [
    [
        [[1, 2, 3, 0, 9], [4, 5, 6, 7, 22], [7, 8, 9, 6, 51], [10, 11, 12, 13, 44], [13, 14, 15, 12, 45]],
        [[1, 21, 3, 0, 9], [24, 5, 6, 7, 22], [27, 8, 9, 6, 51], [30, 11, 12, 13, 44], [33, 36, 15, 12, 45]],
        [[1, 21, 3, 23, 39], [24, 5, 6, 27, 10], [27, 8, 9, 26, 47], [30, 11, 12, 25, 56], [33, 36, 15, 10, 85]],
    ],
    [
        [[9, 1, 2, 3, 0], [4, 5, 6, 7, 22], [8, 9, 6, 51, 7], [12, 13, 44, 10, 11], [12, 45, 13, 14, 15]],
        [[9, 1, 21, 3, 0], [24, 5, 6, 7, 22], [8, 9, 6, 51, 27], [12, 13, 44, 30, 11], [12, 45, 33, 36, 15]],
        [[39, 1, 21, 3, 23], [24, 5, 6, 27, 10], [8, 9, 26, 47, 27], [12, 25, 56, 30, 11], [10, 85, 33, 36, 15]],
    ],
];

/// The same with one parity.
const BYTES_OF_ONE: [[[[u8; 4]; 5]; 3]; 2] = [
    [
        [[1, 2, 3, 0], [4, 5, 6, 7], [7, 8, 9, 6], [10, 11, 12, 13], [13, 14, 15, 12]],
        [[1, 21, 3, 0], [24, 5, 6, 7], [27, 8, 9, 6], [30, 11, 12, 13], [33, 36, 15, 12]],
        [[1, 21, 3, 23], [24, 5, 6, 27], [27, 8, 9, 26], [30, 11, 12, 25], [33, 36, 15, 10]],
    ],
    [
        [[1, 2, 3, 0], [5, 6, 7, 4], [9, 6, 7, 8], [13, 10, 11, 12], [13, 14, 15, 12]],
        [[1, 21, 3, 0], [5, 6, 7, 24], [9, 6, 27, 8], [13, 30, 11, 12], [33, 36, 15, 12]],
        [[1, 21, 3, 23], [5, 6, 27, 24], [9, 26, 27, 8], [25, 30, 11, 12], [33, 36, 15, 10]],
    ],
];

/// A rebuild: the mode before it (0: the shelf was not started, 2: the lowest stale stripe was resynced), the stripes
/// that were made stale, one after another, and the members that failed; then what is due: the number, mode and next,
/// the listed places (address, Ori, Cur), and the stripes.
type Case = (usize, &'static [usize], &'static [usize], [usize; 3], &'static [[u32; 3]], [Stripe; 5]);

/// All five stripes, and what is listed from stripe 0, 1, 2 or 3 on where all were made stale in rising order.
const ALL: &[usize] = &[0, 1, 2, 3, 4];
const FROM_0: &[[u32; 3]] = &[[1, 0, 1], [3, 2, 3], [6, 4, 5], [9, 6, 7], [12, N, 9], [13, N, 10], [14, 8, N]];
const FROM_1: &[[u32; 3]] = &[[3, 2, 3], [6, 4, 5], [9, 6, 7], [12, N, 9], [13, N, 10], [14, 8, N]];
const FROM_2: &[[u32; 3]] = &[[6, 4, 5], [9, 6, 7], [12, N, 9], [13, N, 10], [14, 8, N]];
const FROM_3: &[[u32; 3]] = &[[9, 6, 7], [12, N, 9], [13, N, 10], [14, 8, N]];

/// Member 4 has P of stripe 0, Q of stripe 1, data of the others. Nothing is stale; one stripe is: where it has P,
/// where it has Q, where its block has a Cur, is unlisted, has an Ori only; some are; all are, listed in falling order
/// too. At last member 2 fails, which has P and Q in the middle. The mode remains.
const ONE_FAILS: [Case; 13] = [
    (0, &[], &[4], [0, 0, 0], &[], [F, F, F, F, F]),
    (1, &[], &[4], [0, 1, 0], &[], [F, F, F, F, F]),
    (1, &[0], &[4], [0, 1, 0], &[], [M, F, F, F, F]),
    (1, &[1], &[4], [0, 1, 0], &[], [F, M, F, F, F]),
    (1, &[2], &[4], [0, 1, 2], &[[6, 0, 1]], [F, F, S, F, F]),
    (1, &[3], &[4], [0, 1, 2], &[[9, 0, 1]], [F, F, F, S, F]),
    (1, &[4], &[4], [0, 1, 3], &[[12, N, 1], [13, N, 2], [14, 0, N]], [F, F, F, F, S]),
    (1, &[0, 1], &[4], [0, 1, 0], &[], [M, M, F, F, F]),
    (1, &[0, 2], &[4], [0, 1, 4], &[[6, 2, 3]], [M, F, S, F, F]),
    (1, &[3, 1], &[4], [0, 1, 4], &[[9, 0, 1]], [F, M, F, S, F]),
    (1, ALL, &[4], [0, 1, 11], FROM_2, [M, M, S, S, S]),
    (
        1,
        &[4, 3, 2, 1, 0],
        &[4],
        [0, 1, 11],
        &[[6, 5, 6], [9, 3, 4], [12, N, 1], [13, N, 2], [14, 0, N]],
        [M, M, S, S, S],
    ),
    (1, ALL, &[2], [0, 1, 11], &[[1, 0, 1], [3, 2, 3], [12, N, 9], [13, N, 10], [14, 8, N]], [S, S, M, M, S]),
];

/// In mode 2: what is left of the list keeps the mode, and an empty list ends it.
const TRANSITIONAL: [Case; 6] = [
    (2, ALL, &[4], [0, 2, 11], FROM_2, [M, M, S, S, S]),
    (2, ALL, &[3], [0, 2, 11], FROM_3, [M, M, M, S, S]),
    (2, &[0, 2], &[4], [0, 2, 4], &[[6, 2, 3]], [M, F, S, F, F]),
    (2, &[0, 1], &[4], [0, 0, 0], &[], [M, M, F, F, F]),
    (2, &[0, 1, 2], &[3], [0, 0, 0], &[], [M, M, M, F, F]),
    (2, &[2, 3], &[1], [0, 0, 0], &[], [F, F, M, M, F]),
];

/// Two members fail at once. In stripe 3 members 4 and 0 both have unlisted data; in stripe 4 members 4 and 3 have the
/// blocks with an Ori only and with a Cur only.
const TWO_FAIL: [Case; 7] = [
    (1, ALL, &[4, 0], [0, 1, 11], &[[6, 4, 5], [9, 6, 7]], [M, M, S, S, M]),
    (1, ALL, &[3, 4], [0, 1, 11], FROM_3, [M, M, M, S, S]),
    (1, ALL, &[2, 4], [0, 1, 11], &[[12, N, 9], [13, N, 10], [14, 8, N]], [M, M, M, M, S]),
    (1, ALL, &[1, 3], [0, 1, 11], &[[1, 0, 1]], [S, M, M, M, M]),
    (1, ALL, &[1, 4], [0, 1, 11], &[[6, 4, 5]], [M, M, S, M, M]),
    (1, &[0, 4], &[0, 4], [0, 1, 0], &[], [M, F, F, F, M]),
    (2, ALL, &[1, 3], [0, 0, 0], &[], [M, M, M, M, M]),
];

/// The log fails too, with which mode 1 becomes 2 where blocks are listed, else 0. Only data of a stale stripe is
/// withheld.
const LOG_FAILS: [Case; 10] = [
    (0, &[], &[LOG, 4], [0, 0, 0], &[], [F, F, F, F, F]),
    (1, &[], &[4, LOG], [0, 0, 0], &[], [F, F, F, F, F]),
    (1, &[0], &[LOG, 4], [0, 0, 0], &[], [M, F, F, F, F]),
    (1, &[1], &[4, LOG], [0, 0, 0], &[], [F, M, F, F, F]),
    (1, &[0, 1], &[LOG, 4], [0, 0, 0], &[], [M, M, F, F, F]),
    (1, &[2], &[LOG, 2], [0, 0, 0], &[], [F, F, M, F, F]),
    (1, &[2], &[LOG, 4], [14, 2, 2], &[[6, 0, 1]], [F, F, S, F, F]),
    (1, &[3], &[4, LOG], [14, 2, 2], &[[9, 0, 1]], [F, F, F, S, F]),
    (1, &[4], &[LOG, 4], [14, 2, 3], &[[12, N, 1], [13, N, 2], [14, 0, N]], [F, F, F, F, S]),
    (1, &[0, 2], &[LOG, 4], [14, 2, 4], &[[1, 0, 1], [6, 2, 3]], [S, F, S, F, F]),
];

/// Where parity is fixed, P is on member 3 and Q on member 4: with either of them every stripe is made and the whole
/// list dropped, with a data disk none. Mode 1 remains where the log is sound.
const FIXED: [Case; 15] = [
    (0, &[], &[3], [0, 0, 0], &[], [F, F, F, F, F]),
    (1, &[], &[0], [0, 1, 0], &[], [F, F, F, F, F]),
    (1, &[], &[3], [0, 1, 0], &[], [F, F, F, F, F]),
    (1, &[2], &[4], [0, 1, 0], &[], [F, F, M, F, F]),
    (1, ALL, &[4], [0, 1, 0], &[], [M, M, M, M, M]),
    (1, ALL, &[3], [0, 1, 0], &[], [M, M, M, M, M]),
    (1, ALL, &[0], [0, 1, 11], FROM_0, [S, S, S, S, S]),
    (1, ALL, &[0, 1], [0, 1, 11], FROM_0, [S, S, S, S, S]),
    (1, ALL, &[2, 1], [0, 1, 11], FROM_0, [S, S, S, S, S]),
    (1, ALL, &[2, 4], [0, 1, 0], &[], [M, M, M, M, M]),
    (1, ALL, &[3, 4], [0, 1, 0], &[], [M, M, M, M, M]),
    (1, ALL, &[LOG, 3], [0, 0, 0], &[], [M, M, M, M, M]),
    (1, ALL, &[LOG, 0], [14, 2, 11], FROM_0, [S, S, S, S, S]),
    (2, ALL, &[1], [0, 2, 11], FROM_1, [M, S, S, S, S]),
    (2, ALL, &[4], [0, 0, 0], &[], [M, M, M, M, M]),
];

/// With one parity that rotates. Member 3 has P of stripes 0 and 4, and data of the others: nothing is stale; one
/// stripe is: where it has P, where its block has a Cur, where it is unlisted. In stripe 4 members 2 and 0 have the
/// blocks with an Ori only and with a Cur only. All are, and each member fails in turn.
const ONE_PARITY: [Case; 14] = [
    (0, &[], &[3], [0, 0, 0], &[], [F, F, F, F, F]),
    (1, &[], &[3], [0, 1, 0], &[], [F, F, F, F, F]),
    (1, &[0], &[3], [0, 1, 0], &[], [M, F, F, F, F]),
    (1, &[1], &[3], [0, 1, 2], &[[3, 0, 1]], [F, S, F, F, F]),
    (1, &[2], &[3], [0, 1, 2], &[[6, 0, 1]], [F, F, S, F, F]),
    (1, &[4], &[3], [0, 1, 0], &[], [F, F, F, F, M]),
    (1, &[4], &[2], [0, 1, 3], &[[12, N, 1], [13, N, 2], [14, 0, N]], [F, F, F, F, S]),
    (1, &[4], &[0], [0, 1, 3], &[[12, N, 1], [13, N, 2], [14, 0, N]], [F, F, F, F, S]),
    (1, &[3, 0], &[0], [0, 1, 4], &[[1, 2, 3]], [S, F, F, M, F]),
    (1, ALL, &[3], [0, 1, 11], &[[3, 2, 3], [6, 4, 5], [9, 6, 7]], [M, S, S, S, M]),
    (
        1,
        ALL,
        &[2],
        [0, 1, 11],
        &[[1, 0, 1], [6, 4, 5], [9, 6, 7], [12, N, 9], [13, N, 10], [14, 8, N]],
        [S, M, S, S, S],
    ),
    (
        1,
        ALL,
        &[1],
        [0, 1, 11],
        &[[1, 0, 1], [3, 2, 3], [9, 6, 7], [12, N, 9], [13, N, 10], [14, 8, N]],
        [S, S, M, S, S],
    ),
    (
        1,
        ALL,
        &[0],
        [0, 1, 11],
        &[[1, 0, 1], [3, 2, 3], [6, 4, 5], [12, N, 9], [13, N, 10], [14, 8, N]],
        [S, S, S, M, S],
    ),
    (1, &[0, 4], &[3], [0, 1, 0], &[], [M, F, F, F, M]),
];

/// The same in mode 2; and where the log has failed, with which nothing of the array may: a rebuild gets 12.
const ONE_PARITY_ENDS: [Case; 7] = [
    (2, ALL, &[3], [0, 2, 11], &[[3, 2, 3], [6, 4, 5], [9, 6, 7]], [M, S, S, S, M]),
    (2, &[0, 1], &[3], [0, 2, 4], &[[3, 2, 3]], [M, S, F, F, F]),
    (2, &[0, 1], &[2], [0, 0, 0], &[], [M, M, F, F, F]),
    (2, &[0, 4], &[3], [0, 0, 0], &[], [M, F, F, F, M]),
    (0, &[], &[LOG_OF_ONE], [12, 0, 0], &[], [F, F, F, F, F]),
    (1, &[2], &[LOG_OF_ONE], [12, 2, 2], &[[6, 0, 1]], [F, F, S, F, F]),
    (2, ALL, &[LOG_OF_ONE], [12, 2, 11], FROM_1, [M, S, S, S, S]),
];

/// With one parity that is fixed, P is on member 3.
const ONE_PARITY_FIXED: [Case; 9] = [
    (0, &[], &[3], [0, 0, 0], &[], [F, F, F, F, F]),
    (1, &[], &[0], [0, 1, 0], &[], [F, F, F, F, F]),
    (1, &[], &[3], [0, 1, 0], &[], [F, F, F, F, F]),
    (1, ALL, &[3], [0, 1, 0], &[], [M, M, M, M, M]),
    (1, ALL, &[0], [0, 1, 11], FROM_0, [S, S, S, S, S]),
    (1, ALL, &[1], [0, 1, 11], FROM_0, [S, S, S, S, S]),
    (1, ALL, &[2], [0, 1, 11], FROM_0, [S, S, S, S, S]),
    (2, ALL, &[1], [0, 2, 11], FROM_1, [M, S, S, S, S]),
    (2, ALL, &[3], [0, 0, 0], &[], [M, M, M, M, M]),
];

/// Makes a call that must be accepted.
fn accepted(pair: &mut Pair, call: Call, data: &[u8], stand: &mut Stand) -> Result<(), String> {
    match pair.step(call, Buffer::of(data.to_vec()), stand)? {
        0 => Ok(()),
        code => Err(format!("{call:?} answers {code}; the shelf: {}", pair.shelf)),
    }
}

/// A shelf of this kind in this mode, with these stripes made stale one after another.
fn reached(kind: Kind, mode: usize, stale: &[usize], stand: &mut Stand) -> Result<Pair, String> {
    let mut pair = Pair::fresh(measures(kind), 99, stand)?;
    accepted(&mut pair, write(0, FIRST.len()), &FIRST, stand)?;
    if mode > 0 {
        accepted(&mut pair, Call::Start, &[], stand)?;
    }
    for &stripe in stale {
        let (address, data) = LATER[stripe];
        accepted(&mut pair, write(address, data.len()), data, stand)?;
    }
    if mode == 2 {
        accepted(&mut pair, Call::Resync, &[], stand)?;
    }
    Ok(pair)
}

/// Has members fail, one after another, and overwrites them.
fn fail(pair: &mut Pair, members: &[usize], stand: &mut Stand) -> Result<(), String> {
    members.iter().try_for_each(|&member| accepted(pair, Call::Fail(member), &[], stand))?;
    pair.spoil();
    Ok(())
}

/// Fails unless the members that are sound hold the bytes of these stripes.
fn holds(pair: &Pair, stripes: &[Stripe; 5]) -> Result<(), String> {
    let r = &pair.shelf.record;
    let Measures { layout, parities, .. } = r.measures;
    for (stripe, &state) in stripes.iter().enumerate() {
        let due = match parities {
            1 => &BYTES_OF_ONE[layout][state as usize][stripe][..],
            _ => &BYTES[layout][state as usize][stripe],
        };
        for member in (0..due.len()).filter(|&member| r.failed[member] == 0) {
            let found = pair.stored(member, stripe)[0];
            if found != due[member] {
                return Err(format!(
                    "member {member} of stripe {stripe} is {found}, not {}; {}",
                    due[member], pair.shelf
                ));
            }
        }
    }
    Ok(())
}

/// Fails unless fetch gives each block as last written with any further members failed and overwritten, two in all with
/// the log, or one. Where the log failed nothing may be stale.
fn serves(pair: &Pair, stand: &mut Stand) -> Result<(), String> {
    let log = pair.shelf.record.measures.log();
    let is_one = log == LOG_OF_ONE || pair.shelf.record.failed[log] != 0;
    for (x, y) in (0..log).flat_map(|x| (x..log).map(move |y| (x, y))).filter(|&(x, y)| x == y || !is_one) {
        let mut pair = pair.clone();
        fail(&mut pair, &[x, y][..if x == y { 1 } else { 2 }], stand)?;
        for address in 0..15 {
            let code = pair.step(fetch(address, 1), Buffer::of(vec![231]), stand)?;
            if code != 0 {
                return Err(format!("block {address} is refused with {code}; the shelf: {}", pair.shelf));
            }
        }
    }
    Ok(())
}

/// Makes a rebuild of a case on a shelf of this kind; fails unless it leaves what is due.
fn rebuilt(kind: Kind, case: &Case, stand: &mut Stand) -> Result<(), String> {
    let &(mode, stale, failed, [code, mode_after, next], listed, stripes) = case;
    let mut pair = reached(kind, mode, stale, stand)?;
    fail(&mut pair, failed, stand)?;
    let found = pair.step(Call::Rebuild, Buffer::empty(), stand)?;
    let r = pair.shelf.record;
    let places = Words::of(r.measures, &pair.shelf.list.bytes).places;
    let left: Vec<[u32; 3]> = places[..r.listed].iter().map(|&[address, ori, cur, _]| [address, ori, cur]).collect();
    let line = [found, r.mode, r.next];
    if line != [code, mode_after, next] || left != listed {
        return Err(format!("code, mode, next are {line:?}, listed are {left:?}; the shelf: {}", pair.shelf));
    }
    holds(&pair, &stripes)?;
    match code {
        0 => pair.holds().and_then(|()| serves(&pair, stand)),
        _ => Ok(()),
    }
}

/// Makes the rebuilds of some cases.
fn all_rebuilt(kind: Kind, cases: &[Case], stand: &mut Stand) -> Result<usize, String> {
    for case in cases {
        let [layout, parities] = kind;
        let of = format!("layout {layout}, parities {parities}, mode {}", case.0);
        let fault = |fault| format!("{of}, stale {:?}, failed {:?}: {fault}", case.1, case.2);
        rebuilt(kind, case, stand).map_err(fault)?;
    }
    Ok(cases.len())
}

/// The sets of as many failed members as may be, or fewer, with a member of the array among them.
fn failed_sets(parities: usize) -> Vec<Vec<usize>> {
    match parities {
        1 => (0..LOG_OF_ONE).map(|x| vec![x]).collect(),
        _ => {
            let pairs = (0..LOG).flat_map(|x| (x + 1..=LOG).map(move |y| vec![x, y]));
            (0..LOG).map(|x| vec![x]).chain(pairs).collect()
        }
    }
}

/// The number that a rebuild gets, and the stripes that are stale after it: not those of which a failed member had P or
/// Q; but all are, and 14 is given, where the log failed and another one is stale.
fn left(parities: usize, stale: &[usize], failed: &[usize]) -> (usize, Vec<usize>) {
    let of = if parities == 1 { &P_OF[..] } else { &PARITY_OF };
    let has_parity = |stripe: usize| failed.iter().filter_map(|&member| of.get(member)).any(|of| of.contains(&stripe));
    let left: Vec<usize> = stale.iter().copied().filter(|&stripe| !has_parity(stripe)).collect();
    match failed.contains(&LOG) && !left.is_empty() {
        true => (14, stale.to_vec()),
        false => (0, left),
    }
}

/// Rebuilds the shelf with so many parities in mode 1 with these stripes stale and these members failed; fails unless
/// those stripes are left stale which must be, with all that is listed of them, and each other one has the parity of
/// its data. The mode is 1 then, or where the log failed 2 if a stripe is left and 0 if none is.
fn rebuilt_by_parity(parities: usize, stale: &[usize], failed: &[usize], stand: &mut Stand) -> Result<(), String> {
    let (code, left) = left(parities, stale, failed);
    let mut pair = reached([1, parities], 1, stale, stand)?;
    fail(&mut pair, failed, stand)?;
    let found = pair.step(Call::Rebuild, Buffer::empty(), stand)?;
    let mode = match (failed.contains(&LOG), left.is_empty()) {
        (false, _) => 1,
        (true, true) => 0,
        (true, false) => 2,
    };
    let next = if left.is_empty() { 0 } else { stale.iter().map(|&stripe| RECORDS[stripe]).sum() };
    let listed: Vec<usize> = left.iter().flat_map(|&stripe| LISTED[stripe]).copied().collect();
    let r = pair.shelf.record;
    let addresses: Vec<usize> = Words::of(r.measures, &pair.shelf.list.bytes).entries().into_keys().collect();
    if ([found, r.mode, r.next], &addresses) != ([code, mode, next], &listed) {
        return Err(format!("{found} is given, {addresses:?} are listed; the shelf: {}", pair.shelf));
    }
    let state = |stripe| match (stale.contains(&stripe), left.contains(&stripe)) {
        (false, _) => F,
        (true, true) => S,
        (true, false) => M,
    };
    holds(&pair, &[0, 1, 2, 3, 4].map(state))?;
    match code {
        0 => serves(&pair, stand),
        _ => Ok(()),
    }
}

/// Makes such rebuilds with every set of stale stripes and every set of failed members. Hands back how many.
fn every_rebuild(parities: usize, stand: &mut Stand) -> Result<usize, String> {
    let sets = failed_sets(parities);
    for (set, failed) in (0..32).flat_map(|set| sets.iter().map(move |failed| (set, failed))) {
        let stale: Vec<usize> = (0..5).filter(|stripe| set >> stripe & 1 == 1).collect();
        rebuilt_by_parity(parities, &stale, failed, stand)
            .map_err(|fault| format!("parities {parities}, stale {stale:?}, failed {failed:?}: {fault}"))?;
    }
    Ok(32 * sets.len())
}

/// Makes the rebuilds.
pub fn group(_seed: u64) -> Outcome {
    let stand = &mut Stand::default();
    let mut cases = all_rebuilt([0, 2], &FIXED, stand)?;
    for rotating in [&ONE_FAILS[..], &TRANSITIONAL, &TWO_FAIL, &LOG_FAILS] {
        cases += all_rebuilt([1, 2], rotating, stand)?;
    }
    let mut of_one = all_rebuilt([0, 1], &ONE_PARITY_FIXED, stand)?;
    of_one += all_rebuilt([1, 1], &ONE_PARITY, stand)? + all_rebuilt([1, 1], &ONE_PARITY_ENDS, stand)?;
    let (every, every_of_one) = (every_rebuild(2, stand)?, every_rebuild(1, stand)?);
    Ok(format!(
        "{cases} rebuilds by hand and {of_one} with one parity, {every} and {every_of_one} with every set of stale \
         stripes and of failed members; {} calls",
        stand.calls
    ))
}
