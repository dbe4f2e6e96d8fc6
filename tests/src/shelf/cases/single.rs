//! The shelf with one parity, by hand: blocks worked back by P, one failure and no second one, where P and data stand
//! where it rotates, and the numbers at the limits of its members beside those of a shelf with two; the model is not
//! asked of these. Then each member of shelves of both counts fails in turn, the log too, against the model and the
//! book: with two parities blocks are withheld, with one none is.

use crate::shelf::harness::calls::{fetch, read, write, Buffer, Call, Measures, Record, Shelf};
use crate::shelf::harness::pair::Pair;
use crate::shelf::harness::script::Left::{Array, Data, List, Log, Stripe};
use crate::shelf::harness::script::{Script, Step};
use crate::shelf::harness::stand::Stand;
use crate::shelf::model::due::Due;
use crate::shelf::model::numbers::NONE as N;
use crate::Outcome;

/// K4's stripe without Q, with block 1 logged as 7: P is on member 3, the log is 4.
pub const LOGGED: [Step; 3] = [
    (write(0, 3), &[1, 2, 3], [0, 0, 0, 0], &[], &[Array(&[1, 2, 3, 0])]),
    (Call::Start, &[], [0, 1, 0, 0], &[], &[]),
    (write(1, 1), &[7], [0, 1, 1, 2], &[], &[Array(&[1, 7, 3, 0]), Log(&[2, 7, 0, 0]), List(&[N, 0, 1, 0, 1, N])]),
];

/// Disk 0 gone: block 0 comes from P and the originals, and no second member may fail.
const WITHOUT_0: [Step; 16] = [
    (Call::Fail(0), &[], [0, 1, 1, 2], &[0], &[]),
    (Call::Fail(0), &[], [10, 1, 1, 2], &[0], &[]),
    (Call::Fail(1), &[], [11, 1, 1, 2], &[0], &[]),
    (Call::Fail(3), &[], [11, 1, 1, 2], &[0], &[]),
    (Call::Fail(4), &[], [11, 1, 1, 2], &[0], &[]),
    (Call::Fail(5), &[], [6, 1, 1, 2], &[0], &[]),
    (fetch(0, 3), &[99; 3], [0, 1, 1, 2], &[0], &[Data(&[1, 7, 3])]),
    (read(0, 1), &[99], [16, 1, 1, 2], &[0], &[]),
    (read(1, 2), &[99; 2], [0, 1, 1, 2], &[0], &[Data(&[7, 3])]),
    (write(1, 1), &[9], [8, 1, 1, 2], &[0], &[]),
    (Call::Start, &[], [7, 1, 1, 2], &[0], &[]),
    (Call::Resync, &[], [8, 1, 1, 2], &[0], &[]),
    (Call::FullResync, &[], [8, 1, 1, 2], &[0], &[]),
    (Call::NewLog, &[], [12, 1, 1, 2], &[0], &[]),
    (Call::Rebuild, &[], [0, 1, 1, 2], &[], &[Array(&[1, 7, 3, 0])]),
    (read(0, 3), &[99; 3], [0, 1, 1, 2], &[], &[Data(&[1, 7, 3])]),
];

/// Disk 1 gone, whose block is in the log; then disk 2.
const WITHOUT_1: [Step; 8] = [
    (Call::Fail(1), &[], [0, 1, 1, 2], &[1], &[]),
    (read(1, 1), &[99], [16, 1, 1, 2], &[1], &[]),
    (fetch(0, 3), &[99; 3], [0, 1, 1, 2], &[1], &[Data(&[1, 7, 3])]),
    (Call::Rebuild, &[], [0, 1, 1, 2], &[], &[Array(&[1, 7, 3, 0])]),
    (Call::Fail(2), &[], [0, 1, 1, 2], &[2], &[]),
    (fetch(0, 3), &[99; 3], [0, 1, 1, 2], &[2], &[Data(&[1, 7, 3])]),
    (Call::Rebuild, &[], [0, 1, 1, 2], &[], &[Array(&[1, 7, 3, 0])]),
    (Call::Rebuild, &[], [12, 1, 1, 2], &[], &[]),
];

/// P gone: both reads serve all; the rebuild makes it and drops the list, and mode 1 remains. Disk 0 comes from the new
/// P.
const WITHOUT_P: [Step; 6] = [
    (Call::Fail(3), &[], [0, 1, 1, 2], &[3], &[]),
    (fetch(0, 3), &[99; 3], [0, 1, 1, 2], &[3], &[Data(&[1, 7, 3])]),
    (read(0, 3), &[99; 3], [0, 1, 1, 2], &[3], &[Data(&[1, 7, 3])]),
    (Call::Rebuild, &[], [0, 1, 0, 0], &[], &[Array(&[1, 7, 3, 5]), List(&[])]),
    (Call::Fail(0), &[], [0, 1, 0, 0], &[0], &[]),
    (fetch(0, 3), &[99; 3], [0, 1, 0, 0], &[0], &[Data(&[1, 7, 3])]),
];

/// The log gone: no disk may fail besides, so nothing is withheld, and a resync leads on.
const WITHOUT_LOG: [Step; 16] = [
    (Call::Fail(4), &[], [0, 2, 1, 2], &[4], &[]),
    (Call::Fail(4), &[], [10, 2, 1, 2], &[4], &[]),
    (Call::Fail(0), &[], [11, 2, 1, 2], &[4], &[]),
    (Call::Fail(3), &[], [11, 2, 1, 2], &[4], &[]),
    (Call::Fail(5), &[], [6, 2, 1, 2], &[4], &[]),
    (fetch(0, 3), &[99; 3], [0, 2, 1, 2], &[4], &[Data(&[1, 7, 3])]),
    (read(0, 3), &[99; 3], [0, 2, 1, 2], &[4], &[Data(&[1, 7, 3])]),
    (Call::Rebuild, &[], [12, 2, 1, 2], &[4], &[]),
    (Call::NewLog, &[], [13, 2, 1, 2], &[4], &[]),
    (Call::Start, &[], [7, 2, 1, 2], &[4], &[]),
    (Call::Resync, &[], [0, 0, 0, 0], &[4], &[Array(&[1, 7, 3, 5]), List(&[]), Stripe(0)]),
    (Call::Start, &[], [9, 0, 0, 0], &[4], &[]),
    (Call::Resync, &[], [7, 0, 0, 0], &[4], &[]),
    (write(2, 1), &[6], [0, 0, 0, 0], &[4], &[Array(&[1, 7, 6, 0])]),
    (Call::NewLog, &[], [0, 0, 0, 0], &[], &[]),
    (Call::Start, &[], [0, 1, 0, 0], &[], &[]),
];

/// The same with a full resync; and without a failure a resync, after which block 1 is written with its parity.
const WITHOUT_LOG_FULL: [Step; 2] = [
    (Call::Fail(4), &[], [0, 2, 1, 2], &[4], &[]),
    (Call::FullResync, &[], [0, 0, 0, 0], &[4], &[Array(&[1, 7, 3, 5]), List(&[])]),
];
const RESYNCED: [Step; 2] = [
    (Call::Resync, &[], [0, 0, 0, 0], &[], &[Array(&[1, 7, 3, 5]), List(&[]), Stripe(0)]),
    (write(1, 1), &[2], [0, 0, 0, 0], &[], &[Array(&[1, 2, 3, 0])]),
];

/// K12 without Q: reconstruction-write, 3 records, 3 listed. Block 2 has an Ori only, block 0 a Cur only.
const K12: [Step; 9] = [
    (write(0, 3), &[1, 2, 3], [0, 0, 0, 0], &[], &[Array(&[1, 2, 3, 0])]),
    (Call::Start, &[], [0, 1, 0, 0], &[], &[]),
    (
        write(0, 2),
        &[5, 6],
        [0, 1, 3, 3],
        &[],
        &[Array(&[5, 6, 3, 0]), Log(&[3, 5, 6, 0]), List(&[0, 1, 0, N, 1, 2, 1, N, 2, N, 2, 0, N, N])],
    ),
    (Call::Fail(2), &[], [0, 1, 3, 3], &[2], &[]),
    (fetch(0, 3), &[99; 3], [0, 1, 3, 3], &[2], &[Data(&[5, 6, 3])]),
    (Call::Rebuild, &[], [0, 1, 3, 3], &[], &[Array(&[5, 6, 3, 0])]),
    (Call::Fail(0), &[], [0, 1, 3, 3], &[0], &[]),
    (fetch(0, 3), &[99; 3], [0, 1, 3, 3], &[0], &[Data(&[5, 6, 3])]),
    (Call::Rebuild, &[], [0, 1, 3, 3], &[], &[Array(&[5, 6, 3, 0])]),
];

/// Two data disks and six stripes, the blocks 1 to 12. P is on members 2, 1, 0, 2, 1, 0 of stripes 0 to 5, and data
/// index 0 on 0, 2, 1, 0, 2, 1. The array has six bytes of each member.
const OF_TWO: [u8; 18] = [1, 4, 3, 7, 10, 7, 2, 7, 5, 8, 3, 11, 3, 3, 6, 15, 9, 12];
const TURNS_OF_TWO: [Step; 13] = [
    (write(0, 12), &TWELVE, [0, 0, 0, 0], &[], &[Array(&OF_TWO)]),
    (Call::Fail(1), &[], [0, 0, 0, 0], &[1], &[]),
    (read(0, 1), &[99], [0, 0, 0, 0], &[1], &[Data(&[1])]),
    (read(1, 1), &[99], [16, 0, 0, 0], &[1], &[]),
    (read(2, 2), &[99; 2], [0, 0, 0, 0], &[1], &[Data(&[3, 4])]),
    (read(4, 1), &[99], [16, 0, 0, 0], &[1], &[]),
    (fetch(0, 12), &[99; 12], [0, 0, 0, 0], &[1], &[Data(&TWELVE)]),
    (Call::Rebuild, &[], [0, 0, 0, 0], &[], &[Array(&OF_TWO)]),
    (Call::Fail(0), &[], [0, 0, 0, 0], &[0], &[]),
    (Call::Rebuild, &[], [0, 0, 0, 0], &[], &[Array(&OF_TWO)]),
    (Call::Fail(2), &[], [0, 0, 0, 0], &[2], &[]),
    (fetch(0, 12), &[99; 12], [0, 0, 0, 0], &[2], &[Data(&TWELVE)]),
    (Call::Rebuild, &[], [0, 0, 0, 0], &[], &[Array(&OF_TWO)]),
];
const TWELVE: [u8; 12] = [1, 2, 3, 4, 5, 6, 7, 8, 9, 10, 11, 12];

/// Three data disks and six stripes, the blocks 1 to 18. P is on members 3, 2, 1, 0, 3, 2, and data index 0 on 0, 3, 2,
/// 1, 0, 3.
const OF_THREE: [u8; 24] = [1, 5, 9, 13, 13, 17, 2, 6, 6, 10, 14, 18, 3, 7, 7, 11, 15, 19, 0, 4, 8, 12, 12, 16];
const TURNS_OF_THREE: [Step; 12] = [
    (write(0, 18), &EIGHTEEN, [0, 0, 0, 0], &[], &[Array(&OF_THREE)]),
    (Call::Fail(3), &[], [0, 0, 0, 0], &[3], &[]),
    (read(0, 3), &[99; 3], [0, 0, 0, 0], &[3], &[Data(&[1, 2, 3])]),
    (read(3, 1), &[99], [16, 0, 0, 0], &[3], &[]),
    (read(4, 3), &[99; 3], [0, 0, 0, 0], &[3], &[Data(&[5, 6, 7])]),
    (fetch(0, 18), &[99; 18], [0, 0, 0, 0], &[3], &[Data(&EIGHTEEN)]),
    (Call::Rebuild, &[], [0, 0, 0, 0], &[], &[Array(&OF_THREE)]),
    (Call::Fail(2), &[], [0, 0, 0, 0], &[2], &[]),
    (fetch(0, 18), &[99; 18], [0, 0, 0, 0], &[2], &[Data(&EIGHTEEN)]),
    (Call::Rebuild, &[], [0, 0, 0, 0], &[], &[Array(&OF_THREE)]),
    (Call::Fail(0), &[], [0, 0, 0, 0], &[0], &[]),
    (Call::Rebuild, &[], [0, 0, 0, 0], &[], &[Array(&OF_THREE)]),
];
const EIGHTEEN: [u8; 18] = [1, 2, 3, 4, 5, 6, 7, 8, 9, 10, 11, 12, 13, 14, 15, 16, 17, 18];

/// A call at a limit, on a shelf of one stripe of blocks of one byte with nothing listed: d and the count of parities,
/// how many members the array has, the mode, the failed members, the call, and its number.
type Limit = ([usize; 2], usize, usize, &'static [usize], Call, usize);

/// With d 2 and one parity: the log is 3, and one member may be failed.
const OF_ONE: [Limit; 31] = [
    ([2, 1], 3, 0, &[], Call::Fail(2), 0),
    ([2, 1], 3, 0, &[], Call::Fail(3), 0),
    ([2, 1], 3, 0, &[], Call::Fail(4), 6),
    ([2, 1], 3, 0, &[], Call::Fail(5), 6),
    ([2, 1], 3, 0, &[3], Call::Fail(3), 10),
    ([2, 1], 3, 0, &[3], Call::Fail(0), 11),
    ([2, 1], 3, 0, &[0], Call::Fail(1), 11),
    ([2, 1], 3, 0, &[0], Call::Fail(3), 11),
    ([2, 1], 3, 0, &[0], Call::Fail(4), 6),
    ([2, 1], 3, 0, &[0, 1], Call::Start, 1),
    ([2, 1], 3, 0, &[0, 3], Call::Start, 1),
    ([2, 1], 3, 0, &[4], Call::Start, 1),
    ([2, 1], 3, 0, &[5], Call::Fail(0), 1),
    ([2, 1], 3, 0, &[18], Call::Start, 1),
    ([2, 1], 3, 1, &[3], Call::Start, 1),
    ([2, 1], 3, 1, &[2], Call::Start, 7),
    ([2, 1], 3, 0, &[2], Call::Start, 8),
    ([2, 1], 3, 0, &[3], Call::Start, 9),
    ([2, 1], 4, 0, &[], Call::Start, 2),
    ([2, 1], 4, 0, &[], Call::Format, 2),
    ([2, 1], 4, 0, &[4], Call::Fail(0), 1),
    ([2, 1], 3, 0, &[0], Call::PutBack(0), 0),
    ([2, 1], 3, 1, &[2], Call::PutBack(2), 0),
    ([2, 1], 3, 0, &[2], Call::PutBack(1), 12),
    ([2, 1], 3, 0, &[], Call::PutBack(2), 12),
    ([2, 1], 3, 0, &[], Call::PutBack(3), 6),
    ([2, 1], 3, 0, &[3], Call::PutBack(3), 6),
    ([2, 1], 3, 0, &[3], Call::PutBack(2), 12),
    ([2, 1], 3, 0, &[0], Call::PutBack(usize::MAX), 6),
    ([2, 1], 3, 0, &[0, 3], Call::PutBack(0), 1),
    ([2, 1], 4, 0, &[0], Call::PutBack(3), 2),
];

/// With d 2 and two.
const OF_BOTH: [Limit; 26] = [
    ([2, 2], 4, 0, &[], Call::Fail(3), 0),
    ([2, 2], 4, 0, &[], Call::Fail(4), 0),
    ([2, 2], 4, 0, &[], Call::Fail(5), 6),
    ([2, 2], 4, 0, &[4], Call::Fail(0), 0),
    ([2, 2], 4, 0, &[0], Call::Fail(1), 0),
    ([2, 2], 4, 0, &[0, 4], Call::Fail(1), 11),
    ([2, 2], 4, 0, &[0, 4], Call::Fail(5), 6),
    ([2, 2], 4, 0, &[0, 1, 4], Call::Start, 1),
    ([2, 2], 4, 0, &[5], Call::Start, 1),
    ([2, 2], 4, 1, &[4], Call::Start, 1),
    ([2, 2], 4, 0, &[3], Call::Start, 8),
    ([2, 2], 4, 0, &[4], Call::Start, 9),
    ([2, 2], 3, 0, &[], Call::Start, 2),
    ([2, 2], 3, 0, &[], Call::Format, 2),
    ([2, 2], 3, 0, &[3], Call::Fail(0), 2),
    ([2, 2], 4, 0, &[0, 3], Call::PutBack(3), 0),
    ([2, 2], 4, 0, &[3, 4], Call::PutBack(3), 0),
    ([2, 2], 4, 1, &[2, 3], Call::PutBack(2), 0),
    ([2, 2], 4, 0, &[0, 4], Call::PutBack(3), 12),
    ([2, 2], 4, 0, &[], Call::PutBack(3), 12),
    ([2, 2], 4, 0, &[], Call::PutBack(4), 6),
    ([2, 2], 4, 0, &[0, 4], Call::PutBack(4), 6),
    ([2, 2], 4, 0, &[0, 4], Call::PutBack(5), 6),
    ([2, 2], 4, 0, &[0], Call::PutBack(usize::MAX), 6),
    ([2, 2], 4, 0, &[0, 1, 4], Call::PutBack(4), 1),
    ([2, 2], 3, 0, &[3], Call::PutBack(4), 2),
];

/// With d 16: the log is 17 or 18, the last flag.
const OF_SIXTEEN: [Limit; 27] = [
    ([16, 1], 17, 0, &[], Call::Fail(16), 0),
    ([16, 1], 17, 0, &[], Call::Fail(17), 0),
    ([16, 1], 17, 0, &[], Call::Fail(18), 6),
    ([16, 1], 17, 0, &[17], Call::Fail(18), 6),
    ([16, 1], 17, 0, &[17], Call::Fail(0), 11),
    ([16, 1], 17, 0, &[17], Call::Start, 9),
    ([16, 1], 17, 0, &[16], Call::Start, 8),
    ([16, 1], 17, 0, &[18], Call::Start, 1),
    ([16, 1], 17, 0, &[0, 17], Call::Start, 1),
    ([16, 1], 17, 1, &[17], Call::Fail(0), 1),
    ([16, 1], 18, 0, &[], Call::Start, 2),
    ([16, 1], 18, 0, &[18], Call::Start, 1),
    ([16, 2], 18, 0, &[], Call::Fail(18), 0),
    ([16, 2], 18, 0, &[], Call::Fail(19), 6),
    ([16, 2], 18, 0, &[18], Call::Start, 9),
    ([16, 2], 18, 0, &[17], Call::Start, 8),
    ([16, 2], 18, 0, &[0, 1, 18], Call::Start, 1),
    ([16, 2], 17, 0, &[17], Call::Start, 2),
    ([16, 1], 17, 0, &[16], Call::PutBack(16), 0),
    ([16, 1], 17, 0, &[17], Call::PutBack(17), 6),
    ([16, 1], 17, 0, &[16], Call::PutBack(18), 6),
    ([16, 1], 17, 0, &[16], Call::PutBack(19), 6),
    ([16, 2], 18, 0, &[17, 18], Call::PutBack(17), 0),
    ([16, 2], 18, 0, &[17, 18], Call::PutBack(18), 6),
    ([16, 2], 18, 0, &[17], Call::PutBack(18), 6),
    ([16, 2], 18, 0, &[17, 18], Call::PutBack(16), 12),
    ([16, 2], 18, 0, &[17], Call::PutBack(19), 6),
];

/// Counts that are neither, with an array as they would have it; the last one and d make 1 in 64 bits.
const OF_NEITHER: [Limit; 12] = [
    ([2, 0], 2, 0, &[], Call::Start, 1),
    ([2, 0], 2, 0, &[], Call::Format, 1),
    ([2, 3], 5, 0, &[], Call::Start, 1),
    ([2, 3], 5, 0, &[], Call::Format, 1),
    ([2, 3], 4, 0, &[], Call::FullResync, 1),
    ([2, 255], 257, 0, &[], Call::Start, 1),
    ([2, 255], 257, 0, &[], Call::Format, 1),
    ([2, usize::MAX], 1, 0, &[], Call::Start, 1),
    ([2, usize::MAX], 1, 0, &[], Call::Format, 1),
    ([16, usize::MAX], 15, 0, &[], Call::Fail(0), 1),
    ([16, usize::MAX], 15, 0, &[0], Call::PutBack(0), 1),
    ([2, 3], 5, 0, &[4], Call::PutBack(4), 1),
];

/// Makes a call at a limit in this layout; fails unless it gets its number and, accepted, sets or clears the member's
/// flag.
fn limit(&(count, members, mode, failed, call, code): &Limit, layout: usize, stand: &mut Stand) -> Result<(), String> {
    let [d, parities] = count;
    let measures = Measures { d, s: 1, b: 1, l: 1, h: 1, e: 1, layout, parities };
    let mut record = Record { measures, mode, next: 0, listed: 0, failed: [0; 19] };
    failed.iter().for_each(|&member| record.failed[member] = 1);
    let [array, log, list, data] = [vec![7; members], vec![8], vec![255; 20], vec![]].map(Buffer::of);
    let shelf = Shelf { record, array, log, list, data };
    let mut due = Due::nothing(call, &shelf, code);
    match (call, code) {
        (Call::Fail(member), 0) => due.record.failed[member] = 1,
        (Call::PutBack(member), 0) => due.record.failed[member] = 0,
        _ => {}
    }
    stand.expect(call, &shelf, &due)
}

/// Makes the calls at the limits in both layouts. Hands back how many there are.
fn limits(stand: &mut Stand) -> Result<usize, String> {
    let all = [&OF_ONE[..], &OF_BOTH, &OF_SIXTEEN, &OF_NEITHER].concat();
    for (case, layout) in all.iter().flat_map(|case| [(case, 0), (case, 1)]) {
        limit(case, layout, stand)?;
    }
    Ok(2 * all.len())
}

/// Plays the scripts.
fn scripts(stand: &mut Stand) -> Result<(), String> {
    let m = |d, s, e, layout| Measures { d, s, b: 1, l: 4, h: 2, e, layout, parities: 1 };
    let endings =
        [&WITHOUT_0[..], &WITHOUT_1, &WITHOUT_P, &WITHOUT_LOG, &WITHOUT_LOG_FULL, &RESYNCED].map(<[Step]>::to_vec);
    for (ending, layout) in endings.iter().flat_map(|ending| [(ending, 0), (ending, 1)]) {
        let steps = [&LOGGED[..], ending].concat();
        Script::of(m(3, 1, 3, layout), stand)?.play(&steps, stand)?;
    }
    Script::of(m(3, 1, 3, 0), stand)?.play(&K12, stand)?;
    Script::of(m(2, 6, 4, 1), stand)?.play(&TURNS_OF_TWO, stand)?;
    Script::of(m(3, 6, 4, 1), stand)?.play(&TURNS_OF_THREE, stand)
}

/// A shelf of these measures in mode 1 with every second stripe stale: all blocks were written, then one in each of
/// those.
pub fn stale(m: Measures, stand: &mut Stand) -> Result<Pair, String> {
    let mut pair = Pair::fresh(m, 99, stand)?;
    let blocks = |count: usize, from: usize| Buffer::of((0..count * m.b).map(|at| (at * 7 + from) as u8).collect());
    pair.step(write(0, m.d * m.s), blocks(m.d * m.s, 3), stand)?;
    pair.step(Call::Start, Buffer::empty(), stand)?;
    for stripe in (0..m.s).step_by(2) {
        pair.step(write(stripe * m.d + stripe % m.d, 1), blocks(1, 100 + stripe), stand)?;
    }
    match pair.book.awaiting() == m.s.div_ceil(2) {
        true => Ok(pair),
        false => Err(format!("{} stripes are stale; the shelf: {}", pair.book.awaiting(), pair.shelf)),
    }
}

/// Fetches each block alone, which is to get 0 or be withheld. Hands back how many were withheld.
pub fn fetched(pair: &mut Pair, stand: &mut Stand) -> Result<usize, String> {
    let (m, mut withheld) = (pair.shelf.record.measures, 0);
    for address in 0..m.d * m.s {
        match pair.step(fetch(address, 1), Buffer::of(vec![231; m.b]), stand)? {
            0 => {}
            14 => withheld += 1,
            code => return Err(format!("block {address} is refused with {code}; the shelf: {}", pair.shelf)),
        }
    }
    Ok(withheld)
}

/// Has the log and a member fail, one after the other, on such a shelf. Hands back how many fetches were withheld and
/// the number of a rebuild. With one parity the second failure must get 11 and is not noted.
fn both_fail(pair: &Pair, order: [usize; 2], stand: &mut Stand) -> Result<(usize, usize), String> {
    let (mut pair, m) = (pair.clone(), pair.shelf.record.measures);
    for (member, due) in order.into_iter().zip([0, if m.parities == 1 { 11 } else { 0 }]) {
        let code = pair.step(Call::Fail(member), Buffer::empty(), stand)?;
        if code != due {
            return Err(format!("failure of {order:?}: {member} gets {code}, not {due}; the shelf: {}", pair.shelf));
        }
        pair.spoil();
    }
    let withheld = fetched(&mut pair, stand)?;
    let code = pair.step(Call::Rebuild, Buffer::empty(), stand)?;
    pair.holds()?;
    Ok((withheld, code))
}

/// Has each member of a shelf of these measures fail beside the log, before it and after it. Fails unless blocks are
/// withheld from fetches and rebuilds with two parities, and none with one, where a rebuild gets 0, or 12 if it was the
/// log that failed. Hands back how many fetches were withheld.
fn each_fails(m: Measures, stand: &mut Stand) -> Result<usize, String> {
    let (pair, log) = (stale(m, stand)?, m.log());
    let mut all_withheld = 0;
    for order in (0..log).flat_map(|member| [[member, log], [log, member]]) {
        let (withheld, code) = both_fail(&pair, order, stand)?;
        let is_right = match m.parities {
            1 => withheld == 0 && code == if order[0] == log { 12 } else { 0 },
            _ => (code == 14) == (withheld > 0) && [0, 14].contains(&code),
        };
        if !is_right {
            return Err(format!("failure of {order:?}: {withheld} withheld, {code}; the shelf: {}", pair.shelf));
        }
        all_withheld += withheld;
    }
    match (all_withheld > 0) == (m.parities == 2) {
        true => Ok(all_withheld),
        false => Err(format!("{all_withheld} fetches were withheld; the shelf: {}", pair.shelf)),
    }
}

/// Has each member of shelves of either layout and count fail in turn, with d at its limits and between. Hands back how
/// many fetches were withheld.
fn each_member(stand: &mut Stand) -> Result<usize, String> {
    let mut withheld = 0;
    for (d, layout) in [2, 3, 7, 16].into_iter().flat_map(|d| [(d, 0), (d, 1)]) {
        for parities in [1, 2] {
            let (s, b) = (d + 3, 2);
            withheld += each_fails(Measures { d, s, b, l: 2 * s, h: 3, e: s, layout, parities }, stand)?;
        }
    }
    Ok(withheld)
}

/// Plays the scripts, tries the limits, and has each member fail.
pub fn group(_seed: u64) -> Outcome {
    let stand = &mut Stand::default();
    scripts(stand)?;
    let by_hand = stand.calls;
    let limits = limits(stand)?;
    let withheld = each_member(stand)?;
    Ok(format!(
        "{by_hand} calls by hand, {limits} at the limits of members, failures and lengths of both counts; with each \
         member failed beside the log, or not noted beside it, {withheld} fetches withheld with two parities and none \
         with one; {} calls",
        stand.calls
    ))
}
