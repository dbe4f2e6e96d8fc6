//! The customer's marked examples K8 to K13 and the shelves that are wrong though they look sound, by hand.

use crate::shelf::harness::calls::{fetch, read, write, Call};
use crate::shelf::harness::script::Left::{Array, Data, List, Log, Stripe};
use crate::shelf::harness::script::{Script, Step};
use crate::shelf::harness::stand::Stand;
use crate::shelf::model::numbers::NONE as N;
use crate::Outcome;

/// K4's stripe with block 1 logged as 7.
pub const LOGGED: [Step; 3] = [
    (write(0, 3), &[1, 2, 3], [0, 0, 0, 0], &[], &[Array(&[1, 2, 3, 0, 9])]),
    (Call::Start, &[], [0, 1, 0, 0], &[], &[]),
    (write(1, 1), &[7], [0, 1, 1, 2], &[], &[Array(&[1, 7, 3, 0, 9]), Log(&[2, 7, 0, 0]), List(&[N, 0, 1, 0, 1, N])]),
];

/// K8: disks 0 and 1 gone; fetch gives 1 and 7, and so does a rebuild. A plain read serves block 2 alone.
const K8: [Step; 9] = [
    (Call::Fail(0), &[], [0, 1, 1, 2], &[0], &[]),
    (Call::Fail(1), &[], [0, 1, 1, 2], &[0, 1], &[]),
    (fetch(0, 2), &[99, 99], [0, 1, 1, 2], &[0, 1], &[Data(&[1, 7])]),
    (read(0, 2), &[99, 99], [16, 1, 1, 2], &[0, 1], &[]),
    (read(1, 1), &[99], [16, 1, 1, 2], &[0, 1], &[]),
    (read(1, 2), &[99, 99], [16, 1, 1, 2], &[0, 1], &[]),
    (read(2, 1), &[99], [0, 1, 1, 2], &[0, 1], &[Data(&[3])]),
    (Call::Rebuild, &[], [0, 1, 1, 2], &[], &[Array(&[1, 7, 3, 0, 9])]),
    (read(0, 3), &[99, 99, 99], [0, 1, 1, 2], &[], &[Data(&[1, 7, 3])]),
];

/// K9: the log and disk 0 gone; block 0 is withheld from fetch and refused to a plain read, blocks 1 and 2 are read by
/// both. Only a resync with all disks would help.
const K9: [Step; 14] = [
    (Call::Fail(5), &[], [0, 2, 1, 2], &[5], &[]),
    (Call::Fail(0), &[], [0, 2, 1, 2], &[0, 5], &[]),
    (fetch(0, 1), &[99], [14, 2, 1, 2], &[0, 5], &[]),
    (fetch(2, 1), &[99], [0, 2, 1, 2], &[0, 5], &[Data(&[3])]),
    (fetch(1, 2), &[99, 99], [0, 2, 1, 2], &[0, 5], &[Data(&[7, 3])]),
    (fetch(0, 3), &[99, 99, 99], [14, 2, 1, 2], &[0, 5], &[]),
    (read(0, 1), &[99], [16, 2, 1, 2], &[0, 5], &[]),
    (read(2, 1), &[99], [0, 2, 1, 2], &[0, 5], &[Data(&[3])]),
    (read(1, 2), &[99, 99], [0, 2, 1, 2], &[0, 5], &[Data(&[7, 3])]),
    (read(0, 3), &[99, 99, 99], [16, 2, 1, 2], &[0, 5], &[]),
    (Call::Rebuild, &[], [14, 2, 1, 2], &[0, 5], &[]),
    (Call::Resync, &[], [8, 2, 1, 2], &[0, 5], &[]),
    (Call::NewLog, &[], [13, 2, 1, 2], &[0, 5], &[]),
    (Call::FullResync, &[], [8, 2, 1, 2], &[0, 5], &[]),
];

/// K8 with P or Q gone beside disk 0: block 0 comes from the other parity, and a plain read serves the rest; the rebuild
/// drops the list, and mode 1 remains.
const BESIDE_P: [Step; 6] = [
    (Call::Fail(0), &[], [0, 1, 1, 2], &[0], &[]),
    (Call::Fail(3), &[], [0, 1, 1, 2], &[0, 3], &[]),
    (fetch(0, 3), &[99, 99, 99], [0, 1, 1, 2], &[0, 3], &[Data(&[1, 7, 3])]),
    (read(0, 3), &[99, 99, 99], [16, 1, 1, 2], &[0, 3], &[]),
    (read(1, 2), &[99, 99], [0, 1, 1, 2], &[0, 3], &[Data(&[7, 3])]),
    (Call::Rebuild, &[], [0, 1, 0, 0], &[], &[Array(&[1, 7, 3, 5, 3]), List(&[])]),
];

/// The same with Q gone.
const BESIDE_Q: [Step; 4] = [
    (Call::Fail(4), &[], [0, 1, 1, 2], &[4], &[]),
    (Call::Fail(0), &[], [0, 1, 1, 2], &[0, 4], &[]),
    (fetch(0, 1), &[99], [0, 1, 1, 2], &[0, 4], &[Data(&[1])]),
    (Call::Rebuild, &[], [0, 1, 0, 0], &[], &[Array(&[1, 7, 3, 5, 3]), List(&[])]),
];

/// K9 with P gone in place of disk 0: no data block is on a failed disk, so both reads serve all, and the rebuild is not
/// withheld; the log stays failed.
const WITHOUT_LOG_AND_P: [Step; 6] = [
    (Call::Fail(5), &[], [0, 2, 1, 2], &[5], &[]),
    (Call::Fail(3), &[], [0, 2, 1, 2], &[3, 5], &[]),
    (fetch(0, 3), &[99, 99, 99], [0, 2, 1, 2], &[3, 5], &[Data(&[1, 7, 3])]),
    (read(0, 3), &[99, 99, 99], [0, 2, 1, 2], &[3, 5], &[Data(&[1, 7, 3])]),
    (Call::Rebuild, &[], [0, 0, 0, 0], &[5], &[Array(&[1, 7, 3, 5, 3]), List(&[])]),
    (Call::NewLog, &[], [0, 0, 0, 0], &[], &[]),
];

/// Resync of K8's stripe, and full resync of it without the log.
const RESYNCED: [Step; 2] = [
    (Call::Resync, &[], [0, 0, 0, 0], &[], &[Array(&[1, 7, 3, 5, 3]), List(&[]), Stripe(0)]),
    (Call::Resync, &[], [7, 0, 0, 0], &[], &[]),
];
const FULLY_RESYNCED: [Step; 2] = [
    (Call::Fail(5), &[], [0, 2, 1, 2], &[5], &[]),
    (Call::FullResync, &[], [0, 0, 0, 0], &[5], &[Array(&[1, 7, 3, 5, 3]), List(&[])]),
];

/// K10 and K11, with d 3 and two stripes: address 4 is stripe 1, index 1; address 5 count 1 passes, address 6 count 1
/// is 4; and the other requests that are wrong. At last disk 2 has failed: a wrong request gets 4 or 5 before 16.
const ADDRESSES: [Step; 24] = [
    (write(4, 1), &[5], [0, 0, 0, 0], &[], &[Array(&[0, 0, 0, 5, 0, 0, 0, 5, 0, 10])]),
    (read(4, 1), &[99], [0, 0, 0, 0], &[], &[Data(&[5])]),
    (read(5, 1), &[99], [0, 0, 0, 0], &[], &[Data(&[0])]),
    (read(6, 1), &[99], [4, 0, 0, 0], &[], &[]),
    (write(6, 1), &[99], [4, 0, 0, 0], &[], &[]),
    (write(5, 1), &[1], [0, 0, 0, 0], &[], &[Array(&[0, 0, 0, 5, 0, 1, 0, 4, 0, 14])]),
    (read(0, 6), &[99; 6], [0, 0, 0, 0], &[], &[Data(&[0, 0, 0, 0, 5, 1])]),
    (read(0, 7), &[99; 7], [4, 0, 0, 0], &[], &[]),
    (read(5, 2), &[99; 2], [4, 0, 0, 0], &[], &[]),
    (write(0, 0), &[], [4, 0, 0, 0], &[], &[]),
    (write(usize::MAX, 1), &[99], [4, 0, 0, 0], &[], &[]),
    (read(usize::MAX, 3), &[99; 3], [4, 0, 0, 0], &[], &[]),
    (read(u32::MAX as usize, 1), &[99], [4, 0, 0, 0], &[], &[]),
    (write(5, 1), &[99; 2], [5, 0, 0, 0], &[], &[]),
    (read(5, 2), &[99], [4, 0, 0, 0], &[], &[]),
    (read(5, 1), &[99; 2], [5, 0, 0, 0], &[], &[]),
    (fetch(5, 1), &[99], [0, 0, 0, 0], &[], &[Data(&[1])]),
    (fetch(6, 1), &[99], [4, 0, 0, 0], &[], &[]),
    (fetch(5, 1), &[99; 2], [5, 0, 0, 0], &[], &[]),
    (Call::Fail(2), &[], [0, 0, 0, 0], &[2], &[]),
    (read(5, 2), &[99; 2], [4, 0, 0, 0], &[2], &[]),
    (read(5, 1), &[99; 2], [5, 0, 0, 0], &[2], &[]),
    (read(5, 1), &[99], [16, 0, 0, 0], &[2], &[]),
    (fetch(5, 1), &[99], [0, 0, 0, 0], &[2], &[Data(&[1])]),
];

/// K12: d 3, unlisted stripe, blocks 0 and 1 written: reconstruction-write, 3 records, 3 listed.
const K12: [Step; 4] = [
    (write(0, 3), &[1, 2, 3], [0, 0, 0, 0], &[], &[Array(&[1, 2, 3, 0, 9])]),
    (Call::Start, &[], [0, 1, 0, 0], &[], &[]),
    (
        write(0, 2),
        &[5, 6],
        [0, 1, 3, 3],
        &[],
        &[Array(&[5, 6, 3, 0, 9]), Log(&[3, 5, 6, 0]), List(&[0, 1, 0, N, 1, 2, 1, N, 2, N, 2, 0, N, N])],
    ),
    (
        write(2, 1),
        &[8],
        [0, 1, 3, 4],
        &[],
        &[Array(&[5, 6, 8, 0, 9]), Log(&[3, 5, 6, 8]), List(&[0, 1, 0, N, 1, 2, 1, N, 2, N, 2, 0, 3, N])],
    ),
];

/// K13: d 2, unlisted stripe, block 0 written: read-modify-write, 2 records, 1 listed. Then the log is full: the stripe
/// is written with its parity, its listed block is dropped, and the records are free again.
const K13: [Step; 5] = [
    (Call::Start, &[], [0, 1, 0, 0], &[], &[]),
    (write(0, 1), &[7], [0, 1, 1, 2], &[], &[Array(&[7, 0, 0, 0]), Log(&[0, 7, 0]), List(&[0, 0, 0, 1, N])]),
    (write(0, 1), &[8], [0, 1, 1, 3], &[], &[Array(&[8, 0, 0, 0]), Log(&[0, 7, 8]), List(&[0, 0, 0, 2, N])]),
    (write(1, 1), &[1], [0, 1, 0, 0], &[], &[Array(&[8, 1, 9, 10]), List(&[])]),
    (write(1, 1), &[2], [0, 1, 1, 2], &[], &[Array(&[8, 2, 9, 10]), Log(&[1, 2, 8]), List(&[0, 1, 0, 1, N])]),
];

/// A log of four records and two stripes of d 2: a stripe that finds no room is written with its parity and leaves the
/// other stripe's entries, and the records do not restart while one is listed. In a write over both stripes the first
/// drops the last listed block, and the second begins the log again.
const NO_ROOM: [Step; 6] = [
    (Call::Start, &[], [0, 1, 0, 0], &[], &[]),
    (
        write(0, 2),
        &[1, 2],
        [0, 1, 2, 2],
        &[],
        &[Array(&[1, 0, 2, 0, 0, 0, 0, 0]), Log(&[1, 2, 0, 0]), List(&[0, 1, N, 0, N, 0, N, 1, N, 1, N])],
    ),
    (
        write(1, 1),
        &[3],
        [0, 1, 2, 3],
        &[],
        &[Array(&[1, 0, 3, 0, 0, 0, 0, 0]), Log(&[1, 2, 3, 0]), List(&[0, 1, N, 0, N, 0, N, 1, N, 2, N])],
    ),
    (write(2, 1), &[4], [0, 1, 2, 3], &[], &[Array(&[1, 4, 3, 0, 0, 4, 0, 4])]),
    (
        write(0, 4),
        &[5, 6, 7, 8],
        [0, 1, 2, 2],
        &[],
        &[Array(&[5, 7, 6, 8, 3, 4, 9, 4]), Log(&[7, 8, 3, 0]), List(&[1, N, 0, 2, N, 0, N, 3, N, 1, N])],
    ),
    (Call::Resync, &[], [0, 0, 0, 0], &[], &[Array(&[5, 7, 6, 8, 3, 15, 9, 23]), List(&[]), Stripe(1)]),
];

/// Three stripes of d 2 wait: three resyncs from the lowest on end in mode 0, and a write in between lists nothing. The
/// log's failure in between changes nothing of it.
const THREE_WAIT: [Step; 8] = [
    (Call::Start, &[], [0, 1, 0, 0], &[], &[]),
    (
        write(5, 1),
        &[1],
        [0, 1, 1, 2],
        &[],
        &[Array(&[0, 0, 0, 0, 0, 1, 0, 0, 0, 0, 0, 0]), Log(&[0, 1, 0, 0, 0, 0]), List(&[N, 0, 5, 0, 1, N])],
    ),
    (
        write(0, 1),
        &[2],
        [0, 1, 2, 4],
        &[],
        &[
            Array(&[2, 0, 0, 0, 0, 1, 0, 0, 0, 0, 0, 0]),
            Log(&[0, 1, 0, 2, 0, 0]),
            List(&[0, 1, 0, 2, 3, N, 5, 0, 1, N]),
        ],
    ),
    (
        write(2, 1),
        &[4],
        [0, 1, 3, 6],
        &[],
        &[
            Array(&[2, 4, 0, 0, 0, 1, 0, 0, 0, 0, 0, 0]),
            Log(&[0, 1, 0, 2, 0, 4]),
            List(&[0, 2, 0, 2, 3, 1, 2, 4, 5, N, 5, 0, 1, N]),
        ],
    ),
    (
        Call::Resync,
        &[],
        [0, 2, 2, 6],
        &[],
        &[Array(&[2, 4, 0, 0, 0, 1, 2, 0, 0, 2, 0, 0]), List(&[0, 1, 2, 4, 5, N, 5, 0, 1, N]), Stripe(0)],
    ),
    (Call::Fail(4), &[], [0, 2, 2, 6], &[4], &[]),
    (
        write(3, 1),
        &[8],
        [0, 2, 1, 6],
        &[4],
        &[Array(&[2, 4, 0, 0, 8, 1, 2, 12, 0, 2, 20, 0]), List(&[N, 0, 5, 0, 1, N])],
    ),
    (Call::Resync, &[], [0, 0, 0, 0], &[4], &[Array(&[2, 4, 0, 0, 8, 1, 2, 12, 1, 2, 20, 2]), List(&[]), Stripe(2)]),
];

/// Plays the scripts.
pub fn group(_seed: u64) -> Outcome {
    let stand = &mut Stand::default();
    for ending in [&K8[..], &K9, &BESIDE_P, &BESIDE_Q, &WITHOUT_LOG_AND_P, &RESYNCED, &FULLY_RESYNCED] {
        Script::fresh(3, 1, 1, [4, 2, 3], stand)?.play(&[&LOGGED, ending].concat(), stand)?;
    }
    Script::fresh(3, 2, 1, [4, 2, 4], stand)?.play(&ADDRESSES, stand)?;
    Script::fresh(3, 1, 1, [4, 2, 3], stand)?.play(&K12, stand)?;
    Script::fresh(2, 1, 1, [3, 1, 1], stand)?.play(&K13, stand)?;
    Script::fresh(2, 2, 1, [4, 3, 4], stand)?.play(&NO_ROOM, stand)?;
    Script::fresh(2, 3, 1, [6, 2, 3], stand)?.play(&THREE_WAIT, stand)?;
    Ok(format!("K8 to K13 and what is near them, {} calls worked out by hand", stand.calls))
}
