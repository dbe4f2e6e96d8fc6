//! Rebuilds one after another on a shelf of two stripes, by hand: where parity rotates and where it is fixed, and with
//! one parity that rotates, the mode, the count of listed blocks and next after each, and what the calls after it get
//! and do. The model is not asked.

use crate::shelf::harness::calls::{write, Call, Measures};
use crate::shelf::harness::script::Left::{Array, List, Log, Stripe};
use crate::shelf::harness::script::{Script, Step};
use crate::shelf::harness::stand::Stand;
use crate::shelf::model::numbers::NONE as N;
use crate::Outcome;

/// Where parity rotates, stripe 0 has Q on member 0, its data on members 1 to 3 and P on member 4; stripe 1 has its
/// data on members 0 to 2, P on member 3 and Q on member 4. With members 1 and 2 no parity is lost, and list and mode
/// remain, mode 1 with nothing listed too. With member 3 only stripe 1 is made, which is not stale. With member 4 the
/// list ends empty, and mode 1 remains: the next writes are logged from record 0 on.
const ROTATING: [Step; 19] = [
    (write(0, 6), &[1, 2, 3, 4, 5, 6], [0, 0, 0, 0], &[], &[Array(&[9, 4, 1, 5, 2, 6, 3, 7, 0, 22])]),
    (Call::Fail(1), &[], [0, 0, 0, 0], &[1], &[]),
    (Call::Rebuild, &[], [0, 0, 0, 0], &[], &[Array(&[9, 4, 1, 5, 2, 6, 3, 7, 0, 22])]),
    (Call::Start, &[], [0, 1, 0, 0], &[], &[]),
    (Call::Fail(1), &[], [0, 1, 0, 0], &[1], &[]),
    (Call::Rebuild, &[], [0, 1, 0, 0], &[], &[Array(&[9, 4, 1, 5, 2, 6, 3, 7, 0, 22])]),
    (Call::Fail(2), &[], [0, 1, 0, 0], &[2], &[]),
    (Call::Fail(1), &[], [0, 1, 0, 0], &[1, 2], &[]),
    (Call::Rebuild, &[], [0, 1, 0, 0], &[], &[Array(&[9, 4, 1, 5, 2, 6, 3, 7, 0, 22])]),
    (
        write(1, 1),
        &[21],
        [0, 1, 1, 2],
        &[],
        &[Array(&[9, 4, 1, 5, 21, 6, 3, 7, 0, 22]), Log(&[2, 21, 0, 0]), List(&[N, 0, 1, 0, 1, N])],
    ),
    (Call::Fail(2), &[], [0, 1, 1, 2], &[2], &[]),
    (Call::Fail(1), &[], [0, 1, 1, 2], &[1, 2], &[]),
    (Call::Rebuild, &[], [0, 1, 1, 2], &[], &[Array(&[9, 4, 1, 5, 21, 6, 3, 7, 0, 22])]),
    (Call::Fail(3), &[], [0, 1, 1, 2], &[3], &[]),
    (Call::Rebuild, &[], [0, 1, 1, 2], &[], &[Array(&[9, 4, 1, 5, 21, 6, 3, 7, 0, 22])]),
    (Call::Fail(4), &[], [0, 1, 1, 2], &[4], &[]),
    (Call::Rebuild, &[], [0, 1, 0, 0], &[], &[Array(&[39, 4, 1, 5, 21, 6, 3, 7, 23, 22]), List(&[])]),
    (
        write(1, 1),
        &[30],
        [0, 1, 1, 2],
        &[],
        &[Array(&[39, 4, 1, 5, 30, 6, 3, 7, 23, 22]), Log(&[21, 30, 0, 0]), List(&[N, 0, 1, 0, 1, N])],
    ),
    (
        write(3, 1),
        &[24],
        [0, 1, 2, 4],
        &[],
        &[Array(&[39, 24, 1, 5, 30, 6, 3, 7, 23, 22]), Log(&[21, 30, 4, 24]), List(&[N, 0, 1, 0, 1, 1, 3, 2, 3, N])],
    ),
];

/// Then a rebuild drops one of the two listed blocks, and next stays; another drops the last one. One that makes parity
/// with nothing listed leaves mode 1 too: start gets 7, and the next write is logged.
const ROTATING_GOES_ON: [Step; 8] = [
    (Call::Fail(3), &[], [0, 1, 2, 4], &[3], &[]),
    (Call::Rebuild, &[], [0, 1, 1, 4], &[], &[Array(&[39, 24, 1, 5, 30, 6, 3, 27, 23, 10]), List(&[N, 0, 1, 0, 1, N])]),
    (Call::Fail(4), &[], [0, 1, 1, 4], &[4], &[]),
    (Call::Rebuild, &[], [0, 1, 0, 0], &[], &[Array(&[49, 24, 1, 5, 30, 6, 3, 27, 28, 10]), List(&[])]),
    (Call::Fail(0), &[], [0, 1, 0, 0], &[0], &[]),
    (Call::Rebuild, &[], [0, 1, 0, 0], &[], &[Array(&[49, 24, 1, 5, 30, 6, 3, 27, 28, 10])]),
    (Call::Start, &[], [7, 1, 0, 0], &[], &[]),
    (
        write(2, 1),
        &[9],
        [0, 1, 1, 2],
        &[],
        &[Array(&[49, 24, 1, 5, 30, 6, 9, 27, 28, 10]), Log(&[3, 9, 4, 24]), List(&[0, N, 2, 0, 1, N])],
    ),
];

/// Or stripe 0 is resynced, and with member 2 no parity is lost: stripe 1 stays stale, and mode 2 remains.
const ROTATING_TRANSITIONAL: [Step; 3] = [
    (
        Call::Resync,
        &[],
        [0, 2, 1, 4],
        &[],
        &[Array(&[49, 24, 1, 5, 30, 6, 3, 7, 28, 22]), List(&[N, 0, 3, 2, 3, N]), Stripe(0)],
    ),
    (Call::Fail(2), &[], [0, 2, 1, 4], &[2], &[]),
    (Call::Rebuild, &[], [0, 2, 1, 4], &[], &[Array(&[49, 24, 1, 5, 30, 6, 3, 7, 28, 22])]),
];

/// Then the log fails too: member 1, which has data of stripe 1, is not rebuilt.
const ROTATING_WITHHELD: [Step; 3] = [
    (Call::Fail(5), &[], [0, 2, 1, 4], &[5], &[]),
    (Call::Fail(1), &[], [0, 2, 1, 4], &[1, 5], &[]),
    (Call::Rebuild, &[], [14, 2, 1, 4], &[1, 5], &[]),
];

/// Or member 3 fails, which has P of stripe 1: the list ends empty, and mode 2 becomes 0.
const ROTATING_ENDS: [Step; 2] = [
    (Call::Fail(3), &[], [0, 2, 1, 4], &[3], &[]),
    (Call::Rebuild, &[], [0, 0, 0, 0], &[], &[Array(&[49, 24, 1, 5, 30, 6, 3, 27, 28, 10]), List(&[])]),
];

/// In mode 0 resync gets 7, and start is accepted.
const NORMAL: [Step; 2] = [(Call::Resync, &[], [7, 0, 0, 0], &[], &[]), (Call::Start, &[], [0, 1, 0, 0], &[], &[])];

/// Where parity is fixed, P is on member 3 and Q on member 4. With nothing listed mode 0 remains after P is rebuilt, and
/// mode 1 after Q is: start gets 7, and the next write is logged. With a data disk list and mode remain. With P the list
/// ends empty, and mode 1 remains: the next writes are logged from record 0 on.
const FIXED: [Step; 14] = [
    (write(0, 6), &[1, 2, 3, 4, 5, 6], [0, 0, 0, 0], &[], &[Array(&[1, 4, 2, 5, 3, 6, 0, 7, 9, 22])]),
    (Call::Fail(3), &[], [0, 0, 0, 0], &[3], &[]),
    (Call::Rebuild, &[], [0, 0, 0, 0], &[], &[Array(&[1, 4, 2, 5, 3, 6, 0, 7, 9, 22])]),
    (Call::Start, &[], [0, 1, 0, 0], &[], &[]),
    (Call::Fail(4), &[], [0, 1, 0, 0], &[4], &[]),
    (Call::Rebuild, &[], [0, 1, 0, 0], &[], &[Array(&[1, 4, 2, 5, 3, 6, 0, 7, 9, 22])]),
    (Call::Start, &[], [7, 1, 0, 0], &[], &[]),
    (
        write(1, 1),
        &[21],
        [0, 1, 1, 2],
        &[],
        &[Array(&[1, 4, 21, 5, 3, 6, 0, 7, 9, 22]), Log(&[2, 21, 0, 0]), List(&[N, 0, 1, 0, 1, N])],
    ),
    (Call::Fail(1), &[], [0, 1, 1, 2], &[1], &[]),
    (Call::Rebuild, &[], [0, 1, 1, 2], &[], &[Array(&[1, 4, 21, 5, 3, 6, 0, 7, 9, 22])]),
    (Call::Fail(3), &[], [0, 1, 1, 2], &[3], &[]),
    (Call::Rebuild, &[], [0, 1, 0, 0], &[], &[Array(&[1, 4, 21, 5, 3, 6, 23, 7, 39, 22]), List(&[])]),
    (
        write(1, 1),
        &[30],
        [0, 1, 1, 2],
        &[],
        &[Array(&[1, 4, 30, 5, 3, 6, 23, 7, 39, 22]), Log(&[21, 30, 0, 0]), List(&[N, 0, 1, 0, 1, N])],
    ),
    (
        write(3, 1),
        &[24],
        [0, 1, 2, 4],
        &[],
        &[Array(&[1, 24, 30, 5, 3, 6, 23, 7, 39, 22]), Log(&[21, 30, 4, 24]), List(&[N, 0, 1, 0, 1, 1, 3, 2, 3, N])],
    ),
];

/// Then stripe 0 is resynced: with a data disk list and mode 2 remain; with Q the list ends empty, and mode 2 becomes 0.
const FIXED_TRANSITIONAL: [Step; 5] = [
    (
        Call::Resync,
        &[],
        [0, 2, 1, 4],
        &[],
        &[Array(&[1, 24, 30, 5, 3, 6, 28, 7, 49, 22]), List(&[N, 0, 3, 2, 3, N]), Stripe(0)],
    ),
    (Call::Fail(0), &[], [0, 2, 1, 4], &[0], &[]),
    (Call::Rebuild, &[], [0, 2, 1, 4], &[], &[Array(&[1, 24, 30, 5, 3, 6, 28, 7, 49, 22])]),
    (Call::Fail(4), &[], [0, 2, 1, 4], &[4], &[]),
    (Call::Rebuild, &[], [0, 0, 0, 0], &[], &[Array(&[1, 24, 30, 5, 3, 6, 28, 27, 49, 10]), List(&[])]),
];

/// With one parity that rotates, stripe 0 has its data on members 0 to 2 and P on member 3; stripe 1 has data index 0 on
/// member 3, the others on members 0 and 1, and P on member 2; the log is member 4. With members 0 and 1 no parity is
/// lost, and list and mode remain. With member 2 only stripe 1 is made, which is not stale; with member 3 the list ends
/// empty, and mode 1 remains.
const ONE_PARITY: [Step; 20] = [
    (write(0, 6), &[1, 2, 3, 4, 5, 6], [0, 0, 0, 0], &[], &[Array(&[1, 5, 2, 6, 3, 7, 0, 4])]),
    (Call::Fail(1), &[], [0, 0, 0, 0], &[1], &[]),
    (Call::Fail(0), &[], [11, 0, 0, 0], &[1], &[]),
    (Call::Rebuild, &[], [0, 0, 0, 0], &[], &[Array(&[1, 5, 2, 6, 3, 7, 0, 4])]),
    (Call::Start, &[], [0, 1, 0, 0], &[], &[]),
    (Call::Fail(3), &[], [0, 1, 0, 0], &[3], &[]),
    (Call::Rebuild, &[], [0, 1, 0, 0], &[], &[Array(&[1, 5, 2, 6, 3, 7, 0, 4])]),
    (
        write(1, 1),
        &[21],
        [0, 1, 1, 2],
        &[],
        &[Array(&[1, 5, 21, 6, 3, 7, 0, 4]), Log(&[2, 21, 0, 0]), List(&[N, 0, 1, 0, 1, N])],
    ),
    (Call::Fail(0), &[], [0, 1, 1, 2], &[0], &[]),
    (Call::Rebuild, &[], [0, 1, 1, 2], &[], &[Array(&[1, 5, 21, 6, 3, 7, 0, 4])]),
    (Call::Fail(1), &[], [0, 1, 1, 2], &[1], &[]),
    (Call::Rebuild, &[], [0, 1, 1, 2], &[], &[Array(&[1, 5, 21, 6, 3, 7, 0, 4])]),
    (Call::Fail(2), &[], [0, 1, 1, 2], &[2], &[]),
    (Call::Rebuild, &[], [0, 1, 1, 2], &[], &[Array(&[1, 5, 21, 6, 3, 7, 0, 4])]),
    (Call::Fail(3), &[], [0, 1, 1, 2], &[3], &[]),
    (Call::Rebuild, &[], [0, 1, 0, 0], &[], &[Array(&[1, 5, 21, 6, 3, 7, 23, 4]), List(&[])]),
    (Call::Start, &[], [7, 1, 0, 0], &[], &[]),
    (
        write(1, 1),
        &[30],
        [0, 1, 1, 2],
        &[],
        &[Array(&[1, 5, 30, 6, 3, 7, 23, 4]), Log(&[21, 30, 0, 0]), List(&[N, 0, 1, 0, 1, N])],
    ),
    (
        write(3, 1),
        &[24],
        [0, 1, 2, 4],
        &[],
        &[Array(&[1, 5, 30, 6, 3, 7, 23, 24]), Log(&[21, 30, 4, 24]), List(&[N, 0, 1, 0, 1, 1, 3, 2, 3, N])],
    ),
    (
        Call::Resync,
        &[],
        [0, 2, 1, 4],
        &[],
        &[Array(&[1, 5, 30, 6, 3, 7, 28, 24]), List(&[N, 0, 3, 2, 3, N]), Stripe(0)],
    ),
];

/// Then member 3 is rebuilt, which has block 3, and mode 2 remains; with member 2, which has P of stripe 1, the list
/// ends empty, and mode 2 becomes 0.
const ONE_PARITY_ENDS: [Step; 4] = [
    (Call::Fail(3), &[], [0, 2, 1, 4], &[3], &[]),
    (Call::Rebuild, &[], [0, 2, 1, 4], &[], &[Array(&[1, 5, 30, 6, 3, 7, 28, 24])]),
    (Call::Fail(2), &[], [0, 2, 1, 4], &[2], &[]),
    (Call::Rebuild, &[], [0, 0, 0, 0], &[], &[Array(&[1, 5, 30, 6, 3, 27, 28, 24]), List(&[])]),
];

/// Or the log fails: no member may besides, a rebuild gets 12, and a resync ends mode 2.
const ONE_PARITY_WITHOUT_LOG: [Step; 6] = [
    (Call::Fail(4), &[], [0, 2, 1, 4], &[4], &[]),
    (Call::Fail(1), &[], [11, 2, 1, 4], &[4], &[]),
    (Call::Rebuild, &[], [12, 2, 1, 4], &[4], &[]),
    (Call::NewLog, &[], [13, 2, 1, 4], &[4], &[]),
    (Call::Resync, &[], [0, 0, 0, 0], &[4], &[Array(&[1, 5, 30, 6, 3, 27, 28, 24]), List(&[]), Stripe(1)]),
    (Call::NewLog, &[], [0, 0, 0, 0], &[], &[]),
];

/// Plays the scripts.
pub fn group(_seed: u64) -> Outcome {
    let stand = &mut Stand::default();
    let endings = [
        ROTATING_GOES_ON.to_vec(),
        [&ROTATING_TRANSITIONAL[..], &ROTATING_WITHHELD].concat(),
        [&ROTATING_TRANSITIONAL[..], &ROTATING_ENDS, &NORMAL].concat(),
    ];
    for ending in endings {
        Script::rotating(3, 2, 1, [4, 2, 4], stand)?.play(&[&ROTATING[..], &ending].concat(), stand)?;
    }
    let fixed = [&FIXED[..], &FIXED_TRANSITIONAL, &NORMAL].concat();
    Script::fresh(3, 2, 1, [4, 2, 4], stand)?.play(&fixed, stand)?;
    for ending in [&ONE_PARITY_ENDS[..], &ONE_PARITY_WITHOUT_LOG] {
        let measures = Measures { d: 3, s: 2, b: 1, l: 4, h: 2, e: 4, layout: 1, parities: 1 };
        Script::of(measures, stand)?.play(&[&ONE_PARITY[..], ending, &NORMAL].concat(), stand)?;
    }
    Ok(format!(
        "in every mode and both layouts, with one parity too, and what the calls after them do; {} calls by hand",
        stand.calls
    ))
}
