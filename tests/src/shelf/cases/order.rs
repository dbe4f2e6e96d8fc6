//! The one order of the list, by hand: lists in other arrangements are refused, the same blocks with the same Ori and Cur
//! have the same list in whatever way it was reached, and a shelf in mode 0 whose unused places hold something is taken
//! once its list is filled with none. The model is not asked.

use crate::shelf::harness::calls::{fetch, read, write, Call};
use crate::shelf::harness::script::Left::{Array, Data, List, Log};
use crate::shelf::harness::script::{Script, Step};
use crate::shelf::harness::stand::Stand;
use crate::shelf::model::numbers::NONE as N;
use crate::Outcome;

/// Every call that tests the list gets 3, where the record has this mode, and so many blocks listed and records used.
const fn all_refused(mode: usize, listed: usize, next: usize) -> [Step; 9] {
    let line = [3, mode, listed, next];
    [
        (Call::Start, &[], line, &[], &[]),
        (Call::Fail(0), &[], line, &[], &[]),
        (Call::PutBack(0), &[], line, &[], &[]),
        (Call::NewLog, &[], line, &[], &[]),
        (write(1, 1), &[5], line, &[], &[]),
        (read(1, 1), &[99], line, &[], &[]),
        (fetch(1, 1), &[99], line, &[], &[]),
        (Call::Resync, &[], line, &[], &[]),
        (Call::Rebuild, &[], line, &[], &[]),
    ]
}

/// Block 1 of three is logged, then all three are, each with the one list of two slots and three places.
const LOGGED: [Step; 3] = [
    (Call::Start, &[], [0, 1, 0, 0], &[], &[]),
    (write(1, 1), &[7], [0, 1, 1, 2], &[], &[Array(&[0, 7, 0, 0, 0]), Log(&[0, 7, 0, 0, 0]), List(&ONE)]),
    (write(0, 3), &[1, 2, 3], [0, 1, 3, 5], &[], &[Array(&[1, 2, 3, 0, 0]), Log(&[0, 7, 1, 2, 3]), List(&THREE)]),
];
const ONE: [u32; 6] = [N, 0, 1, 0, 1, N];
const THREE: [u32; 14] = [0, 1, 0, N, 2, 2, 1, 0, 3, N, 2, N, 4, N];

/// The first of these lists in other arrangements: its entry is on the second place, or on the last; an unused place
/// holds an entry, or one word.
const OTHERS_OF_ONE: [&[u32]; 8] = [
    &[N, 1, N, N, N, N, 1, 0, 1, N],
    &[N, 2, N, N, N, N, N, N, N, N, 1, 0, 1, N],
    &[N, 0, 1, 0, 1, N, 0, 0, N, N],
    &[N, 0, 1, 0, 1, N, 0],
    &[N, 0, 1, 0, 1, N, N, 0],
    &[N, 0, 1, 0, 1, N, N, N, 1],
    &[N, 0, 1, 0, 1, N, N, N, N, 0],
    &[N, 0, 1, 0, 1, N, N, N, N, N, N, N, N, 2],
];

/// The second one: two neighbours have changed places; a chain falls; places 0 and 2 have changed, and the chain falls
/// with them.
const OTHERS_OF_THREE: [&[u32]; 3] = [
    &[1, 0, 1, 0, 3, N, 0, N, 2, 2, 2, N, 4, N],
    &[2, 1, 0, N, 2, N, 1, 0, 3, N, 2, N, 4, 0],
    &[0, 1, 2, N, 4, 2, 1, 0, 3, N, 0, N, 2, N],
];

/// Full resync where one is listed, and where all three are.
const EMPTIED: [Step; 2] = [
    (Call::FullResync, &[], [0, 0, 0, 0], &[], &[Array(&[0, 7, 0, 7, 14]), List(&[])]),
    (Call::FullResync, &[], [0, 0, 0, 0], &[], &[Array(&[1, 2, 3, 0, 9]), List(&[])]),
];

/// Has each call that tests the list refuse the other arrangements, and full resync empty them.
fn arrangements(stand: &mut Stand) -> Result<(), String> {
    let one = (&LOGGED[..2], &OTHERS_OF_ONE[..], all_refused(1, 1, 2), EMPTIED[0]);
    let three = (&LOGGED[..], &OTHERS_OF_THREE[..], all_refused(1, 3, 5), EMPTIED[1]);
    for (logged, others, refused, emptied) in [one, three] {
        for words in others {
            let mut script = Script::fresh(3, 1, 1, [5, 2, 3], stand)?;
            script.play(logged, stand)?;
            script.put_list(words);
            script.play(&refused, stand)?;
            script.play(&[emptied], stand)?;
        }
    }
    Ok(())
}

/// Two stripes of two blocks, either of which is written first; then both are.
const LOWER_FIRST: [Step; 4] = [
    (Call::Start, &[], [0, 1, 0, 0], &[], &[]),
    (
        write(0, 2),
        &[1, 2],
        [0, 1, 2, 2],
        &[],
        &[Array(&[1, 0, 2, 0, 0, 0, 0, 0]), Log(&[1, 2, 0, 0, 0, 0, 0, 0]), List(&[0, 1, 0, N, 0, N, 1, N, 1, N])],
    ),
    (
        write(2, 2),
        &[3, 4],
        [0, 1, 4, 4],
        &[],
        &[
            Array(&[1, 3, 2, 4, 0, 0, 0, 0]),
            Log(&[1, 2, 3, 4, 0, 0, 0, 0]),
            List(&[0, 1, 0, N, 0, 2, 1, N, 1, 3, 2, N, 2, N, 3, N, 3, N]),
        ],
    ),
    (
        write(0, 4),
        &[5, 6, 7, 8],
        [0, 1, 4, 8],
        &[],
        &[Array(&[5, 7, 6, 8, 0, 0, 0, 0]), Log(&[1, 2, 3, 4, 5, 6, 7, 8]), List(&BOTH)],
    ),
];
const HIGHER_FIRST: [Step; 4] = [
    (Call::Start, &[], [0, 1, 0, 0], &[], &[]),
    (
        write(2, 2),
        &[3, 4],
        [0, 1, 2, 2],
        &[],
        &[Array(&[0, 3, 0, 4, 0, 0, 0, 0]), Log(&[3, 4, 0, 0, 0, 0, 0, 0]), List(&[0, 1, 2, N, 0, N, 3, N, 1, N])],
    ),
    (
        write(0, 2),
        &[1, 2],
        [0, 1, 4, 4],
        &[],
        &[
            Array(&[1, 3, 2, 4, 0, 0, 0, 0]),
            Log(&[3, 4, 1, 2, 0, 0, 0, 0]),
            List(&[0, 1, 0, N, 2, 2, 1, N, 3, 3, 2, N, 0, N, 3, N, 1, N]),
        ],
    ),
    (
        write(0, 4),
        &[5, 6, 7, 8],
        [0, 1, 4, 8],
        &[],
        &[Array(&[5, 7, 6, 8, 0, 0, 0, 0]), Log(&[3, 4, 1, 2, 5, 6, 7, 8]), List(&BOTH)],
    ),
];

/// The list that both ways lead to.
const BOTH: [u32; 18] = [0, 1, 0, N, 4, 2, 1, N, 5, 3, 2, N, 6, N, 3, N, 7, N];

/// A shelf in mode 0 with blocks, then the calls that are made on it once its list is filled with none.
const NORMAL: [Step; 1] = [(write(0, 3), &[1, 2, 3], [0, 0, 0, 0], &[], &[Array(&[1, 0, 2, 0, 3, 0, 0, 0, 9, 0])])];
const TAKEN: [Step; 9] = [
    (Call::NewLog, &[], [12, 0, 0, 0], &[], &[]),
    (Call::Resync, &[], [7, 0, 0, 0], &[], &[]),
    (Call::Rebuild, &[], [12, 0, 0, 0], &[], &[]),
    (read(0, 3), &[99; 3], [0, 0, 0, 0], &[], &[Data(&[1, 2, 3])]),
    (Call::Start, &[], [0, 1, 0, 0], &[], &[]),
    (write(1, 1), &[7], [0, 1, 1, 2], &[], &[Array(&[1, 0, 7, 0, 3, 0, 0, 0, 9, 0]), Log(&[2, 7, 0, 0]), List(&ONE)]),
    (Call::Fail(0), &[], [0, 1, 1, 2], &[0], &[]),
    (read(0, 2), &[99; 2], [16, 1, 1, 2], &[0], &[]),
    (fetch(0, 2), &[99; 2], [0, 1, 1, 2], &[0], &[Data(&[1, 7])]),
];

/// The lists that such a shelf has, of two slots and four places: entries that were dropped; any words in all unused
/// places; and in each word of each unused place alone 0, a small number, or one next to none.
fn left_over() -> Vec<Vec<u32>> {
    let dropped = vec![N, N, 1, 0, 1, N, 4, 2, 3, N];
    let mut lists = vec![dropped, [[N; 2].to_vec(), vec![7; 16]].concat()];
    for (at, word) in (2..18).flat_map(|at| [(at, 0), (at, 7), (at, N - 1)]) {
        let mut words = vec![N; 18];
        words[at] = word;
        lists.push(words);
    }
    lists
}

/// Has a shelf in mode 0 with such a list refused as it is, and taken once the list is filled with none.
fn carried_over(stand: &mut Stand) -> Result<(), String> {
    for words in left_over() {
        let mut script = Script::fresh(3, 2, 1, [4, 2, 4], stand)?;
        script.play(&NORMAL, stand)?;
        script.put_list(&words);
        script.play(&all_refused(0, 0, 0), stand)?;
        script.put_list(&[]);
        script.play(&TAKEN, stand)?;
    }
    Ok(())
}

/// Plays the scripts.
pub fn group(_seed: u64) -> Outcome {
    let stand = &mut Stand::default();
    arrangements(stand)?;
    for way in [LOWER_FIRST, HIGHER_FIRST] {
        Script::fresh(2, 2, 1, [8, 2, 4], stand)?.play(&way, stand)?;
    }
    carried_over(stand)?;
    Ok(format!("other arrangements, one list by two ways, and shelves that carry over; {} calls by hand", stand.calls))
}
