//! Sessions of format, start, fail, put back and new log with the lines that are due: those of the customer's session
//! that they cover, and others worked out by hand. The model is not asked.

use crate::model::made_all;
use crate::shelf::harness::calls::{Buffer, Call, Measures, Record, Shelf};
use crate::shelf::harness::stand::Stand;
use crate::shelf::model::due::Due;
use crate::shelf::model::numbers::NONE;
use crate::Outcome;

/// The measures of the customer's session.
const MEASURES: Measures = Measures { d: 3, s: 2, b: 1, l: 4, h: 2, e: 4, layout: 0, parities: 2 };

/// The log's number on that shelf.
const LOG: usize = 5;

/// A step: the call and its line: code, mode, listed, next, 0; then the members that have failed.
type Step = (Call, &'static str, &'static [usize]);

/// On a shelf that holds anything: format and start of the customer's session, then what the text says of a shelf on
/// which no block is listed.
const FRESH: [Step; 37] = [
    (Call::Start, "start 3 0 0 0 0", &[]),
    (Call::PutBack(0), "putback 3 0 0 0 0", &[]),
    (Call::Format, "format 0 0 0 0 0", &[]),
    (Call::NewLog, "newlog 12 0 0 0 0", &[]),
    (Call::PutBack(0), "putback 12 0 0 0 0", &[]),
    (Call::PutBack(4), "putback 12 0 0 0 0", &[]),
    (Call::PutBack(LOG), "putback 6 0 0 0 0", &[]),
    (Call::PutBack(6), "putback 6 0 0 0 0", &[]),
    (Call::PutBack(usize::MAX), "putback 6 0 0 0 0", &[]),
    (Call::Start, "start 0 1 0 0 0", &[]),
    (Call::Start, "start 7 1 0 0 0", &[]),
    (Call::Fail(6), "fail 6 1 0 0 0", &[]),
    (Call::Fail(LOG), "fail 0 0 0 0 0", &[LOG]),
    (Call::Fail(LOG), "fail 10 0 0 0 0", &[LOG]),
    (Call::PutBack(LOG), "putback 6 0 0 0 0", &[LOG]),
    (Call::PutBack(0), "putback 12 0 0 0 0", &[LOG]),
    (Call::Start, "start 9 0 0 0 0", &[LOG]),
    (Call::NewLog, "newlog 0 0 0 0 0", &[]),
    (Call::Start, "start 0 1 0 0 0", &[]),
    (Call::Fail(4), "fail 0 1 0 0 0", &[4]),
    (Call::PutBack(4), "putback 0 1 0 0 0", &[]),
    (Call::Fail(4), "fail 0 1 0 0 0", &[4]),
    (Call::Fail(LOG), "fail 0 0 0 0 0", &[4, LOG]),
    (Call::PutBack(4), "putback 0 0 0 0 0", &[LOG]),
    (Call::Fail(4), "fail 0 0 0 0 0", &[4, LOG]),
    (Call::PutBack(LOG), "putback 6 0 0 0 0", &[4, LOG]),
    (Call::Start, "start 8 0 0 0 0", &[4, LOG]),
    (Call::Fail(4), "fail 10 0 0 0 0", &[4, LOG]),
    (Call::Fail(0), "fail 11 0 0 0 0", &[4, LOG]),
    (Call::Fail(6), "fail 6 0 0 0 0", &[4, LOG]),
    (Call::NewLog, "newlog 0 0 0 0 0", &[4]),
    (Call::NewLog, "newlog 12 0 0 0 0", &[4]),
    (Call::Fail(0), "fail 0 0 0 0 0", &[0, 4]),
    (Call::Start, "start 8 0 0 0 0", &[0, 4]),
    (Call::PutBack(3), "putback 12 0 0 0 0", &[0, 4]),
    (Call::PutBack(0), "putback 0 0 0 0 0", &[4]),
    (Call::Format, "format 0 0 0 0 0", &[]),
];

/// After the customer's `write 1 1 7`: disks 0 and 1 fail as in that session, and are put back.
const LOGGED: [Step; 7] = [
    (Call::Fail(0), "fail 0 1 1 2 0", &[0]),
    (Call::Fail(1), "fail 0 1 1 2 0", &[0, 1]),
    (Call::Start, "start 7 1 1 2 0", &[0, 1]),
    (Call::Fail(LOG), "fail 11 1 1 2 0", &[0, 1]),
    (Call::PutBack(0), "putback 0 1 1 2 0", &[1]),
    (Call::PutBack(0), "putback 12 1 1 2 0", &[1]),
    (Call::PutBack(1), "putback 0 1 1 2 0", &[]),
];

/// The same where the log fails, as in K9. Disk 0 is put back, and the log is not.
const WITHOUT_LOG: [Step; 7] = [
    (Call::NewLog, "newlog 12 1 1 2 0", &[]),
    (Call::Fail(LOG), "fail 0 2 1 2 0", &[LOG]),
    (Call::NewLog, "newlog 13 2 1 2 0", &[LOG]),
    (Call::Fail(0), "fail 0 2 1 2 0", &[0, LOG]),
    (Call::Start, "start 7 2 1 2 0", &[0, LOG]),
    (Call::PutBack(LOG), "putback 6 2 1 2 0", &[0, LOG]),
    (Call::PutBack(0), "putback 0 2 1 2 0", &[LOG]),
];

/// The last line of the customer's session.
const RESYNCED: [Step; 1] = [(Call::Fail(6), "fail 6 0 0 0 0", &[])];

/// A list of the session's measures with these heads and this entry on place 0.
fn list(heads: [u32; 2], entry: [u32; 4]) -> Vec<u8> {
    [&heads[..], &entry, &[NONE; 12]].concat().iter().flat_map(|word| word.to_le_bytes()).collect()
}

/// A shelf of the session's measures.
fn shelf(mode: usize, next: usize, listed: usize, data: [u8; 6], log: [u8; 4], list: Vec<u8>) -> Shelf {
    let record = Record { measures: MEASURES, mode, next, listed, failed: [0; 19] };
    let array = made_all(3, 2, 2, 1, &[&data[..], &[0; 4]].concat());
    let [array, log, list, data] = [array, log.to_vec(), list, Vec::new()].map(Buffer::of);
    Shelf { record, array, log, list, data }
}

/// Replays the steps one after another, the record and the buffers being handed on.
fn replayed(mut shelf: Shelf, steps: &[Step], stand: &mut Stand) -> Result<(), String> {
    for &(call, line, failed) in steps {
        let fields: Vec<usize> = line.split(' ').skip(1).filter_map(|field| field.parse().ok()).collect();
        let mut after = shelf.clone();
        (after.record.mode, after.record.listed, after.record.next) = (fields[1], fields[2], fields[3]);
        after.record.failed = [0; 19];
        failed.iter().for_each(|&member| after.record.failed[member] = 1);
        if call == Call::Format {
            (after.array.bytes, after.log.bytes, after.list.bytes) = (vec![0; 10], vec![0; 4], vec![255; 72]);
        }
        let mut due = Due::nothing(call, &shelf, fields[0]);
        due.record = after.record;
        (due.array, due.log) = (Some(after.array.bytes.clone()), Some(after.log.bytes.clone()));
        due.list = Some(after.list.bytes.clone());
        stand.expect(call, &shelf, &due).map_err(|fault| format!("{line}: {fault}"))?;
        shelf = after;
    }
    Ok(())
}

/// A listed block of the shelf with d times S 6, four places and next 2: its slot, to which place the head leads,
/// address, Ori and Cur on place 0, and the number that start of mode 1 answers. Each is at a limit, on one side or the
/// other.
const EDGES: [(usize, u32, [u32; 3], usize); 18] = [
    (1, 0, [5, 0, 1], 7),
    (0, 0, [6, 0, 1], 3),
    (1, 0, [7, 0, 1], 3),
    (1, 0, [NONE, 0, 1], 3),
    (0, 0, [4, 0, 1], 7),
    (1, 0, [4, 0, 1], 3),
    (0, 0, [0, 1, NONE], 7),
    (0, 0, [0, 2, NONE], 3),
    (0, 0, [0, 1, 2], 3),
    (0, 0, [0, 1, 1], 7),
    (0, 0, [0, NONE, 1], 3),
    (0, 0, [0, NONE, NONE], 3),
    (0, 0, [0, NONE - 1, 1], 3),
    (0, 0, [0, 1, NONE - 1], 3),
    (0, 1, [0, 0, 1], 3),
    (0, 4, [0, 0, 1], 3),
    (0, NONE - 1, [0, 0, 1], 3),
    (0, NONE, [0, 0, 1], 3),
];

/// Has the listed blocks at the limits tested.
fn edges(stand: &mut Stand) -> Result<(), String> {
    for (slot, place, [address, ori, cur], code) in EDGES {
        let mut heads = [NONE; 2];
        heads[slot] = place;
        let shelf = shelf(1, 2, 1, [0; 6], [0; 4], list(heads, [address, ori, cur, NONE]));
        stand.expect(Call::Start, &shelf, &Due::nothing(Call::Start, &shelf, code))?;
    }
    Ok(())
}

/// Replays the sessions.
pub fn group(_seed: u64) -> Outcome {
    let mut stand = Stand::default();
    let empty = || list([NONE; 2], [NONE; 4]);
    let logged = || shelf(1, 2, 1, [0, 0, 7, 0, 0, 0], [0, 7, 88, 99], list([NONE, 0], [1, 0, 1, NONE]));
    let mut junk = shelf(0, 0, 0, [1, 2, 3, 4, 5, 6], [1, 2, 3, 4], list([0, 1], [9; 4]));
    junk.array.bytes[6..].fill(77);
    replayed(junk, &FRESH, &mut stand)?;
    replayed(logged(), &LOGGED, &mut stand)?;
    replayed(logged(), &WITHOUT_LOG, &mut stand)?;
    replayed(shelf(0, 0, 0, [0, 0, 9, 5, 0, 0], [0, 7, 9, 0], empty()), &RESYNCED, &mut stand)?;
    edges(&mut stand)?;
    Ok(format!("{} calls of the customer's session and of others worked out by hand", stand.calls))
}
