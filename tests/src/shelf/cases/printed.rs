//! The customer's printed session: its input is made into calls, and what they answer is printed as the text says. Beside
//! it the same session with a recovering read in place of the plain one.

use crate::shelf::harness::calls::{Buffer, Call, Measures, Record, Shelf};
use crate::shelf::harness::stand::Stand;
use crate::Outcome;

/// The input. The read is plain.
pub const INPUT: &str = "\
data stripes block log slots places
3 2 1 4 2 4
call a b c
start 0 0 0
write 1 1 7
fail 0 0 0
fail 1 0 0
read 1 1 0
rebuild 0 0 0
write 1 1 9
write 4 1 5
resync 0 0 0
fail 6 0 0
";

/// The output.
pub const OUTPUT: &str = "\
call code mode listed next first
format 0 0 0 0 0
start 0 1 0 0 0
write 0 1 1 2 0
fail 0 1 1 2 0
fail 0 1 1 2 0
read 16 1 1 2 0
rebuild 0 1 1 2 0
write 0 1 1 3 0
write 0 1 1 3 0
resync 0 0 0 0 0
fail 6 0 0 0 0
";

/// The read of the session and its line, and those of fetch in their place.
const READ: [&str; 2] = ["read 1 1 0", "read 16 1 1 2 0"];
const FETCH: [&str; 2] = ["fetch 1 1 0", "fetch 0 1 1 2 7"];

/// What the session leaves in the array, by member, and in the log; the list is all none.
const ARRAY: [u8; 10] = [0, 0, 9, 5, 0, 0, 9, 5, 18, 10];
const LOG: [u8; 4] = [0, 7, 9, 0];

/// The decimal numbers of a line.
fn numbers(fields: &str) -> Result<Vec<usize>, String> {
    fields.split(' ').map(|field| field.parse().map_err(|_| format!("{field} is no number"))).collect()
}

/// The call of a line of the input, with the caller's data.
fn call(line: &str, b: usize) -> Result<(&str, Call, Vec<u8>), String> {
    let (name, fields) = line.split_once(' ').ok_or("a call has no fields")?;
    let [x, count, fill] = numbers(fields)?[..] else {
        return Err(format!("{line} has not three numbers"));
    };
    let call = Call::named(name, x, count).ok_or_else(|| format!("there is no call {name}"))?;
    let data = match call {
        Call::Write { .. } => vec![fill as u8; count * b],
        Call::Read { .. } | Call::Fetch { .. } => vec![0; count * b],
        _ => Vec::new(),
    };
    Ok((name, call, data))
}

/// Makes a call and prints its line. The first byte is that of an accepted read, else 0.
fn printed(name: &str, call: Call, shelf: &mut Shelf, stand: &mut Stand) -> Result<String, String> {
    let code = stand.answer(call, shelf)?;
    stand.hand_on(shelf);
    let first = stand.data().first().copied().filter(|_| call.is_read() && code == 0).unwrap_or(0);
    let Record { mode, listed, next, .. } = shelf.record;
    Ok(format!("{name} {code} {mode} {listed} {next} {first}\n"))
}

/// The shelf that a line of measures asks for, with anything in record and buffers.
fn unformatted(line: &str) -> Result<Shelf, String> {
    let [d, s, b, l, h, e] = numbers(line)?[..] else {
        return Err("there are not six measures".into());
    };
    let measures = Measures { d, s, b, l, h, e, layout: 0, parities: 2 };
    let record = Record { measures, mode: 5, next: 6, listed: 7, failed: [1; 19] };
    let [array, log, list, data] =
        [(d + 2) * s * b, l * b, 4 * h + 16 * e, 0].map(|length| Buffer::of(vec![77; length]));
    Ok(Shelf { record, array, log, list, data })
}

/// Makes the calls of a session; fails unless what is printed is its output and what is left is right. The bytes of
/// failed disks are left alone, or are all this one before each call.
fn session([input, due]: [&str; 2], spoilt: Option<u8>, stand: &mut Stand) -> Result<(), String> {
    let mut lines = input.lines().skip(1);
    let mut shelf = unformatted(lines.next().unwrap_or(""))?;
    let mut output = due.split_inclusive('\n').next().unwrap_or("").to_string();
    output += &printed("format", Call::Format, &mut shelf, stand)?;
    for line in lines.skip(1) {
        let (name, call, data) = call(line, shelf.record.measures.b)?;
        for disk in (0..5).filter(|&disk| shelf.record.failed[disk] != 0) {
            spoilt.iter().for_each(|&byte| shelf.array.bytes[2 * disk..][..2].fill(byte));
        }
        shelf.data = Buffer::of(data);
        output += &printed(name, call, &mut shelf, stand)?;
    }
    let Shelf { array, log, list, .. } = &shelf;
    match output == due && array.bytes == ARRAY && log.bytes == LOG && list.bytes == [255; 72] {
        true => Ok(()),
        false => Err(format!("{output}is printed, left are {:?}, {:?} and {shelf}", array.bytes, log.bytes)),
    }
}

/// Replays both sessions as they stand, and with the bytes of failed disks changed.
pub fn group(_seed: u64) -> Outcome {
    let stand = &mut Stand::default();
    let [input, due] = [INPUT.replace(READ[0], FETCH[0]), OUTPUT.replace(READ[1], FETCH[1])];
    for spoilt in [None, Some(0), Some(7), Some(255)] {
        session([INPUT, OUTPUT], spoilt, stand)?;
        session([&input, &due], spoilt, stand)?;
    }
    Ok(format!("the customer's session, printed as the text has it, and with fetch for read; {} calls", stand.calls))
}
